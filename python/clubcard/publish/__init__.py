"""The publisher: from authorities and logs to a published site, around the proved program."""
