"""A small web for the publisher's tests: authorities, logs, web servers, and what openssl says of each certificate."""
