"""The client's updater, `clubcard-update`: it takes a site's parts and keeps a store of them."""
