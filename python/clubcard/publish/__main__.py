"""`python3 -m clubcard.publish` is `clubcard-publish`."""

from .cli import main

main(prog_name="clubcard-publish")
