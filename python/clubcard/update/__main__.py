"""`python3 -m clubcard.update` is `clubcard-update`."""

from .cli import main

main(prog_name="clubcard-update")
