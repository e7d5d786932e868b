"""`python3 -m clubcard.ctl` is `clubcardctl`."""

from .start import main

main(prog_name="clubcardctl")
