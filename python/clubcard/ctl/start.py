"""Starts `clubcardctl`, whose status 1 says something of a certificate or a file: nothing else ends with it."""

import sys
from typing import NoReturn

_UNLOADED = 7
_UNFORESEEN = 70


def main(prog_name: str = "clubcardctl") -> NoReturn:
    """Runs the words of the call. Where a module that it needs can't be loaded the status is 7."""
    try:
        from .cli import main as command
    except BaseException as error:  # pylint: disable=broad-except
        remedy = "install python3-click and python3-cryptography"
        print(f"{prog_name}: it can't be loaded ({type(error).__name__}: {error}); {remedy}", file=sys.stderr)
        sys.exit(_UNLOADED)
    try:
        command(prog_name=prog_name)
    except OSError:
        # Standard error isn't written.
        sys.exit(_UNFORESEEN)
    sys.exit(0)
