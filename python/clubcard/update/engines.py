"""What the program's faults are for an update."""

from ..engine import BrokenChain, EngineError, PassedLimit, ProgramMissing, UnknownAnswer, WrongLayout, WrongWords
from .faults import Fault, NotReached, Refused, SetUp


def told(fault: EngineError) -> Fault:
    """A part that the program refuses is the site's fault; a program that can't be run, or is another one, is the
    set-up's; all others are of the system, and may be gone with the next run."""
    if isinstance(fault, (WrongLayout, BrokenChain, PassedLimit)):
        return Refused(f"clubcard {fault.command}: {fault.line}: the part isn't taken: tell the publisher")
    if isinstance(fault, (ProgramMissing, UnknownAnswer, WrongWords)):
        return SetUp(str(fault))
    return NotReached(str(fault))
