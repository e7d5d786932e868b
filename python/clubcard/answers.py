"""What the library answers: verdicts, and why there is none. The numbers are those of clubcard.h."""

import enum
from typing import Dict, Optional, Union


class _Answer(enum.Enum):
    """Neither true nor false: `if store.query(..):` is a TypeError, since it would hold for each verdict."""

    def __bool__(self) -> bool:
        raise TypeError(f"{self} is neither true nor false: compare it, as in `answer is Verdict.GOOD`")


class Verdict(_Answer):
    """What a store says of a certificate. Only GOOD says that it isn't revoked; the module says what that means."""

    NOT_COVERED = 1
    NOT_ENROLLED = 2
    GOOD = 3
    REVOKED = 4


class Refusal(_Answer):
    """Why there is no verdict."""

    LAYOUT_SHORT = 16
    LAYOUT_VALUE = 17
    LAYOUT_DIGEST = 18
    NOT_SNAPSHOT = 32
    NOT_DELTA = 33
    WRONG_PARENT = 34
    OLD_EPOCH = 35
    COVERAGE_SHRINKS = 36
    CHAIN_FULL = 37
    STORE_TOO_LONG = 38
    BAD_SERIAL = 48
    BAD_SIGHTINGS = 49
    BAD_PLACES = 50
    CERT_MALFORMED = 64
    CERT_NO_SCTS = 65
    CERT_BAD_SCTS = 66
    CERT_TOO_MANY_SCTS = 67
    ISSUER_CERT_MALFORMED = 68
    INDEX_TOO_SHORT = 80
    ROOM_TOO_SHORT = 81
    BAD_SIZE = 82
    NO_MEMORY = 112
    # A number that this module doesn't know, or that isn't one of the call. No library answers -1 itself.
    UNKNOWN = -1


# What was asked for stands in what was lent for it. It is no verdict.
DONE = 0

_WITH_OFFSET = (Refusal.LAYOUT_SHORT, Refusal.LAYOUT_VALUE, Refusal.LAYOUT_DIGEST)
_ANSWERS: Dict[int, Union[Verdict, Refusal]] = {answer.value: answer for answer in (*Verdict, *Refusal)}


class Refused(Exception):
    """A call gave no verdict.

    `refusal` says why. For the refusals of the layout `offset` is that of the field at fault, of a store or of a part,
    and `field` its name in docs/FORMATS.md, such as "part.trailer"; else they are 0 and empty. `number` is the
    library's own, which says more than `refusal` where that is UNKNOWN.
    """

    def __init__(self, refusal: Refusal, offset: int = 0, number: Optional[int] = None, field: str = "") -> None:
        self.refusal = refusal
        self.offset = offset
        self.number: int = refusal.value if number is None else number
        self.field = field
        # All that the next copy is made of, as by pickle.
        super().__init__(refusal, offset, self.number, field)

    def __str__(self) -> str:
        if self.refusal in _WITH_OFFSET:
            return f"{self.refusal.name} at {self.offset}"
        if self.refusal is Refusal.UNKNOWN:
            return f"{self.refusal.name}, the number {self.number}"
        return self.refusal.name


def answer_of(number: int) -> Union[Verdict, Refusal]:
    """The verdict, or the refusal, of one of the library's numbers."""
    return _ANSWERS.get(number, Refusal.UNKNOWN)


def refused_by(number: int, offset: int = 0, field: str = "") -> Refused:
    """What is raised where a call that should have answered something else answers this number."""
    answer = answer_of(number)
    return Refused(answer if isinstance(answer, Refusal) else Refusal.UNKNOWN, offset, number, field)
