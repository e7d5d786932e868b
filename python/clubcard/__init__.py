"""Whether a store of pushed certificate revocation says that a certificate is revoked, asked in this process.

A thin layer over libclubcard.so by ctypes; bindings/c/clubcard.h says what each call answers. The library is the first
of these that is there: the file that CLUBCARD_LIBRARY names, release/libclubcard.so of the project where the module
stands in its tree, the one beside which tools/install.sh put the module, and what the system finds under its name. It
is loaded when the first of Store, check_part and what they take and give is asked for; where there is none, that is an
ImportError.
What the library answers is proved; this module isn't.

What a verdict means: of a certificate that one of the jobs behind the store's parts accepted (and that was kept, where
the chain began anew), asked with one or more sightings of its accepted entries and no other, it is REVOKED where the
issuer's CRL lists the serial in an epoch since the certificate was first accepted, and else GOOD. Of any other
certificate, or asked otherwise, either of the two may come, whatever the CRL says: so of one that no job accepted,
since it was never shown to the publisher, or shown late, when an earlier job covered its sighting and enrolled its
issuer. No call can tell these from the others.

A store's bytes, issuers and certificates must be authentic: no signature is checked.
"""

from typing import TYPE_CHECKING, Any

from .answers import Refusal, Refused, Verdict
from .octets import serial_from_int
from .places import By, Places, PlacesError

if TYPE_CHECKING:
    from .fleet import Fleet, FleetError
    from .store import Facts, Part, Query, Sighting, Store, check_part, place

__all__ = [
    "By",
    "Facts",
    "Fleet",
    "FleetError",
    "Part",
    "Places",
    "PlacesError",
    "Query",
    "Refusal",
    "Refused",
    "Sighting",
    "Store",
    "Verdict",
    "check_part",
    "place",
    "serial_from_int",
]


def __getattr__(name: str) -> Any:
    """What wants the library, which is loaded when it is first asked for."""
    if name not in __all__:
        raise AttributeError(f"module {__name__} has no attribute {name}")
    from . import fleet, store

    return getattr(fleet if name.startswith("Fleet") else store, name)
