"""The table [places] of a CONFIG."""

from .places import MOST, Places, PlacesError, number_name
from .tables import Table


def read_places(top: Table) -> Places | None:
    """The plan of places; None where there is no such table."""
    if "places" not in top.values:
        return None
    table = Table(f"{top.place}: [places]", top.value("places", dict, "[places], a table"))
    table.only(("by", "count", "again"))
    by = table.text("by", '"issuer"')
    table.value("count", int, "16")
    count = table.number("count", 16, 1, MOST)
    again = Table(f"{table.place}: again", table.value("again", dict, "{ 0003 = 8 }", {}))
    if by == "issuer":
        again.only([number_name(number) for number in range(count)])
    try:
        return Places(by, count, {name: again.number(name, 8, 2, MOST) for name in sorted(again.values)})
    except PlacesError as fault:
        raise table.fault(str(fault)) from None
