"""Reads EPOCH by the rules of the publisher's CONFIG: unknown keys are refused, and paths are relative to it."""

import re
from pathlib import Path

from clubcard.places import Places, names_of
from clubcard.places_table import read_places
from clubcard.tables import Table, read_config

from .chains import PUBLISHED, Before, Rebase, first_of, origins_of, places_in
from .plan import MOST_NAMES, Log, Plan, pages_in, program_of, test

_KEYS = "epoch moment program workers pages places before rebase crl log".split()
_MOST = (1 << 64) - 1


def load(path: Path) -> Plan:
    """The plan of an EPOCH, and of the files that are there now. Raises ConfigError, PlanError and OSError."""
    table, base = Table(str(path), read_config(path)), path.absolute().parent
    table.only(_KEYS)
    crls = tuple(_crl(each, base) for each in table.tables("crl"))
    logs = tuple(_log(each, base) for each in table.tables("log"))
    places = read_places(table)
    before, rebase = _before(table, base, places)
    read = [file for _, file in crls] + [page for log in logs for page in log.pages]
    read += [f"{folder}/{PUBLISHED}" for folder in before.folders] if before else []
    plan = Plan(
        program=program_of(table.text("program", '"clubcard"', "clubcard"), base),
        epoch=_number(table, "epoch", "1"),
        moment=_number(table, "moment", "1700000000000"),
        workers=table.number("workers", 4, 1, 64),
        most=table.number("pages", 256, 1, MOST_NAMES),
        crls=crls,
        logs=tuple(sorted(logs, key=lambda log: log.log)),
        places=places,
        before=before,
        rebase=rebase,
        seen={file: _seen(file) for file in read},
    )
    test(plan)
    return plan


def _number(table: Table, key: str, said: str) -> int:
    """A number of 64 bits."""
    value = int(table.value(key, int, said))
    if not 0 <= value <= _MOST:
        raise table.wrong(key, f"{value} isn't a number of 64 bits: write {key} = {said}")
    return value


def _key(table: Table, key: str) -> str:
    """An issuer or a log's id in hexadecimal."""
    said = '"ab.." of 64 hexadecimal digits'
    value = table.text(key, said).lower()
    if re.fullmatch("[0-9a-f]{64}", value) is None:
        raise table.wrong(key, f"{value!r} isn't a SHA-256: write {key} = {said}")
    return value


def _crl(table: Table, base: Path) -> tuple[str, str]:
    table.only(("issuer", "file"))
    return _key(table, "issuer"), str(base / table.text("file", '"1.crl"'))


def _log(table: Table, base: Path) -> Log:
    table.only(("log", "from", "to", "pages"))
    low, high = (_number(table, key, "1700000000000") for key in ("from", "to"))
    if low > high:
        raise table.fault("its range ends before it begins: exchange `from` and `to`")
    return Log(_key(table, "log"), low, high, pages_in(base / table.text("pages", '"pages"')))


def _before(top: Table, base: Path, places: Places | None) -> tuple[Before | None, Rebase | None]:
    """The chains so far, and which of them begin anew."""
    if "before" not in top.values:
        if "rebase" in top.values:
            raise top.fault("[rebase] wants chains that begin anew: name their epochs in [before]")
        return None, None
    table = Table(f"{top.place}: [before]", top.value("before", dict, "[before], a table"))
    table.only(("folders",))
    folders = tuple(str(base / folder) for folder in table.texts("folders", '["1"]'))
    rebase = _rebase(top, places_in(folders[-1]), places)
    going = [name for name in names_of(places) if rebase is None or name not in rebase.origins]
    return Before(folders, first_of(folders, places, going)), rebase


def _rebase(top: Table, old: Places | None, new: Places | None) -> Rebase | None:
    """Which chains begin anew."""
    if "rebase" not in top.values:
        origins_of(old, new, ())
        return None
    table = Table(f"{top.place}: [rebase]", top.value("rebase", dict, "[rebase], a table"))
    table.only(("moment", "places"))
    names = table.texts("places", '["0003"]') if "places" in table.values else names_of(old)
    return Rebase(_number(table, "moment", "1690000000000"), origins_of(old, new, names))


def _seen(file: str) -> tuple[int, int]:
    """The size of a file, and when it was written."""
    found = Path(file).stat()
    return found.st_size, found.st_mtime_ns
