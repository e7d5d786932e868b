"""What of an epoch fits into a job and the ledger: whom it enrols, and how far it covers the logs."""

from collections.abc import Iterator, Mapping
from dataclasses import dataclass, field, replace
from functools import cached_property

from ..crls import Crl
from ..layout.ledger import identities_in
from ..places import WHOLE, names_of
from ..times import nearest_iso
from . import rules
from .chain import Newest
from .issuers import Enrolment, KeptCrl
from .making import Making
from .showing import Showing
from .spool import LogRow, log_rows

# The least bytes that a listed serial takes in a CRL: two tags and lengths, a serial of one octet, and a time.
_LEAST_LISTED = 20


@dataclass(frozen=True)
class Plan:
    """What a job is made of. Issuers and logs go by their numbers in the state."""

    ranges: dict[int, rules.Range]
    crls: dict[int, tuple[KeptCrl, ...]]
    """Of the issuers that are enrolled."""
    left: dict[int, str] = field(default_factory=dict)
    """The issuers of CONFIG that are left out, and why."""

    def leave(self, issuer: int, why: str) -> "Plan":
        """The plan without an issuer."""
        crls = {number: crls for number, crls in self.crls.items() if number != issuer}
        return replace(self, crls=crls, left={**self.left, issuer: why})


def begun(making: Making, enrolment: Enrolment) -> Plan:
    """The plan before it is known what fits: all whom the CRLs enrol, and nothing covered."""
    number = making.state.issuer_id
    crls = {number(key): kept for key, kept in enrolment.crls.items()}
    return Plan({}, crls, {number(key): why for key, why in enrolment.left.items()})


def lacking(making: Making, showing: Showing, newest: Newest, plan: Plan) -> int:
    """How many identities more the ledgers would need for all that could be covered."""
    fit = _Fit(making, showing, newest)
    if making.waiting() <= fit.least_room:
        return 0
    showing.enrol(plan.crls)
    showing.cover(rules.ranges(_followed(making, newest.ranges), newest.ranges))
    fresh = showing.fresh(making.config.places)
    return sum(max(0, count - fit.room[name]) for name, count in fresh.items())


def fitted(making: Making, showing: Showing, newest: Newest | None, plan: Plan) -> Plan:
    """The plan with what its job is to cover: all that is known of the logs, where that fits.

    Else issuers are left out, those with the most first, until what the standing ranges show fits; then one time for
    all logs cuts what is newly covered, and the next epochs go on from there. Each is an alarm, and so is a chain that
    is to be split.
    """
    plan, standing = _with_crls(making, plan), newest.ranges if newest else {}
    logs = _followed(making, standing)
    fit = _Fit(making, showing, newest)
    for name in fit.near_full():
        text = f"more than two thirds of the {making.limits.identities} identities that it takes"
        making.alarms.add("room", f"{_told(name)} holds {text}: {_split(making)}")
    whole = rules.ranges(logs, standing)
    for number in rules.parted(logs, standing):
        why = "its coverage stands still, since between it and what could be newly covered not all entries were taken"
        making.alarms.add("log", f"log {logs[number].name}: {why}: begin a new state, or correct `first` and `mmd`")
    showing.enrol(plan.crls)
    if fit.fits(whole):
        return replace(plan, ranges=whole)
    plan = _with_standing(making, showing, fit, standing, plan)
    low, high = min(low for low, _ in whole.values()), max(high for _, high in whole.values())
    most = rules.cut(low - 1, high, lambda time: fit.fits(rules.ranges(logs, standing, time)))
    if most < high:
        making.alarms.add(
            "room", f"not all fits into the epoch: {fit.why}: it newly covers the logs to {nearest_iso(most)}"
        )
    # The search ended elsewhere.
    ranges = rules.ranges(logs, standing, most)
    showing.cover(ranges)
    return replace(plan, ranges=ranges)


@dataclass
class _Fit:
    """Whether what is shown fits, and why it didn't."""

    making: Making
    showing: Showing
    newest: Newest | None
    why: str = ""
    full: frozenset[str] = frozenset()
    """The places whose jobs or ledgers have no room."""

    def fits(self, ranges: Mapping[int, rules.Range]) -> bool:
        """Whether what these ranges show fits into the job and into the ledger of each place."""
        self.showing.cover(ranges)
        if self.fits_all:
            return True
        limits, shown = self.making.limits, self.showing.count()
        sizes = self.showing.entries(self.making.config.places) if shown > limits.entries else {}
        if large := frozenset(name for name, size in sizes.items() if size > limits.entries):
            self.why, self.full = f"a job takes {limits.entries} entries", large
            return False
        lacking = self.lacking() if shown > self.least_room else {}
        if lacking:
            self.full = frozenset(lacking)
            place, room = min(lacking.items())
            text = f"{_told(place)} takes {limits.identities} identities, and {room} more fit"
            self.why = f"{text}: {_split(self.making)}"
        return not lacking

    def near_full(self) -> list[str]:
        """The places whose ledgers hold more than two thirds of what they take."""
        return [name for name, room in self.room.items() if 3 * room < self.making.limits.identities]

    @cached_property
    def fits_all(self) -> bool:
        """Whether all that waits would fit, whatever of it is shown."""
        return self.making.waiting() <= min(self.making.limits.entries, self.least_room)

    @cached_property
    def room(self) -> dict[str, int]:
        """How many identities more each ledger takes, by places."""
        limit = self.making.limits.identities
        if self.newest is None:
            return dict.fromkeys(names_of(self.making.config.places), limit)
        return {name: max(0, limit - identities_in(held.ledger)) for name, held in self.newest.places.items()}

    @property
    def least_room(self) -> int:
        """How many identities more fit, wherever their places are."""
        return min(self.room.values())

    def lacking(self) -> dict[str, int]:
        """The places whose ledgers lack room for what is shown, with the room that they have."""
        fresh = self.showing.fresh(self.making.config.places)
        return {name: self.room[name] for name, count in fresh.items() if count > self.room[name]}


def _told(place: str) -> str:
    """How an alarm names a place."""
    return "the ledger" if place == WHOLE else f"place {place}"


def _split(making: Making) -> str:
    """What to do where a chain holds too much."""
    finer = "cut it finer in [places], by issuer or by identity"
    return f"{finer}, and run `clubcard-publish split {making.config.path}`"


def _followed(making: Making, standing: Mapping[int, rules.Range]) -> dict[int, LogRow]:
    """What is known of the logs that CONFIG names, by their numbers; of as many as a job has ranges for, beside those
    that stand."""
    named = {log.id for log in making.config.logs}
    logs = {row.id: row for row in log_rows(making.state) if row.key in named}
    most = making.limits.ranges
    for number in [number for number in sorted(logs) if number not in standing][max(0, most - len(standing)) :]:
        text = f"log {logs.pop(number).name} isn't covered: a job takes {most} ranges, and what was covered stays so"
        making.alarms.add("room", f"{text}: begin a new state and a new site")
    return logs


def _with_standing(
    making: Making, showing: Showing, fit: _Fit, standing: Mapping[int, rules.Range], plan: Plan
) -> Plan:
    """The plan without issuers of whom more waits than fits, in what was covered before."""
    while not fit.fits(standing):
        sizes = _in_full_places(making, fit, showing.sizes())
        issuer = rules.heaviest(sizes)
        why = f"{sizes[issuer]} of its entries wait in what is covered, and {fit.why}"
        making.alarms.add("room", f"{making.issuer_name(issuer)} is left out: {why}")
        plan = plan.leave(issuer, why)
        showing.enrol(plan.crls)
    return plan


def _in_full_places(making: Making, fit: _Fit, sizes: dict[int, int]) -> dict[int, int]:
    """The sizes of those issuers that are at places without room, where these are why not all fits."""
    places = making.config.places
    if places is None or not fit.full:
        return sizes
    keys = dict(making.db.execute("SELECT id, key FROM issuer"))
    return {n: size for n, size in sizes.items() if any(places.has_issuer(name, keys[n]) for name in fit.full)}


def _with_crls(making: Making, plan: Plan) -> Plan:
    """The plan without issuers whose CRLs are more, or list more serials, than fit into a job."""
    limits = making.limits
    plan = _lightened(making, plan, {issuer: len(crls) for issuer, crls in plan.crls.items()}, limits.crls, "CRLs")
    octets = sum(crl.file.stat().st_size for crls in plan.crls.values() for crl in crls)
    if octets // _LEAST_LISTED <= limits.serials:
        return plan
    sizes = {issuer: sum(1 for crl in crls for _ in listed_in(crl)) for issuer, crls in plan.crls.items()}
    return _lightened(making, plan, sizes, limits.serials, "serials in its CRLs")


def _lightened(making: Making, plan: Plan, sizes: dict[int, int], most: int, what: str) -> Plan:
    """The plan without the issuers that have the most of something, of which a job takes so much."""
    while sum(sizes.values()) > most:
        issuer = rules.heaviest(sizes)
        why = f"it has {sizes.pop(issuer)} {what}, and a job takes {most}"
        making.alarms.add("room", f"{making.issuer_name(issuer)} is left out: {why}")
        plan = plan.leave(issuer, why)
    return plan


def listed_in(kept: KeptCrl) -> Iterator[bytes]:
    """The serials that a kept CRL lists."""
    return Crl(kept.file.read_bytes(), kept.number, kept.this_update, kept.next_update, ()).listed()
