"""Worlds that the tests play."""

import random
from dataclasses import replace

from .world import HOUR, LONG, MINUTE, Cert, Entry, Issuer, Log, World, at

STEP = 6
"""Hours between two epochs."""


def _issued(rng: random.Random, world: World, quiet: dict[int, tuple[float, float]]) -> Cert:
    """A random certificate. `quiet`: between which hours an issuer issues none."""
    last = (world.moments[-1] - at(0)) / HOUR
    issuer = rng.randrange(len(world.issuers))
    born = rng.uniform(-12, last)
    low, high = quiet.get(issuer, (0, 0))
    while low < born < high:
        born = rng.uniform(-12, last)
    until = at(born + rng.choice([9, 15, 40])) // 1000 if rng.random() < 0.2 else LONG + rng.randrange(1000)
    return Cert(
        issuer,
        rng.getrandbits(rng.choice([7, 8, 64, 128, 158])) | 1 << 6,
        until,
        _entries(rng, world, at(born)),
        _revocations(rng, born),
        crl=rng.randrange(world.issuers[issuer].crls),
        keeps=rng.random() < 0.5,
    )


def _entries(rng: random.Random, world: World, born: int) -> tuple[Entry, ...]:
    """Timestamps of one to three logs, each merged within its MMD."""
    places = rng.sample(range(len(world.logs)), min(rng.choice([1, 2, 2, 3]), len(world.logs)))
    out = []
    for number, place in enumerate(places):
        time = born + rng.randrange(20 * MINUTE)
        delay = rng.choice([0, rng.randrange(world.logs[place].mmd), world.logs[place].mmd])
        out.append(Entry(place, time, time + delay, whole=number > 0 and rng.random() < 0.1))
    return tuple(out)


def _revocations(rng: random.Random, born: float) -> tuple[tuple[int, int | None], ...]:
    """None mostly; a revocation; a hold that is lifted; a hold and a revocation behind it."""
    chance, on = rng.random(), born + rng.uniform(0, 30)
    if chance < 0.15:
        return ((at(on), None),)
    if chance < 0.25:
        return ((at(on), at(on + rng.uniform(1, 14))),)
    return ((at(on), at(on + 7)), (at(on + 13), None)) if chance < 0.3 else ()


def _with_certs(world: World, seed: int, count: int, quiet: dict[int, tuple[float, float]]) -> World:
    """The world with so many certificates, whose issuers and serials differ."""
    rng = random.Random(seed)
    certs: dict[tuple[int, int], Cert] = {}
    while len(certs) < count:
        cert = _issued(rng, world, quiet)
        certs[cert.issuer, cert.serial] = cert
    return replace(world, certs=tuple(certs.values()))


def eight_epochs(count: int) -> World:
    """The great world: eight epochs, seven authorities, three logs.

    Issuer 1 has four CRLs, of which one is missing in epoch 3 (the one before is still in time), and again in
    epochs 5 and 6 (it isn't any more in 6). Issuer 4 is issuer 3 with a new key, which CONFIG names from epoch 4
    on. Issuer 5 is away in epochs 2 and 3, while it issues; so it holds back the rebase that is due in epoch 3.
    Issuer 6 is away in epochs 4 and 5, and so over the rebase behind epoch 4; it issues nothing then and shortly
    before. Log 0 grows between its tree head and its entries. Log 2 joins in epoch 3, from a size above 0 on.
    """
    short, long = STEP * HOUR // 2, 3 * STEP * HOUR // 2
    issuers = (
        Issuer(key="rsa", kind="intermediate", valid=short),
        Issuer(crls=4, valid=long, bad=((3, 2, "missing"), (5, 2, "missing"), (6, 2, "garbage"))),
        Issuer(kind="crossed", points="named"),
        Issuer(points="none"),
        Issuer(old=3, join=4),
        Issuer(valid=short, gone=(2, 4)),
        Issuer(valid=short, gone=(4, 6)),
    )
    logs = (
        Log(mmd=4 * HOUR, bad=((2, "grows"), (5, "grows"))),
        Log(mmd=HOUR, kind="static", every=5 * MINUTE),
        Log(mmd=2 * HOUR, join=3, first_at=at(2)),
    )
    moments = tuple(at(STEP * (epoch + 1)) + 137 * epoch for epoch in range(8))
    world = World(moments, logs, issuers, (), rebase_after=4, grace=STEP * HOUR)
    return _with_certs(world, 63, count, {6: (STEP * 4 - 7, STEP * 6)})


def four_epochs(count: int = 24) -> World:
    """A small world with so many certificates, and with what runs meet: a rebase behind epoch 2, an issuer that is away
    in epoch 1, two kinds of logs, and a log whose answer fails in epoch 3."""
    issuers = (Issuer(crls=2), Issuer(valid=HOUR, bad=((1, 0, "missing"),)))
    logs = (Log(mmd=HOUR), Log(mmd=HOUR, kind="static", bad=((3, "garbage"),)))
    moments = tuple(at(STEP * (epoch + 1)) for epoch in range(4))
    world = World(moments, logs, issuers, (), rebase_after=3, grace=STEP * HOUR)
    return _with_certs(world, 17, count, {})
