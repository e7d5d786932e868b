"""Properties of the module, for values that Hypothesis draws."""

from typing import List, Union

from hypothesis import given
from hypothesis import strategies as draw

from clubcard import Query, Refusal, Refused, Sighting, Store, Verdict, serial_from_int
from test_clubcard import ISSUER, SEEN, STORE

KEYS = draw.one_of(draw.just(ISSUER), draw.just(SEEN.log), draw.binary(min_size=32, max_size=32))
TIMES = draw.one_of(draw.integers(SEEN.time - 2, SEEN.time + 1002), draw.integers(0, (1 << 64) - 1))
SIGHTINGS = draw.builds(Sighting, KEYS, TIMES)
SERIALS = draw.one_of(draw.sampled_from([b"\x05", b"\x06"]), draw.binary(max_size=34))
QUERIES = draw.builds(Query, KEYS, SERIALS, draw.lists(SIGHTINGS, max_size=3))


@given(draw.integers(0, (1 << 255) - 1))
def test_a_serial_is_its_number(number: int) -> None:
    octets = serial_from_int(number)
    assert int.from_bytes(octets, "big", signed=True) == number
    # The fewest octets: the first nine bits aren't all one bit (X.690, 8.3.2).
    assert len(octets) == 1 or octets[0] != 0 or octets[1] >= 128


def alone(store: Store, query: Query) -> Union[Verdict, Refusal]:
    """What is said of a query alone."""
    try:
        return store.query(query.issuer, query.serial, query.sightings)
    except Refused as refused:
        return refused.refusal


@given(draw.lists(QUERIES, max_size=8))
def test_queries_answer_alone_as_among_others(queries: List[Query]) -> None:
    store = Store(STORE)
    together = store.query_each(queries)
    assert together == [alone(store, query) for query in queries]
    for query, answer in zip(queries, together):
        assert (answer is Refusal.BAD_SERIAL) == (not 1 <= len(query.serial) <= 32)
    once = [query for query in queries if len(query.sightings) == 1]
    seen = [(query.issuer, query.serial, query.sightings[0].log, query.sightings[0].time) for query in once]
    assert store.query_seen(seen) == store.query_each(once)


@given(draw.binary(max_size=256), draw.binary(max_size=256), draw.binary(max_size=256))
def test_random_bytes_are_refused(store: bytes, cert: bytes, issuer_cert: bytes) -> None:
    for data in (store, STORE):
        try:
            said = Store(data).query_cert(cert, issuer_cert)
        except Refused as refused:
            assert refused.refusal is not Refusal.UNKNOWN
        else:
            assert said in Verdict
