"""A history of three jobs by hand, with queries and their answers. One certificate is revoked by the second job and
seen again by another log in the third, one is late, and two are good, of which one was listed before it came."""

from reference import Crl, Entry, Job, T, ident

K1, K2, LA, LB = (bytes([octet]) * 32 for octet in (0x11, 0x22, 0xAA, 0xBB))

JOBS = [
    Job(1, T, [(LA, T, T + 1000)], [(K1, Crl([]))], [Entry(K1, b"\5", LA, T)]),
    Job(
        2,
        T,
        [(LA, T, T + 2000)],
        [(K1, Crl([b"\5", b"\x08"]))],
        [Entry(K1, b"\6", LA, T + 1500), Entry(K1, b"\7", LA, T + 500)],
    ),
    Job(
        3,
        T,
        [(LA, T, T + 2000), (LB, T, T + 1000)],
        [(K1, Crl([]))],
        [Entry(K1, b"\5", LB, T + 10), Entry(K1, b"\x08", LB, T + 20)],
    ),
]

QUERIES = [
    (ident(K1, b"\5"), [(LA, T)]),
    (ident(K1, b"\5"), [(LB, T + 10)]),
    (ident(K1, b"\6"), [(LA, T + 1500)]),
    (ident(K1, b"\x08"), [(LB, T + 20)]),
    (ident(K2, b"\5"), [(LA, T)]),
    (ident(K1, b"\5"), [(LA, T + 2001)]),
]

ANSWERS = ["revoked", "revoked", "good", "good", "not-enrolled", "not-covered"]
