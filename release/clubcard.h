/*
 * clubcard: whether a store of pushed certificate revocation says that a certificate is revoked, asked in the process
 * of the caller, with nothing asked over a network.
 *
 * Link with libclubcard.a or libclubcard.so. What each call answers is proved of the Rattle code behind it
 * (crates/clubcard_c and crates/lending_core of the project), for any bytes and any numbers that it is lent. Not
 * proved is this file, which says the same in words.
 *
 * What a caller owes, and no call tests:
 *   - Each pointer is that of as many bytes, or elements, as its length says. Where the length is 0 it may be NULL.
 *     `issuer`, `log`, `facts`, `words`, `until`, `place` and `at`, which have no length, are never NULL.
 *   - Each pointer is aligned as its type is: on x86-64 `sightings`, `facts`, `words`, `until`, `place` and `at` to 8
 *     bytes, `queries` and `index` to 4.
 *   - A length is below 2^63 bytes in all.
 *   - What a call writes to (`at`, `facts`, `queries`, `words`, `until`, `place`, `new_store`, and `index` of
 *     clubcard_open) overlaps nothing else that the call is lent, and no other thread touches it during the call. What
 *     is only read may be shared by any number of threads, and nobody writes to it during the call.
 *   - malloc, realloc and free are of one allocator. It aligns a block to each power of two up to 16 that divides the
 *     block's size. No call is made from a signal handler, nor in the child of a fork of a process with threads.
 *
 * No call keeps anything: no state, no memory, no file. It reads nothing but what it is lent.
 *
 * There are two ways to ask. The calls from clubcard_open on, of interface 2, read a store whole once, into an index
 * that is the caller's own; then each question reads no more than it needs, and may come from any number of threads.
 * None of these calls takes memory. The calls before them, of interface 1, have no index: each reads the store whole.
 *
 * A store's bytes, issuers and certificates must be authentic: no signature is checked.
 */
#ifndef CLUBCARD_H
#define CLUBCARD_H

#include <stddef.h>
#include <stdint.h>

#ifdef __cplusplus
extern "C" {
#endif

/* The version of this interface: of its names, parameters, numbers and structs. */
#define CLUBCARD_INTERFACE 2

/*
 * Answers. No verdict is 0, and each refusal is above each verdict. Only CLUBCARD_GOOD says that a certificate isn't
 * revoked: test for it, and not for the absence of CLUBCARD_REVOKED.
 *
 * What a verdict means: of a certificate that one of the jobs behind the store's parts accepted (and that was kept,
 * where the chain began anew), asked with one or more sightings of its accepted entries and no other, it is
 * CLUBCARD_REVOKED where the issuer's CRL lists the serial in an epoch since the certificate was first accepted, and
 * else CLUBCARD_GOOD. Of any other certificate, or asked otherwise, either of the two may come, whatever the CRL says:
 * so of one that no job accepted, since it was never shown to the publisher, or shown late, when an earlier job covered
 * its sighting and enrolled its issuer. No call can tell these from the others.
 */
enum {
    /* Done: what was asked for stands in what was lent for it. It is no verdict. */
    CLUBCARD_DONE = 0,

    /* Verdicts. */
    CLUBCARD_NOT_COVERED = 1,  /* no part covers one of the sightings */
    CLUBCARD_NOT_ENROLLED = 2, /* parts cover one, and none of these has a block of the certificate's issuer */
    CLUBCARD_GOOD = 3,         /* each block of the issuer in the covering parts tests negative: not revoked */
    CLUBCARD_REVOKED = 4,      /* one of them tests positive: revoked */

    /* Refusals: the bytes break the layout of a store, or of a part. `at` says where. */
    CLUBCARD_LAYOUT_SHORT = 16,  /* a field isn't all there */
    CLUBCARD_LAYOUT_VALUE = 17,  /* a field fails its test, or bytes lie behind the last */
    CLUBCARD_LAYOUT_DIGEST = 18, /* a digest isn't that of the bytes before it */

    /* Refusals: the parts are no chain. */
    CLUBCARD_NOT_SNAPSHOT = 32,     /* the first part is a delta */
    CLUBCARD_NOT_DELTA = 33,        /* a later part is a snapshot */
    CLUBCARD_WRONG_PARENT = 34,     /* a part's parent isn't the trailer of the part before it */
    CLUBCARD_OLD_EPOCH = 35,        /* a part's epoch isn't above that of the part before it */
    CLUBCARD_COVERAGE_SHRINKS = 36, /* a range of the part before it lies in none of a part's */
    CLUBCARD_CHAIN_FULL = 37,       /* a part has 64 before it (of bytes, a count above 64 is refused before) */

    /* Refusal: of a store that can't be opened, whatever its bytes are. */
    CLUBCARD_STORE_TOO_LONG = 38, /* it has 2^32 bytes or more */

    /* Refusals: of what is asked. */
    CLUBCARD_BAD_SERIAL = 48,    /* the serial has no octet, or more than 32 */
    CLUBCARD_BAD_SIGHTINGS = 49, /* a query's sightings aren't among those that are lent */
    CLUBCARD_BAD_PLACES = 50,    /* the places aren't 1 to 65,536, or are by neither issuers nor identities */

    /* Refusals: of a certificate, or of its issuer's. */
    CLUBCARD_CERT_MALFORMED = 64,        /* it isn't a certificate of RFC 5280 in DER, or is longer than 1 MiB */
    CLUBCARD_CERT_NO_SCTS = 65,          /* it carries no signed certificate timestamp of version 1 (RFC 6962) */
    CLUBCARD_CERT_BAD_SCTS = 66,         /* its list of timestamps can't be read */
    CLUBCARD_CERT_TOO_MANY_SCTS = 67,    /* it carries more than 64 */
    CLUBCARD_ISSUER_CERT_MALFORMED = 68, /* the issuer's isn't a certificate of RFC 5280 in DER, or is too long */

    /* Refusals: of what is lent to be written. */
    CLUBCARD_INDEX_TOO_SHORT = 80, /* the index has fewer words than the store's has */
    CLUBCARD_ROOM_TOO_SHORT = 81,  /* the room for the new store is shorter than the new store */
    CLUBCARD_BAD_SIZE = 82,        /* the `size` of the facts isn't that of this interface's struct */

    /* Want of memory. The same call may answer otherwise when there is more. */
    CLUBCARD_NO_MEMORY = 112
};

/* When a log saw a certificate. */
typedef struct clubcard_sighting {
    uint8_t log[32]; /* the log's id (RFC 6962, 3.2) */
    uint64_t time;   /* milliseconds since 1970 */
} clubcard_sighting;

/* One of many queries of a store. Their sightings stand in one list that is lent beside them. */
typedef struct clubcard_one_query {
    uint8_t issuer[32];      /* the SHA-256 of the issuer's DER SubjectPublicKeyInfo */
    uint8_t serial[32];      /* the octets of the serial, from the first place on */
    uint32_t serial_len;     /* how many they are */
    uint32_t first_sighting; /* the place of the query's first sighting in the list, from 0 */
    uint32_t sightings;      /* how many are the query's */
    uint32_t answer;         /* written by the call: a verdict or a refusal */
} clubcard_one_query;

/* What a store holds. */
typedef struct clubcard_facts {
    uint64_t parts;        /* how many parts, 1 to 64 */
    uint64_t newest_epoch; /* the epoch of the newest one */
} clubcard_facts;

/*
 * What the calls of interface 2 tell beside their answers. Before the call the caller sets `size` to the size of the
 * struct, as by `clubcard_store_facts facts = {sizeof facts};`, and the call leaves it; with another one it answers
 * CLUBCARD_BAD_SIZE and writes nothing. For a refusal of the layout `at` is the offset of the field at fault, and
 * `field` its number, of which clubcard_field_name makes the name; else both are 0.
 */

/* What an opened store holds. */
typedef struct clubcard_store_facts {
    uint64_t size;
    uint64_t parts;        /* how many parts, 1 to 64 */
    uint64_t newest_epoch; /* the epoch of the newest one */
    uint64_t index_len;    /* how many words its index has */
    uint64_t at;
    uint64_t field;
} clubcard_store_facts;

/* What a part holds. */
typedef struct clubcard_part_facts {
    uint64_t size;
    uint64_t kind;    /* 0 of a snapshot, 1 of a delta */
    uint64_t epoch;   /* its epoch */
    uint64_t ranges;  /* how many ranges of logs it covers */
    uint64_t issuers; /* how many issuers it has a block of */
    uint64_t at;
    uint64_t field;
    uint8_t trailer[32]; /* the SHA-256 of its bytes before the last 32, which these are */
} clubcard_part_facts;

/* How a part was installed. */
typedef struct clubcard_install_facts {
    uint64_t size;
    uint64_t length; /* how many bytes the new store has */
    uint64_t at;     /* of the store's field at fault, or of the part's */
    uint64_t field;
} clubcard_install_facts;

/* The layout of the structs, which the library was made with. Compilers of C11, of C++11 and later test it. */
#if defined(__cplusplus) && __cplusplus >= 201103L
#define CLUBCARD_ASSERT(condition) static_assert(condition, "a struct of clubcard.h has another layout")
#elif !defined(__cplusplus) && defined(__STDC_VERSION__) && __STDC_VERSION__ >= 201112L
#define CLUBCARD_ASSERT(condition) _Static_assert(condition, "a struct of clubcard.h has another layout")
#endif
#ifdef CLUBCARD_ASSERT
CLUBCARD_ASSERT(sizeof(clubcard_sighting) == 40);
CLUBCARD_ASSERT(offsetof(clubcard_sighting, log) == 0);
CLUBCARD_ASSERT(offsetof(clubcard_sighting, time) == 32);
CLUBCARD_ASSERT(sizeof(clubcard_one_query) == 80);
CLUBCARD_ASSERT(offsetof(clubcard_one_query, issuer) == 0);
CLUBCARD_ASSERT(offsetof(clubcard_one_query, serial) == 32);
CLUBCARD_ASSERT(offsetof(clubcard_one_query, serial_len) == 64);
CLUBCARD_ASSERT(offsetof(clubcard_one_query, first_sighting) == 68);
CLUBCARD_ASSERT(offsetof(clubcard_one_query, sightings) == 72);
CLUBCARD_ASSERT(offsetof(clubcard_one_query, answer) == 76);
CLUBCARD_ASSERT(sizeof(clubcard_facts) == 16);
CLUBCARD_ASSERT(offsetof(clubcard_facts, parts) == 0);
CLUBCARD_ASSERT(offsetof(clubcard_facts, newest_epoch) == 8);
CLUBCARD_ASSERT(sizeof(clubcard_store_facts) == 48);
CLUBCARD_ASSERT(offsetof(clubcard_store_facts, size) == 0);
CLUBCARD_ASSERT(offsetof(clubcard_store_facts, parts) == 8);
CLUBCARD_ASSERT(offsetof(clubcard_store_facts, newest_epoch) == 16);
CLUBCARD_ASSERT(offsetof(clubcard_store_facts, index_len) == 24);
CLUBCARD_ASSERT(offsetof(clubcard_store_facts, at) == 32);
CLUBCARD_ASSERT(offsetof(clubcard_store_facts, field) == 40);
CLUBCARD_ASSERT(sizeof(clubcard_part_facts) == 88);
CLUBCARD_ASSERT(offsetof(clubcard_part_facts, size) == 0);
CLUBCARD_ASSERT(offsetof(clubcard_part_facts, kind) == 8);
CLUBCARD_ASSERT(offsetof(clubcard_part_facts, epoch) == 16);
CLUBCARD_ASSERT(offsetof(clubcard_part_facts, ranges) == 24);
CLUBCARD_ASSERT(offsetof(clubcard_part_facts, issuers) == 32);
CLUBCARD_ASSERT(offsetof(clubcard_part_facts, at) == 40);
CLUBCARD_ASSERT(offsetof(clubcard_part_facts, field) == 48);
CLUBCARD_ASSERT(offsetof(clubcard_part_facts, trailer) == 56);
CLUBCARD_ASSERT(sizeof(clubcard_install_facts) == 32);
CLUBCARD_ASSERT(offsetof(clubcard_install_facts, size) == 0);
CLUBCARD_ASSERT(offsetof(clubcard_install_facts, length) == 8);
CLUBCARD_ASSERT(offsetof(clubcard_install_facts, at) == 16);
CLUBCARD_ASSERT(offsetof(clubcard_install_facts, field) == 24);
#undef CLUBCARD_ASSERT
#endif

/* ---- interface 1 */

/* The version of the interface that the library has: CLUBCARD_INTERFACE of the header that it was made with. */
uint32_t clubcard_interface(void);

/*
 * The verdict on the certificate with this issuer key's hash (32 bytes: the SHA-256 of the issuer's DER
 * SubjectPublicKeyInfo) and this serial (the contents octets of serialNumber, 1 to 32 of them), which logs saw. Any
 * number of sightings is answered; by none, no store covers the certificate.
 *
 * For bytes that are a store, and a serial: the verdict of its parts. Else the refusal of the first fault: of the
 * store's layout or chain, in the order of its bytes, and then of the serial. Either way, for want of memory,
 * CLUBCARD_NO_MEMORY. `*at` is written: the offset of the field at fault, for the refusals of the layout, and else 0.
 */
uint32_t clubcard_query(const uint8_t *store, size_t store_len, const uint8_t issuer[32], const uint8_t *serial,
                        size_t serial_len, const clubcard_sighting *sightings, size_t sightings_len, uint64_t *at);

/*
 * The verdict on a certificate by the timestamps that it carries and its issuer's certificate, both in DER.
 *
 * For bytes that are a store, and certificates that are read: the verdict of its parts on the certificate's serial,
 * the key of the issuer's certificate, and the timestamps of version 1. It has the meaning above where one of these is
 * of an accepted entry, and so is each that a part covers. Else the refusal of the first fault: of the
 * store as above, then of the certificate (its form, then its timestamps), then of the issuer's. `*at` is as above.
 */
uint32_t clubcard_query_cert(const uint8_t *store, size_t store_len, const uint8_t *cert, size_t cert_len,
                             const uint8_t *issuer_cert, size_t issuer_cert_len, uint64_t *at);

/*
 * Answers many queries of one store, which is read once: into `answer` of each query it writes the number that the
 * query has for itself, as clubcard_query answers it, or CLUBCARD_BAD_SIGHTINGS (after the test of the serial) where
 * its sightings aren't among those that are lent. Nothing else of the queries is changed.
 *
 * The call itself answers CLUBCARD_DONE for bytes that are a store, whatever the queries. Else it answers the refusal
 * of the store, and writes that number into each query. For want of memory it answers CLUBCARD_NO_MEMORY, and writes
 * that into each query. `*at` is as above.
 */
uint32_t clubcard_query_each(const uint8_t *store, size_t store_len, const clubcard_sighting *sightings,
                             size_t sightings_len, clubcard_one_query *queries, size_t queries_len, uint64_t *at);

/*
 * Tests a store's bytes. For bytes that are a store it answers CLUBCARD_DONE, and writes how many parts it has and the
 * newest one's epoch. Else it answers the refusal of the first fault of the layout or chain, or CLUBCARD_NO_MEMORY, and
 * writes 0 and 0. `*at` is as above.
 */
uint32_t clubcard_examine(const uint8_t *store, size_t store_len, clubcard_facts *facts, uint64_t *at);

/* ---- interface 2 */

/*
 * How many words of 32 bits the index of a store has, so that a caller knows what to take for it.
 *
 * For bytes that are a store, and fewer than 2^32, it answers CLUBCARD_DONE and writes the number. For any other bytes
 * it answers CLUBCARD_DONE and writes some number, or CLUBCARD_LAYOUT_VALUE and writes 0: no digest is made, so that
 * most damage isn't seen.
 */
uint32_t clubcard_index_length(const uint8_t *store, size_t store_len, uint64_t *words);

/*
 * Opens a store: tests its bytes as clubcard_examine does, and writes its index, which the calls below are lent with
 * it. Nothing has to be closed. Bytes and index may be used as long as neither is changed; new bytes are opened anew.
 *
 * It answers CLUBCARD_DONE exactly for bytes that are a store, fewer than 2^32, and an index that is long enough:
 * then the first facts->index_len words of the index are the store's, and `facts` says what the store holds. Else it
 * answers the refusal of clubcard_examine, CLUBCARD_STORE_TOO_LONG or CLUBCARD_INDEX_TOO_SHORT, for which
 * facts->index_len is what is wanted; then the index may hold anything.
 */
uint32_t clubcard_open(const uint8_t *store, size_t store_len, uint32_t *index, size_t index_len,
                       clubcard_store_facts *facts);

/*
 * The verdict of an opened store, by the same parameters as clubcard_query. The index, here and below, is the first
 * facts->index_len words that clubcard_open wrote.
 *
 * For bytes that clubcard_open took, with the index that it wrote: the verdict of the store's parts, as clubcard_query
 * answers it, or CLUBCARD_BAD_SERIAL. For any other bytes or words it ends, reads nothing but what it is lent, and
 * answers some verdict or CLUBCARD_BAD_SERIAL: so it has no meaning where the bytes were changed since.
 */
uint32_t clubcard_ask(const uint8_t *store, size_t store_len, const uint32_t *index, size_t index_len,
                      const uint8_t issuer[32], const uint8_t *serial, size_t serial_len,
                      const clubcard_sighting *sightings, size_t sightings_len);

/*
 * The verdict of an opened store on a certificate, by the timestamps that it carries, and its issuer's certificate, as
 * clubcard_query_cert answers it; or the refusal of the first fault: of the certificate (its form, then its
 * timestamps), then of the issuer's. Of other bytes or words it is as clubcard_ask.
 */
uint32_t clubcard_ask_cert(const uint8_t *store, size_t store_len, const uint32_t *index, size_t index_len,
                           const uint8_t *cert, size_t cert_len, const uint8_t *issuer_cert, size_t issuer_cert_len);

/*
 * Answers many queries of an opened store: into `answer` of each it writes the number that the query has for itself, as
 * clubcard_query_each does, and changes nothing else of them. It answers CLUBCARD_DONE. Of other bytes or words it is
 * as clubcard_ask.
 */
uint32_t clubcard_ask_each(const uint8_t *store, size_t store_len, const uint32_t *index, size_t index_len,
                           const clubcard_sighting *sightings, size_t sightings_len, clubcard_one_query *queries,
                           size_t queries_len);

/*
 * Up to when an opened store covers a log. Where the newest part has a range of the log, it answers CLUBCARD_DONE, and
 * `*until` is the last moment of the range, in milliseconds since 1970; else it answers CLUBCARD_NOT_COVERED and
 * `*until` is 0. Of other bytes or words it is as clubcard_ask: one of the two answers comes.
 */
uint32_t clubcard_covered_until(const uint8_t *store, size_t store_len, const uint32_t *index, size_t index_len,
                                const uint8_t log[32], uint64_t *until);

/*
 * Tests a part's bytes. It answers CLUBCARD_DONE exactly where they are a part, and `facts` says what it holds. Else it
 * answers the refusal of the layout.
 */
uint32_t clubcard_check_part(const uint8_t *part, size_t part_len, clubcard_part_facts *facts);

/*
 * Installs a part: makes the store that has one part more, as the command `install` writes it. Room of as many bytes as
 * store and part have together is enough.
 *
 * It answers CLUBCARD_DONE where the bytes are a store, and a part that goes on with it, and there is room: then the
 * first facts->length bytes of `new_store` are the new store. Else it answers the refusal of the first fault: of the
 * store's layout or chain, of the part's layout, of the part's place in the chain (CLUBCARD_NOT_DELTA to
 * CLUBCARD_CHAIN_FULL), and then CLUBCARD_ROOM_TOO_SHORT, for which facts->length is what is wanted. Where it isn't
 * done, nothing is written to `new_store`.
 */
uint32_t clubcard_install(const uint8_t *store, size_t store_len, const uint8_t *part, size_t part_len,
                          uint8_t *new_store, size_t new_len, clubcard_install_facts *facts);

/* By what a history is cut: by issuers, whose certificates stay together, or by identities. */
#define CLUBCARD_BY_ISSUER 1
#define CLUBCARD_BY_IDENTITY 2

/*
 * The place of a certificate, where a history is cut into `count` ones, from 0 on, as the command `place` prints it. A
 * certificate is asked for in the store of its place: any other may say CLUBCARD_GOOD of a revoked one.
 *
 * It answers CLUBCARD_DONE and writes the place. Else it answers the refusal of the first fault, CLUBCARD_BAD_SERIAL or
 * CLUBCARD_BAD_PLACES, and writes 0.
 */
uint32_t clubcard_place(uint32_t by, const uint8_t issuer[32], const uint8_t *serial, size_t serial_len,
                        uint64_t count, uint64_t *place);

/* What an answer says, in words for a line of a log. It is a constant, for any number. */
static inline const char *clubcard_strerror(uint32_t answer) {
    switch (answer) {
    case CLUBCARD_DONE: return "done";
    case CLUBCARD_NOT_COVERED: return "not-covered";
    case CLUBCARD_NOT_ENROLLED: return "not-enrolled";
    case CLUBCARD_GOOD: return "good";
    case CLUBCARD_REVOKED: return "revoked";
    case CLUBCARD_LAYOUT_SHORT: return "a field isn't all there";
    case CLUBCARD_LAYOUT_VALUE: return "a field fails its test";
    case CLUBCARD_LAYOUT_DIGEST: return "a digest isn't that of the bytes before it";
    case CLUBCARD_NOT_SNAPSHOT: return "the first part is a delta";
    case CLUBCARD_NOT_DELTA: return "a later part is a snapshot";
    case CLUBCARD_WRONG_PARENT: return "a part's parent isn't the part before it";
    case CLUBCARD_OLD_EPOCH: return "a part's epoch isn't above that of the part before it";
    case CLUBCARD_COVERAGE_SHRINKS: return "a part covers less than the part before it";
    case CLUBCARD_CHAIN_FULL: return "a store has 64 parts at most";
    case CLUBCARD_STORE_TOO_LONG: return "the store has 2^32 bytes or more";
    case CLUBCARD_BAD_SERIAL: return "a serial has 1 to 32 octets";
    case CLUBCARD_BAD_SIGHTINGS: return "a query's sightings aren't among those that are lent";
    case CLUBCARD_BAD_PLACES: return "places are 1 to 65,536, by issuers or by identities";
    case CLUBCARD_CERT_MALFORMED: return "the certificate isn't read";
    case CLUBCARD_CERT_NO_SCTS: return "the certificate carries no timestamp";
    case CLUBCARD_CERT_BAD_SCTS: return "the certificate's timestamps aren't read";
    case CLUBCARD_CERT_TOO_MANY_SCTS: return "the certificate carries more than 64 timestamps";
    case CLUBCARD_ISSUER_CERT_MALFORMED: return "the issuer's certificate isn't read";
    case CLUBCARD_INDEX_TOO_SHORT: return "the index is too short";
    case CLUBCARD_ROOM_TOO_SHORT: return "the room for the new store is too short";
    case CLUBCARD_BAD_SIZE: return "the size of the facts isn't that of this interface";
    case CLUBCARD_NO_MEMORY: return "memory is wanted";
    default: return "an unknown answer";
    }
}

/* The name of a field by its number, as docs/FORMATS.md has it; empty for 0 and for a number that no field has. */
static inline const char *clubcard_field_name(uint64_t field) {
    static const char *const names[] = {
        "", "part.magic", "part.version", "part.kind", "part.epoch", "part.parent", "part.ranges", "range.log",
        "range.from", "range.to", "part.issuers", "block.issuer", "block.mode", "block.k", "block.shift", "shard.mode",
        "approx.seed", "approx.starts", "approx.plane", "exact.seed", "exact.starts", "exact.plane", "part.sharded",
        "part.trailer", "store.magic", "store.version", "store.count", "ledger.magic", "ledger.version",
        "ledger.parts", "ledger.epoch", "ledger.part_trailer", "ledger.ranges", "ledger.coverage", "ledger.issuers",
        "ledger.issuer", "ledger.identities", "identity.issuer", "identity.length", "identity.serial",
        "identity.birth", "identity.last", "identity.dated", "identity.until", "ledger.digest", "job.magic",
        "job.epoch", "job.moment", "record.kind", "crl.issuer", "crl.length", "crl.bytes", "entry.log",
        "entry.leaf_length", "entry.leaf", "entry.extra_length", "entry.extra", "query.magic", "query.count",
        "query.issuer", "query.length", "query.serial", "query.sightings", "sighting.log", "sighting.time", "end"
    };
    return field < sizeof names / sizeof *names ? names[field] : "";
}

#ifdef __cplusplus
}
#endif

#endif
