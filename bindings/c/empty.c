/*
 * Lends nothing: NULL with length 0, in the place of each slice of each call.
 *
 *     empty STORE [CERT ISSUERCERT]
 *
 * STORE is the one that the repository ships, CERT a certificate in DER with timestamps, and ISSUERCERT its issuer's.
 * Each answer must be the one that clubcard.h says, and the one where the pointer isn't NULL. It prints how many calls
 * were tried; the status is 0 where all answered so. These sources are C and C++ alike.
 */
#include <stdio.h>
#include <string.h>

#include "clubcard.h"

#define MOST 65536

/* The bytes of a file. */
typedef struct file {
    uint8_t data[MOST];
    size_t len;
} file;

static file store, cert, issuer_cert;
static const uint8_t *const no_bytes = NULL;
static const clubcard_sighting *const no_sightings = NULL;
static uint32_t index_of[64];
static unsigned calls, failures;

static int read_into(file *into, const char *name) {
    FILE *from = fopen(name, "rb");
    into->len = from ? fread(into->data, 1, MOST, from) : 0;
    if (from) fclose(from);
    if (into->len == 0) fprintf(stderr, "%s can't be read\n", name);
    return into->len > 0;
}

/* Counts a call, whose answer and offset must be these. */
static void test(const char *what, uint32_t answer, uint64_t at, uint32_t wanted) {
    calls++;
    if (answer == wanted && at == 0) return;
    printf("%s: %u at %llu, and not %u at 0\n", what, answer, (unsigned long long)at, wanted);
    failures++;
}

/* An empty store is short at its first byte, an empty serial is none, and no sighting is covered. */
static void test_query(const uint8_t *nothing, const clubcard_sighting *unseen) {
    uint8_t issuer[32], serial = 5;
    clubcard_sighting seen;
    uint64_t at = 1;
    memset(issuer, 0x11, sizeof issuer);
    memset(seen.log, 0xaa, sizeof seen.log);
    seen.time = 1700000000000;
    uint32_t answer = clubcard_query(store.data, store.len, issuer, &serial, 1, &seen, 1, &at);
    test("query", answer, at, CLUBCARD_REVOKED);
    answer = clubcard_query(nothing, 0, issuer, &serial, 1, &seen, 1, &at);
    test("query, no store", answer, at, CLUBCARD_LAYOUT_SHORT);
    answer = clubcard_query(store.data, store.len, issuer, nothing, 0, &seen, 1, &at);
    test("query, no serial", answer, at, CLUBCARD_BAD_SERIAL);
    answer = clubcard_query(store.data, store.len, issuer, &serial, 1, unseen, 0, &at);
    test("query, no sightings", answer, at, CLUBCARD_NOT_COVERED);
    answer = clubcard_query(nothing, 0, issuer, nothing, 0, unseen, 0, &at);
    test("query, nothing at all", answer, at, CLUBCARD_LAYOUT_SHORT);
}

static void test_query_each(const uint8_t *nothing, const clubcard_sighting *unseen, clubcard_one_query *unasked) {
    clubcard_one_query query;
    uint64_t at = 1;
    memset(&query, 0, sizeof query);
    query.serial_len = 1;
    uint32_t answer = clubcard_query_each(store.data, store.len, unseen, 0, &query, 1, &at);
    test("query_each, no sightings", answer, at, CLUBCARD_DONE);
    test("the query without sightings", query.answer, 0, CLUBCARD_NOT_COVERED);
    query.sightings = 1;
    answer = clubcard_query_each(store.data, store.len, unseen, 0, &query, 1, &at);
    test("query_each, too few sightings", answer, at, CLUBCARD_DONE);
    test("the query with too few sightings", query.answer, 0, CLUBCARD_BAD_SIGHTINGS);
    answer = clubcard_query_each(nothing, 0, unseen, 0, &query, 1, &at);
    test("query_each, no store", answer, at, CLUBCARD_LAYOUT_SHORT);
    test("the query of no store", query.answer, 0, CLUBCARD_LAYOUT_SHORT);
    answer = clubcard_query_each(store.data, store.len, unseen, 0, unasked, 0, &at);
    test("query_each, no queries", answer, at, CLUBCARD_DONE);
    answer = clubcard_query_each(nothing, 0, unseen, 0, unasked, 0, &at);
    test("query_each, nothing at all", answer, at, CLUBCARD_LAYOUT_SHORT);
}

static void test_examine(const uint8_t *nothing) {
    clubcard_facts facts = {9, 9};
    uint64_t at = 1;
    uint32_t answer = clubcard_examine(nothing, 0, &facts, &at);
    test("examine, no store", answer, at, CLUBCARD_LAYOUT_SHORT);
    test("the facts of no store", (uint32_t)(facts.parts + facts.newest_epoch), 0, 0);
}

/* The store is at fault before the certificates, and the certificate before its issuer's. */
static void test_query_cert(const uint8_t *nothing) {
    uint64_t at = 1;
    uint32_t answer = clubcard_query_cert(nothing, 0, cert.data, cert.len, issuer_cert.data, issuer_cert.len, &at);
    test("query_cert, no store", answer, at, CLUBCARD_LAYOUT_SHORT);
    answer = clubcard_query_cert(store.data, store.len, nothing, 0, issuer_cert.data, issuer_cert.len, &at);
    test("query_cert, no certificate", answer, at, CLUBCARD_CERT_MALFORMED);
    answer = clubcard_query_cert(store.data, store.len, nothing, 0, nothing, 0, &at);
    test("query_cert, no certificates", answer, at, CLUBCARD_CERT_MALFORMED);
    if (cert.len == 0) return;
    answer = clubcard_query_cert(store.data, store.len, cert.data, cert.len, nothing, 0, &at);
    test("query_cert, no issuer's certificate", answer, at, CLUBCARD_ISSUER_CERT_MALFORMED);
}

/* An opened store that is asked about nothing; and nothing that is opened, is a part, or is installed. */
static void test_opened(const uint8_t *nothing, const clubcard_sighting *unseen, clubcard_one_query *unasked) {
    uint8_t key[32], serial = 5;
    uint64_t words = 1, until = 1;
    size_t len = sizeof index_of / sizeof *index_of;
    clubcard_store_facts facts = {sizeof facts, 0, 0, 0, 0, 0};
    memset(key, 0xaa, sizeof key);
    uint32_t answer = clubcard_open(nothing, 0, index_of, len, &facts);
    test("open, no store", answer, facts.at, CLUBCARD_LAYOUT_SHORT);
    answer = clubcard_open(store.data, store.len, NULL, 0, &facts);
    test("open, no index", answer, facts.at, CLUBCARD_INDEX_TOO_SHORT);
    answer = clubcard_index_length(nothing, 0, &words);
    if (answer != CLUBCARD_DONE) test("index_length, no store", answer, words, CLUBCARD_LAYOUT_VALUE);
    answer = clubcard_open(store.data, store.len, index_of, len, &facts);
    test("open", answer, facts.at, CLUBCARD_DONE);
    len = facts.index_len;
    answer = clubcard_ask(store.data, store.len, index_of, len, key, nothing, 0, unseen, 0);
    test("ask, no serial", answer, 0, CLUBCARD_BAD_SERIAL);
    answer = clubcard_ask(store.data, store.len, index_of, len, key, &serial, 1, unseen, 0);
    test("ask, no sightings", answer, 0, CLUBCARD_NOT_COVERED);
    answer = clubcard_ask(nothing, 0, NULL, 0, key, nothing, 0, unseen, 0);
    test("ask, nothing at all", answer, 0, CLUBCARD_BAD_SERIAL);
    answer = clubcard_ask_cert(store.data, store.len, index_of, len, nothing, 0, nothing, 0);
    test("ask_cert, no certificates", answer, 0, CLUBCARD_CERT_MALFORMED);
    answer = clubcard_ask_each(store.data, store.len, index_of, len, unseen, 0, unasked, 0);
    test("ask_each, no queries", answer, 0, CLUBCARD_DONE);
    answer = clubcard_covered_until(store.data, store.len, index_of, len, key, &until);
    test("covered_until", answer, until - 1700000001000, CLUBCARD_DONE);
}

static void test_place(const uint8_t *nothing) {
    uint8_t issuer[32] = {0};
    uint64_t place = 1;
    uint32_t answer = clubcard_place(CLUBCARD_BY_IDENTITY, issuer, nothing, 0, 1, &place);
    test("place, no serial", answer, place, CLUBCARD_BAD_SERIAL);
}

static void test_parts(const uint8_t *nothing) {
    clubcard_part_facts part = {sizeof part, 0, 0, 0, 0, 0, 0, {0}};
    clubcard_install_facts facts = {sizeof facts, 0, 0, 0};
    uint32_t answer = clubcard_check_part(nothing, 0, &part);
    test("check_part, no part", answer, part.at, CLUBCARD_LAYOUT_SHORT);
    answer = clubcard_install(store.data, store.len, nothing, 0, NULL, 0, &facts);
    test("install, no part", answer, facts.at, CLUBCARD_LAYOUT_SHORT);
    answer = clubcard_install(nothing, 0, store.data, store.len, NULL, 0, &facts);
    test("install, no store", answer, facts.at, CLUBCARD_LAYOUT_SHORT);
}

int main(int argc, char **argv) {
    static uint8_t byte;
    static clubcard_sighting sighting;
    static clubcard_one_query query;
    if (argc != 2 && argc != 4) {
        fprintf(stderr, "usage: empty STORE [CERT ISSUERCERT]\n");
        return 2;
    }
    if (!read_into(&store, argv[1])) return 2;
    if (argc == 4 && (!read_into(&cert, argv[2]) || !read_into(&issuer_cert, argv[3]))) return 2;
    test_query(no_bytes, no_sightings), test_query(&byte, &sighting);
    test_query_each(no_bytes, no_sightings, NULL), test_query_each(&byte, &sighting, &query);
    test_examine(no_bytes), test_examine(&byte);
    test_query_cert(no_bytes), test_query_cert(&byte);
    test_opened(no_bytes, no_sightings, NULL), test_opened(&byte, &sighting, &query);
    test_place(no_bytes), test_place(&byte);
    test_parts(no_bytes), test_parts(&byte);
    printf("%u calls, %u of them failed\n", calls, failures);
    return failures ? 1 : 0;
}
