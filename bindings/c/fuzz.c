/*
 * Calls the library with random bytes for some seconds:
 *
 *     fuzz SECONDS FILE ..
 *
 * FILE are stores, parts and certificates, whose bytes are changed at random, cut and put together. Each slice is lent
 * behind a page, or before a page, that nobody may touch, so that a read or a write outside it ends the program. Tested
 * of each call: its answer is one of its numbers; `at` is an offset of the bytes for the refusals of the layout, and
 * else 0; the same call answers the same, also where each slice of length 0 is NULL; a query answers alone and among
 * others alike; where an allocation is refused, a call of interface 1 answers either the same, or want of memory; and
 * one of interface 2 makes none. A store is opened exactly where clubcard_examine takes it, and then it answers as the
 * calls without an index do; with an index at random, or of other bytes, each answer is some verdict. What is installed
 * is a store with one part more. The status is 0 where all hold.
 */
#include <stdio.h>
#include <stdlib.h>
#include <string.h>
#include <sys/mman.h>
#include <time.h>
#include <unistd.h>

#include "clubcard.h"

#define MOST 65536
#define PAGE 4096
#define QUERIES 8
#define FILES 16

/* ---- a heap that may refuse */

static long refused = -1; /* how many allocations are left before the one that is refused; negative: none is */
void *__real_malloc(size_t size);
void *__real_realloc(void *old, size_t size);
static int refuses(void) { return refused >= 0 && refused-- == 0; }
void *__wrap_malloc(size_t size) { return refuses() ? NULL : __real_malloc(size); }
void *__wrap_realloc(void *old, size_t size) { return refuses() ? NULL : __real_realloc(old, size); }

/* ---- random numbers: xorshift64 */

static uint64_t state;

static uint64_t next(void) {
    state ^= state << 13;
    state ^= state >> 7;
    return state ^= state << 17;
}

static size_t below(size_t n) { return n ? (size_t)(next() % n) : 0; }

/* ---- slices whose ends are guarded */

typedef struct slice {
    uint8_t *whole, *data;
    size_t len;
} slice;

static slice room(void) {
    uint8_t *all = mmap(NULL, MOST + 2 * PAGE, PROT_NONE, MAP_PRIVATE | MAP_ANONYMOUS, -1, 0);
    if (all == MAP_FAILED || mprotect(all + PAGE, MOST, PROT_READ | PROT_WRITE) != 0) exit(2);
    return (slice){all + PAGE, all + PAGE, 0};
}

/* So many bytes that end where the room ends, or begin where it begins. */
static void place(slice *s, size_t len) {
    s->len = len;
    s->data = next() % 4 ? s->whole + MOST - len : s->whole;
}

static uint8_t *files[FILES];
static size_t lens[FILES], count;

/* Bytes of a file, or at random, mostly with some changes. */
static void fill(slice *s) {
    size_t which = below(count + 1);
    if (which == count) {
        place(s, below(300));
        for (size_t i = 0; i < s->len; i++) s->data[i] = (uint8_t)next();
        return;
    }
    place(s, lens[which]);
    memcpy(s->data, files[which], lens[which]);
    if (next() % 4 == 0) return;
    for (size_t changes = below(4); changes > 0 && s->len > 0; changes--) s->data[below(s->len)] ^= (uint8_t)next();
    if (next() % 4 == 0) {
        size_t len = below(s->len + 1);
        uint8_t *from = s->data;
        place(s, len);
        memmove(s->data, from, len);
    }
}

/* ---- the tests */

static slice store, cert, issuer_cert, serial, seen, asked, words, part, made;
static uint64_t answers[128]; /* how often each number was answered */

static void fail(const char *what, uint32_t answer) {
    printf("%s: %u (a store of %zu bytes)\n", what, answer, store.len);
    exit(1);
}

static int is_verdict(uint32_t n) { return n >= CLUBCARD_NOT_COVERED && n <= CLUBCARD_REVOKED; }
static int is_layout(uint32_t n) { return n >= CLUBCARD_LAYOUT_SHORT && n <= CLUBCARD_LAYOUT_DIGEST; }
static int is_chain(uint32_t n) { return n >= CLUBCARD_NOT_SNAPSHOT && n <= CLUBCARD_CHAIN_FULL; }
static int is_store(uint32_t n) { return is_layout(n) || is_chain(n) || n == CLUBCARD_NO_MEMORY; }
static int is_asked(uint32_t n) { return n == CLUBCARD_BAD_SERIAL || n == CLUBCARD_BAD_SIGHTINGS; }
static int is_answer(uint32_t n) { return is_verdict(n) || n == CLUBCARD_BAD_SERIAL; }
static int is_cert(uint32_t n) { return n >= CLUBCARD_CERT_MALFORMED && n <= CLUBCARD_ISSUER_CERT_MALFORMED; }

static void test_offset(uint32_t answer, uint64_t at) {
    answers[answer % 128]++;
    if (is_layout(answer) ? at > store.len : at != 0) fail("offset", answer);
}

/* The same call again, where one allocation may be refused. */
static void test_again(uint32_t was, uint32_t again, int was_refused) {
    if (again != was && !(was_refused && again == CLUBCARD_NO_MEMORY)) fail("again", again);
}

static int refuse_some(void) {
    refused = next() % 3 == 0 ? (long)below(12) : -1;
    return refused >= 0;
}

/* A slice, or NULL where it is empty. */
static const uint8_t *or_null(const slice *s) { return s->len ? s->data : NULL; }

static void test_query(void) {
    uint64_t at = 1;
    uint8_t issuer[32];
    if (store.len >= 128 && next() % 2) memcpy(issuer, store.data + below(store.len - 31), 32);
    else memset(issuer, 0x11, 32);
    uint32_t answer = clubcard_query(store.data, store.len, issuer, serial.data, serial.len,
                                     (const clubcard_sighting *)seen.data, seen.len / sizeof(clubcard_sighting), &at);
    if (!is_verdict(answer) && !is_store(answer) && answer != CLUBCARD_BAD_SERIAL) fail("query", answer);
    test_offset(answer, at);
    int was_refused = refuse_some();
    uint32_t again = clubcard_query(or_null(&store), store.len, issuer, or_null(&serial), serial.len,
                                    (const clubcard_sighting *)or_null(&seen), seen.len / sizeof(clubcard_sighting),
                                    &at);
    test_again(answer, again, was_refused);
    refused = -1;
}

static void test_cert(void) {
    uint64_t at = 1;
    uint32_t answer = clubcard_query_cert(store.data, store.len, cert.data, cert.len, issuer_cert.data,
                                          issuer_cert.len, &at);
    if (!is_verdict(answer) && !is_store(answer) && !is_cert(answer)) fail("query_cert", answer);
    test_offset(answer, at);
    int was_refused = refuse_some();
    uint32_t again = clubcard_query_cert(or_null(&store), store.len, or_null(&cert), cert.len, or_null(&issuer_cert),
                                         issuer_cert.len, &at);
    test_again(answer, again, was_refused);
    refused = -1;
}

static void test_examine(void) {
    uint64_t at = 1;
    clubcard_facts facts = {9, 9};
    uint32_t answer = clubcard_examine(store.data, store.len, &facts, &at);
    if (answer != CLUBCARD_DONE && !is_store(answer)) fail("examine", answer);
    int is_none = facts.parts == 0 && facts.newest_epoch == 0, is_some = facts.parts >= 1 && facts.parts <= 64;
    if (answer ? !is_none : !is_some) fail("facts", answer);
    test_offset(answer, at);
}

/* Each query among the others answers as it does alone. */
static void test_each(void) {
    uint64_t at = 1;
    clubcard_one_query *queries = (clubcard_one_query *)asked.data;
    const clubcard_sighting *sightings = (const clubcard_sighting *)seen.data;
    size_t n = asked.len / sizeof *queries, all = seen.len / sizeof *sightings;
    clubcard_one_query before[QUERIES];
    memcpy(before, asked.data, asked.len);
    uint32_t answer = clubcard_query_each(store.data, store.len, sightings, all, queries, n, &at);
    if (answer != CLUBCARD_DONE && !is_store(answer)) fail("query_each", answer);
    test_offset(answer, at);
    for (size_t i = 0; i < n; i++) {
        clubcard_one_query *q = &queries[i];
        before[i].answer = q->answer;
        answers[q->answer % 128]++;
        if (memcmp(&before[i], q, sizeof *q) != 0) fail("a query was changed", q->answer);
        if (answer != CLUBCARD_DONE) {
            if (q->answer != answer) fail("refused", q->answer);
        } else if (q->serial_len <= 32 && (uint64_t)q->first_sighting + q->sightings <= all) {
            uint32_t alone = clubcard_query(store.data, store.len, q->issuer, q->serial, q->serial_len,
                                            sightings + q->first_sighting, q->sightings, &at);
            if (q->answer != alone) fail("alone", alone);
        } else if (!is_asked(q->answer)) {
            fail("bad query", q->answer);
        }
    }
}

/* ---- the tests of interface 2, whose calls must make no allocation */

/* The index, and its length in words. */
static uint32_t *index_lent(void) { return words.len ? (uint32_t *)words.data : NULL; }
static size_t index_len(void) { return words.len / sizeof(uint32_t); }

static void fill_words(size_t len) {
    place(&words, len * sizeof(uint32_t));
    for (size_t i = 0; i < words.len; i++) words.data[i] = (uint8_t)(next() % 4 ? 0 : next());
}

/* The first so many words of the index, which end or begin where the room does. */
static void keep_words(size_t len) {
    uint8_t *from = words.data;
    place(&words, len * sizeof(uint32_t));
    memmove(words.data, from, words.len);
}

static void forbid_memory(void) { refused = 0; }

static void test_memory(const char *what, uint32_t answer) {
    if (refused != 0) fail(what, answer);
    refused = -1;
}

/* Where a refusal of the layout is told: an offset of the bytes, and a field that has a name. Else both are 0. */
static void test_place(uint32_t answer, const slice *s, uint64_t at, uint64_t field) {
    answers[answer % 128]++;
    if (is_layout(answer) ? at > s->len || !*clubcard_field_name(field) : at || field) fail("place", answer);
}

/* The size that the caller gives, which is a wrong one at times. */
static uint64_t size_or_other(uint64_t size) { return next() % 16 ? size : next() % 128; }

/* Opens the store, as far as it is one, with an index that may be too short. */
static uint32_t open_it(void) {
    uint64_t wanted = 1, at;
    clubcard_store_facts facts = {.size = size_or_other(sizeof facts), .parts = 9, .index_len = 9};
    clubcard_facts examined;
    uint32_t is_store_then = clubcard_examine(or_null(&store), store.len, &examined, &at);
    forbid_memory();
    uint32_t counted = clubcard_index_length(or_null(&store), store.len, &wanted);
    /* No store of these files has so long an index. */
    if (counted ? counted != CLUBCARD_LAYOUT_VALUE || wanted : wanted > MOST / 8) fail("index_length", counted);
    fill_words(next() % 8 ? wanted : below(wanted + 1));
    if (next() % 8 == 0) fill_words(wanted + below(5));
    uint32_t answer = clubcard_open(or_null(&store), store.len, index_lent(), index_len(), &facts);
    test_memory("memory of open", answer);
    if (facts.size != sizeof facts) {
        if (answer != CLUBCARD_BAD_SIZE || facts.parts != 9 || facts.index_len != 9) fail("size of open", answer);
        return answer;
    }
    test_place(answer, &store, facts.at, facts.field);
    if (is_store_then != CLUBCARD_DONE) {
        if (answer != is_store_then || facts.at != at) fail("open, no store", answer);
    } else if (counted != CLUBCARD_DONE || facts.index_len != wanted) {
        fail("open, the index's length", answer);
    } else if (answer != (index_len() < wanted ? CLUBCARD_INDEX_TOO_SHORT : CLUBCARD_DONE)) {
        fail("open", answer);
    } else if (!answer && (facts.parts != examined.parts || facts.newest_epoch != examined.newest_epoch)) {
        fail("facts of open", answer);
    }
    if (answer == CLUBCARD_DONE) keep_words(wanted);
    return answer;
}

/* An issuer's key hash: some bytes of the store, or the one of the shipped store. */
static void fill_issuer(uint8_t issuer[32]) {
    if (store.len >= 32 && next() % 4 == 0) memcpy(issuer, store.data + below(store.len - 31), 32);
    else memset(issuer, 0x11, 32);
}

/* Asks by an index. Of an opened store each answer is the one without an index; of any other bytes, some verdict. */
static void ask_it(int is_opened) {
    uint64_t at, until = 1;
    uint8_t issuer[32], log[32];
    const clubcard_sighting *sightings = (const clubcard_sighting *)or_null(&seen);
    size_t all = seen.len / sizeof *sightings;
    fill_issuer(issuer), fill_issuer(log);
    if (next() % 2) memset(log, 0xaa, sizeof log);
    forbid_memory();
    uint32_t answer = clubcard_ask(or_null(&store), store.len, index_lent(), index_len(), issuer, or_null(&serial),
                                   serial.len, sightings, all);
    uint32_t again = clubcard_ask(store.data, store.len, index_lent(), index_len(), issuer, serial.data, serial.len,
                                  (const clubcard_sighting *)seen.data, all);
    if (!is_answer(answer) || answer != again) fail("ask", answer);
    uint32_t by_cert = clubcard_ask_cert(or_null(&store), store.len, index_lent(), index_len(), or_null(&cert),
                                         cert.len, or_null(&issuer_cert), issuer_cert.len);
    if (!is_verdict(by_cert) && !is_cert(by_cert)) fail("ask_cert", by_cert);
    uint32_t covered = clubcard_covered_until(or_null(&store), store.len, index_lent(), index_len(), log, &until);
    if (covered ? covered != CLUBCARD_NOT_COVERED || until : 0) fail("covered_until", covered);
    test_memory("memory of ask", answer);
    answers[answer % 128]++, answers[by_cert % 128]++, answers[covered % 128]++;
    if (!is_opened) return;
    again = clubcard_query(store.data, store.len, issuer, serial.data, serial.len, sightings, all, &at);
    if (answer != again) fail("ask, and query", answer);
    again = clubcard_query_cert(store.data, store.len, cert.data, cert.len, issuer_cert.data, issuer_cert.len, &at);
    if (by_cert != again) fail("ask_cert, and query_cert", by_cert);
}

/* The same for many queries. */
static void ask_each(int is_opened) {
    uint64_t at;
    clubcard_one_query *queries = asked.len ? (clubcard_one_query *)asked.data : NULL;
    const clubcard_sighting *sightings = (const clubcard_sighting *)or_null(&seen);
    size_t n = asked.len / sizeof *queries, all = seen.len / sizeof *sightings;
    clubcard_one_query before[QUERIES];
    memcpy(before, asked.data, asked.len);
    forbid_memory();
    uint32_t answer = clubcard_ask_each(or_null(&store), store.len, index_lent(), index_len(), sightings, all, queries,
                                        n);
    test_memory("memory of ask_each", answer);
    if (answer != CLUBCARD_DONE) fail("ask_each", answer);
    if (is_opened) clubcard_query_each(store.data, store.len, sightings, all, before, n, &at);
    for (size_t i = 0; i < n; i++) {
        if (!is_answer(queries[i].answer) && !is_asked(queries[i].answer)) fail("a query", queries[i].answer);
        if (!is_opened) before[i].answer = queries[i].answer;
        if (memcmp(&before[i], &queries[i], sizeof *queries) != 0) fail("ask_each, and query_each", queries[i].answer);
    }
}

/* A store that was opened; the same where its bytes or its index are others; and an index at random. */
static void test_opened(void) {
    int is_opened = open_it() == CLUBCARD_DONE;
    ask_it(is_opened), ask_each(is_opened);
    if (is_opened && next() % 2 && words.len) words.data[below(words.len)] ^= (uint8_t)next();
    else if (is_opened && store.len) store.data[below(store.len)] ^= (uint8_t)next();
    else fill_words(below(100));
    ask_it(0), ask_each(0);
}

/* A place is below the count, whose divisors' places it tells too. */
static void place_it(void) {
    uint64_t found = 1, other = 1, count = next() % 4 ? 1 + below(32768) : next() % 2 ? below(65540) : next();
    uint32_t by = next() % 8 ? 1 + (uint32_t)below(2) : (uint32_t)next();
    uint8_t issuer[32];
    fill_issuer(issuer);
    forbid_memory();
    uint32_t answer = clubcard_place(by, issuer, or_null(&serial), serial.len, count, &found);
    test_memory("memory of place", answer);
    int is_serial = serial.len >= 1 && serial.len <= 32, is_by = by == CLUBCARD_BY_ISSUER || by == CLUBCARD_BY_IDENTITY;
    int is_done = is_by && count >= 1 && count <= 65536;
    uint32_t wanted = is_done ? CLUBCARD_DONE : CLUBCARD_BAD_PLACES;
    if (answer != (is_serial ? wanted : CLUBCARD_BAD_SERIAL)) fail("place", answer);
    answers[answer % 128]++;
    if (answer ? found != 0 : found >= count) fail("the place", answer);
    if (answer || count > 32768) return;
    answer = clubcard_place(by, issuer, serial.data, serial.len, 2 * count, &other);
    if (answer || other % count != found) fail("the place among twice as many", answer);
}

/* A part: a file as above, without the head of a store at times. */
static void fill_part(void) {
    const size_t head = 10;
    fill(&part);
    if (part.len >= head && next() % 2) part.data += head, part.len -= head;
}

static void test_part(void) {
    clubcard_part_facts facts = {.size = size_or_other(sizeof facts), .kind = 9};
    forbid_memory();
    uint32_t answer = clubcard_check_part(or_null(&part), part.len, &facts);
    test_memory("memory of check_part", answer);
    if (facts.size != sizeof facts) {
        if (answer != CLUBCARD_BAD_SIZE || facts.kind != 9) fail("size of check_part", answer);
        return;
    }
    if (answer != CLUBCARD_DONE && !is_layout(answer)) fail("check_part", answer);
    test_place(answer, &part, facts.at, facts.field);
    if (answer == CLUBCARD_DONE && (facts.kind > 1 || facts.ranges > 1024 || facts.issuers > 65535 || part.len < 32 ||
                                    memcmp(facts.trailer, part.data + part.len - 32, 32) != 0)) {
        fail("facts of check_part", answer);
    }
}

/* Whether nothing was written to the room for the new store. */
static int is_untouched(void) {
    for (size_t i = 0; i < made.len; i++)
        if (made.data[i] != 0xa5) return 0;
    return 1;
}

/* What was installed is a store of one part more: its bytes are the store's, but for the count, and the part's. */
static void test_made(const clubcard_install_facts *facts) {
    uint64_t at;
    clubcard_facts before, after;
    uint32_t was = clubcard_examine(store.data, store.len, &before, &at);
    uint32_t is = clubcard_examine(made.data, facts->length, &after, &at);
    if (was || is || after.parts != before.parts + 1 || facts->length != store.len + part.len ||
        memcmp(made.data + 10, store.data + 10, store.len - 10) != 0 ||
        memcmp(made.data + store.len, part.data, part.len) != 0) {
        fail("the installed store", is);
    }
}

static void test_install(void) {
    clubcard_install_facts facts = {.size = size_or_other(sizeof facts), .length = 9};
    clubcard_part_facts checked = {.size = sizeof checked};
    clubcard_facts examined;
    uint64_t at;
    size_t together = store.len + part.len < MOST ? store.len + part.len : MOST;
    place(&made, next() % 4 ? together : below(together + 1));
    memset(made.data, 0xa5, made.len);
    forbid_memory();
    uint32_t answer = clubcard_install(or_null(&store), store.len, or_null(&part), part.len,
                                       made.len ? made.data : NULL, made.len, &facts);
    test_memory("memory of install", answer);
    if (answer != CLUBCARD_DONE && !is_untouched()) fail("install wrote", answer);
    if (facts.size != sizeof facts) {
        if (answer != CLUBCARD_BAD_SIZE || facts.length != 9) fail("size of install", answer);
        return;
    }
    uint32_t of_store = clubcard_examine(store.data, store.len, &examined, &at);
    uint32_t of_part = clubcard_check_part(part.data, part.len, &checked);
    test_place(answer, of_store ? &store : &part, facts.at, facts.field);
    if (of_store ? answer != of_store : of_part ? answer != of_part : 0) fail("install, the first fault", answer);
    if (of_store || of_part) return;
    if (answer == CLUBCARD_DONE) test_made(&facts);
    else if (answer == CLUBCARD_ROOM_TOO_SHORT ? facts.length <= made.len : !is_chain(answer)) fail("install", answer);
}

/* A serial, sightings and queries, mostly of the logs, times and issuers of the shipped store. */
static void fill_queries(void) {
    place(&serial, next() % 4 ? 1 : below(40));
    for (size_t i = 0; i < serial.len; i++) serial.data[i] = (uint8_t)(next() % 16);
    place(&seen, below(5) * sizeof(clubcard_sighting));
    clubcard_sighting *sightings = (clubcard_sighting *)seen.data;
    for (size_t i = 0; i < seen.len / sizeof *sightings; i++) {
        memset(sightings[i].log, 0xaa, 32);
        sightings[i].time = next() % 8 ? 1700000000000 + below(2000) : next();
    }
    place(&asked, below(QUERIES + 1) * sizeof(clubcard_one_query));
    clubcard_one_query *queries = (clubcard_one_query *)asked.data;
    for (size_t i = 0; i < asked.len / sizeof *queries; i++) {
        clubcard_one_query q = {.serial_len = 1, .sightings = 1};
        memset(q.issuer, 0x11, 32);
        q.serial[0] = (uint8_t)(next() % 16);
        if (next() % 4 == 0) q.serial_len = (uint32_t)below(40);
        if (next() % 4 == 0) q.first_sighting = (uint32_t)(next() % 2 ? below(6) : next());
        if (next() % 4 == 0) q.sightings = (uint32_t)(next() % 2 ? below(6) : next());
        queries[i] = q;
    }
}

int main(int argc, char **argv) {
    if (argc < 2 || argc > FILES + 2) {
        fprintf(stderr, "usage: fuzz SECONDS FILE ..\n");
        return 2;
    }
    for (int i = 2; i < argc; i++) {
        FILE *file = fopen(argv[i], "rb");
        files[count] = __real_malloc(MOST);
        lens[count] = file && files[count] ? fread(files[count], 1, MOST, file) : 0;
        if (file) fclose(file);
        if (lens[count++] == 0) {
            fprintf(stderr, "%s can't be read\n", argv[i]);
            return 2;
        }
    }
    store = room(), cert = room(), issuer_cert = room(), serial = room(), seen = room(), asked = room();
    words = room(), part = room(), made = room();
    state = (uint64_t)time(NULL) * 0x9e3779b97f4a7c15u | 1;
    printf("seed %llu\n", (unsigned long long)state);
    uint64_t rounds = 0;
    for (time_t end = time(NULL) + atoi(argv[1]); time(NULL) < end; rounds++) {
        fill(&store), fill(&cert), fill(&issuer_cert), fill_queries();
        test_query(), test_cert(), test_examine(), test_each();
        fill_part(), test_part(), test_install(), test_opened(), place_it();
    }
    printf("%llu rounds; answers:", (unsigned long long)rounds);
    for (uint32_t i = 0; i < 128; i++)
        if (answers[i]) printf(" %u", i);
    printf("\n");
    return 0;
}
