/*
 * Answers questions, each a line of the standard input, by lines that ../compare.py compares with those of the program
 * and of the other bindings. That file says which questions there are, and how they are answered.
 */
#include <string.h>

#include "opened.h"

/* The most sightings and queries of a line. */
#define SIGHTINGS 256
#define QUERIES 64

static clubcard_sighting seen[SIGHTINGS];
static clubcard_one_query asked[QUERIES];
static opened store;
static int is_open;

static const char *next_word(void) { return strtok(NULL, " \n"); }

static void fail(const char *why) {
    fprintf(stderr, "answer: %s\n", why);
    exit(1);
}

/* The next word of the line, which must be there. */
static const char *word(void) {
    const char *next = next_word();
    if (!next) fail("a word is missing");
    return next;
}

/* The bytes that a word spells in hexadecimal, no more than there is room for; `-` spells none. */
static size_t octets_of(uint8_t *to, size_t room, const char *text) {
    size_t len = strcmp(text, "-") ? strlen(text) / 2 : 0;
    if (len > room) fail("a word is too long");
    for (size_t i = 0; i < len; i++) sscanf(text + 2 * i, "%2hhx", &to[i]);
    return len;
}

static void refuse(uint32_t answer, uint64_t at, uint64_t field) {
    const char *name = clubcard_field_name(field);
    printf("%u %llu %s\n", answer, (unsigned long long)at, *name ? name : "-");
}

static void answer_store(void) {
    if (is_open) close_store(&store);
    uint32_t answer = open_store(&store, word());
    is_open = answer == CLUBCARD_DONE;
    if (!is_open) {
        refuse(answer, store.facts.at, store.facts.field);
        return;
    }
    printf("%u %llu %llu\n", answer, (unsigned long long)store.facts.parts,
           (unsigned long long)store.facts.newest_epoch);
}

/* Reads a query up to the end of the line or the word `|`, and how many words follow it: whether there is another. */
static int read_query(clubcard_one_query *query, uint8_t *serial, size_t room, size_t *sightings) {
    const char *next;
    octets_of(query->issuer, sizeof query->issuer, word());
    query->serial_len = (uint32_t)octets_of(serial, room, word());
    query->first_sighting = (uint32_t)*sightings;
    while ((next = next_word()) && strcmp(next, "|")) {
        if (*sightings == SIGHTINGS) fail("there are too many sightings");
        octets_of(seen[*sightings].log, sizeof seen->log, next);
        seen[(*sightings)++].time = strtoull(word(), NULL, 10);
    }
    query->sightings = (uint32_t)*sightings - query->first_sighting;
    return next != NULL;
}

static void answer_ask(void) {
    clubcard_one_query query;
    uint8_t serial[256];
    size_t sightings = 0;
    read_query(&query, serial, sizeof serial, &sightings);
    printf("%u\n", clubcard_ask(store.file.data, store.file.len, store.index, store.facts.index_len, query.issuer,
                                serial, query.serial_len, seen, sightings));
}

static void answer_each(void) {
    size_t sightings = 0, queries = 0;
    int is_more = 1;
    while (is_more) {
        uint8_t serial[256] = {0};
        if (queries == QUERIES) fail("there are too many queries");
        clubcard_one_query *query = &asked[queries++];
        is_more = read_query(query, serial, sizeof serial, &sightings);
        memcpy(query->serial, serial, sizeof query->serial);
    }
    uint32_t answer = clubcard_ask_each(store.file.data, store.file.len, store.index, store.facts.index_len, seen,
                                        sightings, asked, queries);
    if (answer != CLUBCARD_DONE) fail("queries aren't answered");
    for (size_t i = 0; i < queries; i++) printf(i ? " %u" : "%u", asked[i].answer);
    printf("\n");
}

static void answer_cert(void) {
    mapped cert = map_file(word()), issuer_cert = map_file(word());
    printf("%u\n", clubcard_ask_cert(store.file.data, store.file.len, store.index, store.facts.index_len, cert.data,
                                     cert.len, issuer_cert.data, issuer_cert.len));
    unmap_file(cert), unmap_file(issuer_cert);
}

static void answer_until(void) {
    uint8_t log[32];
    uint64_t until;
    octets_of(log, sizeof log, word());
    uint32_t answer = clubcard_covered_until(store.file.data, store.file.len, store.index, store.facts.index_len, log,
                                             &until);
    printf("%u %llu\n", answer, (unsigned long long)until);
}

static void answer_place(void) {
    uint8_t issuer[32], serial[256];
    uint64_t place;
    uint32_t by = strcmp(word(), "issuer") ? CLUBCARD_BY_IDENTITY : CLUBCARD_BY_ISSUER;
    octets_of(issuer, sizeof issuer, word());
    size_t len = octets_of(serial, sizeof serial, word());
    uint32_t answer = clubcard_place(by, issuer, serial, len, strtoull(word(), NULL, 10), &place);
    printf("%u %llu\n", answer, (unsigned long long)place);
}

static void answer_part(void) {
    mapped part = map_file(word());
    clubcard_part_facts facts = {.size = sizeof facts};
    uint32_t answer = clubcard_check_part(part.data, part.len, &facts);
    unmap_file(part);
    if (answer != CLUBCARD_DONE) {
        refuse(answer, facts.at, facts.field);
        return;
    }
    printf("%u %llu %llu %llu %llu ", answer, (unsigned long long)facts.kind, (unsigned long long)facts.epoch,
           (unsigned long long)facts.ranges, (unsigned long long)facts.issuers);
    for (size_t i = 0; i < sizeof facts.trailer; i++) printf("%02x", facts.trailer[i]);
    printf("\n");
}

static void answer_install(void) {
    mapped part = map_file(word());
    size_t room = store.file.len + part.len;
    uint8_t *made = malloc(room);
    clubcard_install_facts facts = {.size = sizeof facts};
    FILE *file = fopen(word(), "wb");
    if (!made || !file) fail("there is no room, or no file can be written");
    uint32_t answer = clubcard_install(store.file.data, store.file.len, part.data, part.len, made, room, &facts);
    if (answer == CLUBCARD_DONE) {
        fwrite(made, 1, facts.length, file);
        printf("%u %llu\n", answer, (unsigned long long)facts.length);
    } else {
        refuse(answer, facts.at, facts.field);
    }
    if (fclose(file) != 0) fail("the store isn't written");
    free(made);
    unmap_file(part);
}

static const struct question {
    const char *name;
    void (*answer)(void);
    int of_store;
} questions[] = {{"store", answer_store, 0}, {"ask", answer_ask, 1},   {"each", answer_each, 1},
                 {"cert", answer_cert, 1},   {"until", answer_until, 1}, {"part", answer_part, 0},
                 {"install", answer_install, 1}, {"place", answer_place, 0}};

static void answer_line(char *line) {
    const char *name = strtok(line, " \n");
    for (size_t i = 0; name && i < sizeof questions / sizeof *questions; i++) {
        if (strcmp(questions[i].name, name) != 0) continue;
        if (questions[i].of_store && !is_open) fail("no store is open");
        questions[i].answer();
        return;
    }
    fail("this is no question");
}

int main(void) {
    char *line = NULL;
    size_t room = 0;
    if (clubcard_interface() != CLUBCARD_INTERFACE) fail("the library has another interface");
    while (getline(&line, &room, stdin) > 0) answer_line(line);
    free(line);
    if (is_open) close_store(&store);
    return fflush(stdout) == 0 ? 0 : 1;
}
