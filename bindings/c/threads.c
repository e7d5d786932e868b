/*
 * Eight threads ask one opened store, without a lock:
 *
 *     threads STORE
 *
 * STORE is the one that the repository ships. Each answer must be the one that the store had before there were threads.
 * The status is 0 where all are. tools/bindings_test.sh runs it under helgrind, which tells where a thread writes what
 * another one reads.
 */
#include <pthread.h>
#include <string.h>

#include "opened.h"

#define THREADS 8
#define ROUNDS 200
#define SERIALS 16

static opened store;
static uint32_t wanted[2][SERIALS];

/* The answer about a serial of an issuer, which is the store's own or another one. */
static uint32_t ask(int issuer, int number) {
    uint8_t key[32], serial = (uint8_t)number;
    clubcard_sighting seen = {.time = 1700000000000};
    memset(key, issuer ? 0x22 : 0x11, sizeof key);
    memset(seen.log, 0xaa, sizeof seen.log);
    return clubcard_ask(store.file.data, store.file.len, store.index, store.facts.index_len, key, &serial, 1, &seen, 1);
}

/* Asks by each call, and counts the answers that aren't as they were. */
static void *run(void *counted) {
    unsigned *failures = counted;
    uint8_t log[32];
    uint64_t until;
    memset(log, 0xaa, sizeof log);
    for (int round = 0; round < ROUNDS; round++) {
        clubcard_one_query query = {.serial = {5}, .serial_len = 1};
        int issuer = round % 2, number = round % SERIALS;
        *failures += ask(issuer, number) != wanted[issuer][number];
        uint32_t answer = clubcard_ask_each(store.file.data, store.file.len, store.index, store.facts.index_len, NULL,
                                            0, &query, 1);
        *failures += answer != CLUBCARD_DONE || query.answer != CLUBCARD_NOT_COVERED;
        answer = clubcard_covered_until(store.file.data, store.file.len, store.index, store.facts.index_len, log,
                                        &until);
        *failures += answer != CLUBCARD_DONE || until != 1700000001000;
    }
    return NULL;
}

int main(int argc, char **argv) {
    pthread_t threads[THREADS];
    unsigned failures[THREADS] = {0}, all = 0;
    if (argc != 2 || open_store(&store, argv[1]) != CLUBCARD_DONE) {
        fprintf(stderr, "usage: threads STORE\n");
        return 2;
    }
    for (int i = 0; i < SERIALS; i++) wanted[0][i] = ask(0, i), wanted[1][i] = ask(1, i);
    if (wanted[0][5] != CLUBCARD_REVOKED || wanted[1][5] != CLUBCARD_NOT_ENROLLED) all++;
    for (int i = 0; i < THREADS; i++) {
        if (pthread_create(&threads[i], NULL, run, &failures[i]) != 0) return 2;
    }
    for (int i = 0; i < THREADS; i++) {
        pthread_join(threads[i], NULL);
        all += failures[i];
    }
    close_store(&store);
    printf("%d threads, %u answers failed\n", THREADS, all);
    return all ? 1 : 0;
}
