/* A store that is opened once for any number of questions: its file is mapped, and its index is the caller's own. */
#ifndef OPENED_H
#define OPENED_H

#include <fcntl.h>
#include <stdint.h>
#include <stdio.h>
#include <stdlib.h>
#include <sys/mman.h>
#include <sys/stat.h>
#include <unistd.h>

#include "clubcard.h"

/* The bytes of a mapped file. */
typedef struct mapped {
    const uint8_t *data;
    size_t len;
} mapped;

/* A store and its index. Neither changes while the store is asked, so that any number of threads may ask it. */
typedef struct opened {
    mapped file;
    uint32_t *index;
    clubcard_store_facts facts;
} opened;

/*
 * Maps a file. Where it can't, it says so and ends the program. Nobody may write to the file in its place, nor cut it,
 * as long as it is mapped: a newer store takes its name by rename(2), and is mapped and opened anew.
 */
static mapped map_file(const char *name) {
    mapped file = {NULL, 0};
    struct stat status;
    int number = open(name, O_RDONLY | O_CLOEXEC);
    if (number >= 0 && fstat(number, &status) == 0) {
        file.len = (size_t)status.st_size;
        /* No bytes can't be mapped. They are lent as NULL. */
        void *data = file.len ? mmap(NULL, file.len, PROT_READ, MAP_PRIVATE, number, 0) : NULL;
        if (data != MAP_FAILED) {
            file.data = data;
            close(number);
            return file;
        }
    }
    fprintf(stderr, "%s can't be read\n", name);
    exit(1);
}

static void unmap_file(mapped file) {
    if (file.len) munmap((void *)(uintptr_t)file.data, file.len);
}

/*
 * Opens the store of a file. For every answer but CLUBCARD_DONE there is no store, and `facts` says which field is at
 * fault.
 */
static uint32_t open_store(opened *store, const char *name) {
    uint64_t words;
    *store = (opened){.file = map_file(name), .facts = {.size = sizeof store->facts}};
    uint32_t answer = clubcard_index_length(store->file.data, store->file.len, &words);
    /* Bytes that have no index aren't a store, and clubcard_open says why. */
    if (answer != CLUBCARD_DONE) words = 0;
    if (words <= SIZE_MAX / sizeof *store->index) store->index = malloc(words * sizeof *store->index + 1);
    if (!store->index) {
        unmap_file(store->file);
        return CLUBCARD_NO_MEMORY;
    }
    answer = clubcard_open(store->file.data, store->file.len, store->index, words, &store->facts);
    if (answer != CLUBCARD_DONE) {
        free(store->index);
        unmap_file(store->file);
    }
    return answer;
}

static void close_store(opened *store) {
    free(store->index);
    unmap_file(store->file);
}

#endif
