/*
 * The store: one SQLite file with image, journal, the last request and the requests in doubt. What belongs together is written in one
 * transaction. Any trouble ends the process with STATUS_STORE, so that nothing leaves that is not stored; what was stored last stands.
 *
 * Card numbers stand in image and journal, and a chip's field 55 in the image until its request has ended: the file is readable by its
 * owner alone, and has to be protected as the scheme's rules ask.
 */
#ifndef DESK_STORE_H
#define DESK_STORE_H

#include <stdbool.h>
#include <stddef.h>
#include <stdint.h>

#include "request.h"
#include "whistlaurel.h"

enum { JOURNAL_SIZE = WHISTLAUREL_ENTRY_SIZE * WHISTLAUREL_MOST_ENTRIES };

struct sqlite3;

struct store {
    struct sqlite3 *database;
    const char *path;
    uint8_t journal[JOURNAL_SIZE];   /* as it was stored last */
    size_t entries;
};

/* Opens the file, locks it for this process alone and checks it. Creates it where there is none. */
void store_open(struct store *store, const char *path);

/* Whether nothing has been stored yet. */
bool store_is_empty(struct store *store);

/* Stores a fresh terminal. */
void store_make(struct store *store, const uint8_t image[WHISTLAUREL_IMAGE_SIZE]);

/* Reads all but the requests in doubt. */
void store_load(struct store *store, uint8_t image[WHISTLAUREL_IMAGE_SIZE], uint8_t journal[JOURNAL_SIZE], struct request *last);

/* Stores the image, the entries that have changed and, where last is not NULL, the last request, also as one in doubt where it is. */
void store_save(struct store *store, const uint8_t image[WHISTLAUREL_IMAGE_SIZE], const uint8_t journal[JOURNAL_SIZE], size_t entries,
                const struct request *last);

/* How many requests are in doubt. */
uint64_t store_doubtful(struct store *store);

/* Hands each request in doubt to a function, oldest first. */
void store_each_doubtful(struct store *store, void (*take)(const struct request *));

/* Ends the process because the store's contents do not fit together. */
_Noreturn void store_is_damaged(const struct store *store, const char *what);

void store_close(struct store *store);

#endif
