#define _POSIX_C_SOURCE 200809L

#include "store.h"

#include <sqlite3.h>
#include <stdio.h>
#include <string.h>
#include <sys/stat.h>

#include "trial.h"
#include "trouble.h"

enum { FORMAT = 5 };

#define REQUEST_COLUMNS \
    "kind INTEGER NOT NULL, ending INTEGER NOT NULL, trace INTEGER NOT NULL, amount INTEGER NOT NULL, approved INTEGER NOT NULL, " \
    "card TEXT NOT NULL, code TEXT NOT NULL, reference TEXT NOT NULL, authorisation TEXT NOT NULL, chip INTEGER NOT NULL"

static const char make_tables[] =
    "CREATE TABLE format (version INTEGER NOT NULL);"
    "CREATE TABLE state (id INTEGER PRIMARY KEY CHECK (id = 1), image BLOB NOT NULL, digest INTEGER NOT NULL);"
    "CREATE TABLE journal (place INTEGER PRIMARY KEY, entry BLOB NOT NULL);"
    "CREATE TABLE last_request (id INTEGER PRIMARY KEY CHECK (id = 1), " REQUEST_COLUMNS ");"
    "CREATE TABLE doubtful (id INTEGER PRIMARY KEY, " REQUEST_COLUMNS ");";

static _Noreturn void fail(const struct store *store);
static void run(struct store *store, const char *sql);
static sqlite3_stmt *prepare(struct store *store, const char *sql);
static bool step(struct store *store, sqlite3_stmt *statement);
static void finish(struct store *store, sqlite3_stmt *statement);
static int64_t number_by(struct store *store, const char *sql);
static void check(struct store *store);
static void load_image(struct store *store, uint8_t *image, int64_t *digest);
static void load_journal(struct store *store);
static void load_last(struct store *store, struct request *last);
static void save_image(struct store *store, const uint8_t *image, const uint8_t *journal, size_t entries);
static void save_journal(struct store *store, const uint8_t *journal, size_t entries);
static void save_request(struct store *store, const char *sql, const struct request *request);
static struct request request_of(const struct store *store, sqlite3_stmt *statement);
static void copy_text(sqlite3_stmt *statement, int column, char *text, size_t size);
static int64_t digest_of(const uint8_t *image, const uint8_t *journal, size_t entries);

void store_open(struct store *store, const char *path)
{
    store->path = path;
    store->entries = 0;
    umask(S_IRWXG | S_IRWXO);
    if (sqlite3_open_v2(path, &store->database, SQLITE_OPEN_READWRITE | SQLITE_OPEN_CREATE, NULL) != SQLITE_OK) {
        fail(store);
    }
    run(store, "PRAGMA locking_mode = EXCLUSIVE");
    run(store, "PRAGMA synchronous = FULL");
    run(store, "PRAGMA secure_delete = ON");
    run(store, "PRAGMA journal_mode = TRUNCATE");
    run(store, "BEGIN EXCLUSIVE");
    run(store, "COMMIT");
    check(store);
}

bool store_is_empty(struct store *store)
{
    return number_by(store, "SELECT count(*) FROM sqlite_master") == 0;
}

void store_make(struct store *store, const uint8_t image[WHISTLAUREL_IMAGE_SIZE])
{
    sqlite3_stmt *statement;

    run(store, "BEGIN IMMEDIATE");
    run(store, make_tables);
    statement = prepare(store, "INSERT INTO format VALUES (?1)");
    sqlite3_bind_int(statement, 1, FORMAT);
    finish(store, statement);
    save_image(store, image, store->journal, 0);
    run(store, "COMMIT");
}

void store_load(struct store *store, uint8_t image[WHISTLAUREL_IMAGE_SIZE], uint8_t journal[JOURNAL_SIZE], struct request *last)
{
    int64_t digest;

    if (number_by(store, "SELECT version FROM format") != FORMAT) {
        end_with(STATUS_STORE, "%s: the store has another format than this desk's", store->path);
    }
    load_image(store, image, &digest);
    load_journal(store);
    load_last(store, last);
    if (digest != digest_of(image, store->journal, store->entries)) {
        store_is_damaged(store, "image and journal have changed since they were stored");
    }
    memcpy(journal, store->journal, JOURNAL_SIZE);
}

void store_save(struct store *store, const uint8_t image[WHISTLAUREL_IMAGE_SIZE], const uint8_t journal[JOURNAL_SIZE], size_t entries,
                const struct request *last)
{
    run(store, "BEGIN IMMEDIATE");
    save_image(store, image, journal, entries);
    save_journal(store, journal, entries);
    if (last != NULL) {
        save_request(store, "INSERT OR REPLACE INTO last_request VALUES (1, ?1, ?2, ?3, ?4, ?5, ?6, ?7, ?8, ?9, ?10)", last);
    }
    if (last != NULL && (last->ending == GIVEN_UP || last->ending == UNANSWERED)) {
        save_request(store, "INSERT INTO doubtful VALUES (NULL, ?1, ?2, ?3, ?4, ?5, ?6, ?7, ?8, ?9, ?10)", last);
    }
    trial_point("during-store");
    run(store, "COMMIT");
}

uint64_t store_doubtful(struct store *store)
{
    return (uint64_t)number_by(store, "SELECT count(*) FROM doubtful");
}

void store_each_doubtful(struct store *store, void (*take)(const struct request *))
{
    sqlite3_stmt *statement = prepare(store, "SELECT * FROM doubtful ORDER BY id");

    while (step(store, statement)) {
        struct request request = request_of(store, statement);

        take(&request);
    }
    finish(store, statement);
}

_Noreturn void store_is_damaged(const struct store *store, const char *what)
{
    end_with(STATUS_STORE, "%s: the store is damaged: %s; keep the file, and settle by hand with the centre", store->path, what);
}

void store_close(struct store *store)
{
    sqlite3_close(store->database);
}

static _Noreturn void fail(const struct store *store)
{
    const char *reason = sqlite3_errmsg(store->database);

    switch (sqlite3_errcode(store->database)) {
    case SQLITE_BUSY:
    case SQLITE_LOCKED:
        end_with(STATUS_STORE, "%s: the store is in use by another desk or program", store->path);
    case SQLITE_CORRUPT:
    case SQLITE_NOTADB:
        store_is_damaged(store, reason);
    case SQLITE_ERROR:
        end_with(STATUS_STORE, "%s: the file is no store of a desk: %s", store->path, reason);
    default:
        end_with(STATUS_STORE, "%s: the store cannot be read or written: %s; what was stored last stands", store->path, reason);
    }
}

static void run(struct store *store, const char *sql)
{
    if (sqlite3_exec(store->database, sql, NULL, NULL, NULL) != SQLITE_OK) {
        fail(store);
    }
}

static sqlite3_stmt *prepare(struct store *store, const char *sql)
{
    sqlite3_stmt *statement;

    if (sqlite3_prepare_v2(store->database, sql, -1, &statement, NULL) != SQLITE_OK) {
        fail(store);
    }
    return statement;
}

/* Goes to the next row; false where there is none. */
static bool step(struct store *store, sqlite3_stmt *statement)
{
    int result = sqlite3_step(statement);

    if (result != SQLITE_ROW && result != SQLITE_DONE) {
        fail(store);
    }
    return result == SQLITE_ROW;
}

/* Takes a statement to its end. */
static void finish(struct store *store, sqlite3_stmt *statement)
{
    while (step(store, statement)) {
    }
    sqlite3_finalize(statement);
}

/* The number in the first row of a query, -1 where there is no row. */
static int64_t number_by(struct store *store, const char *sql)
{
    sqlite3_stmt *statement = prepare(store, sql);
    int64_t number = step(store, statement) ? sqlite3_column_int64(statement, 0) : -1;

    sqlite3_finalize(statement);
    return number;
}

/* SQLite's own check of the file's form. */
static void check(struct store *store)
{
    sqlite3_stmt *statement = prepare(store, "PRAGMA integrity_check(1)");

    if (!step(store, statement) || strcmp((const char *)sqlite3_column_text(statement, 0), "ok") != 0) {
        store_is_damaged(store, "its integrity check fails");
    }
    finish(store, statement);
}

static void load_image(struct store *store, uint8_t *image, int64_t *digest)
{
    sqlite3_stmt *statement = prepare(store, "SELECT image, digest FROM state");

    if (!step(store, statement) || sqlite3_column_bytes(statement, 0) != WHISTLAUREL_IMAGE_SIZE) {
        store_is_damaged(store, "it holds no image");
    }
    memcpy(image, sqlite3_column_blob(statement, 0), WHISTLAUREL_IMAGE_SIZE);
    *digest = sqlite3_column_int64(statement, 1);
    finish(store, statement);
}

/* Entries stand in their places from 0 on, without a gap. */
static void load_journal(struct store *store)
{
    sqlite3_stmt *statement = prepare(store, "SELECT place, entry FROM journal ORDER BY place");

    memset(store->journal, 0, JOURNAL_SIZE);
    store->entries = 0;
    while (step(store, statement)) {
        if (store->entries == WHISTLAUREL_MOST_ENTRIES || sqlite3_column_int64(statement, 0) != (int64_t)store->entries ||
            sqlite3_column_bytes(statement, 1) != WHISTLAUREL_ENTRY_SIZE) {
            store_is_damaged(store, "its journal has gaps");
        }
        memcpy(store->journal + store->entries * WHISTLAUREL_ENTRY_SIZE, sqlite3_column_blob(statement, 1), WHISTLAUREL_ENTRY_SIZE);
        store->entries++;
    }
    finish(store, statement);
}

static void load_last(struct store *store, struct request *last)
{
    sqlite3_stmt *statement = prepare(store, "SELECT * FROM last_request");

    memset(last, 0, sizeof *last);
    if (step(store, statement)) {
        *last = request_of(store, statement);
    }
    finish(store, statement);
}

static void save_image(struct store *store, const uint8_t *image, const uint8_t *journal, size_t entries)
{
    sqlite3_stmt *statement = prepare(store, "INSERT OR REPLACE INTO state VALUES (1, ?1, ?2)");

    sqlite3_bind_blob(statement, 1, image, WHISTLAUREL_IMAGE_SIZE, SQLITE_STATIC);
    sqlite3_bind_int64(statement, 2, digest_of(image, journal, entries));
    finish(store, statement);
}

/* Writes the entries whose bytes differ from those stored, and removes those past the last. */
static void save_journal(struct store *store, const uint8_t *journal, size_t entries)
{
    sqlite3_stmt *statement = prepare(store, "INSERT OR REPLACE INTO journal VALUES (?1, ?2)");

    for (size_t place = 0; place < entries; place++) {
        const uint8_t *entry = journal + place * WHISTLAUREL_ENTRY_SIZE;
        uint8_t *stored = store->journal + place * WHISTLAUREL_ENTRY_SIZE;

        if (place >= store->entries || memcmp(entry, stored, WHISTLAUREL_ENTRY_SIZE) != 0) {
            sqlite3_bind_int64(statement, 1, (int64_t)place);
            sqlite3_bind_blob(statement, 2, entry, WHISTLAUREL_ENTRY_SIZE, SQLITE_STATIC);
            step(store, statement);
            sqlite3_reset(statement);
            memcpy(stored, entry, WHISTLAUREL_ENTRY_SIZE);
        }
    }
    sqlite3_finalize(statement);
    if (entries < store->entries) {
        statement = prepare(store, "DELETE FROM journal WHERE place >= ?1");
        sqlite3_bind_int64(statement, 1, (int64_t)entries);
        finish(store, statement);
    }
    store->entries = entries;
}

static void save_request(struct store *store, const char *sql, const struct request *request)
{
    sqlite3_stmt *statement = prepare(store, sql);

    sqlite3_bind_int(statement, 1, request->kind);
    sqlite3_bind_int(statement, 2, (int)request->ending);
    sqlite3_bind_int64(statement, 3, request->trace);
    sqlite3_bind_int64(statement, 4, (int64_t)request->amount);
    sqlite3_bind_int64(statement, 5, (int64_t)request->approved);
    sqlite3_bind_text(statement, 6, request->card, -1, SQLITE_STATIC);
    sqlite3_bind_text(statement, 7, request->code, -1, SQLITE_STATIC);
    sqlite3_bind_text(statement, 8, request->reference, -1, SQLITE_STATIC);
    sqlite3_bind_text(statement, 9, request->authorisation, -1, SQLITE_STATIC);
    sqlite3_bind_int(statement, 10, request->has_chip);
    finish(store, statement);
}

/* The request in a row whose first column is its number in the table. */
static struct request request_of(const struct store *store, sqlite3_stmt *statement)
{
    int ending = sqlite3_column_int(statement, 2);
    struct request request = {
        .kind = (uint8_t)sqlite3_column_int(statement, 1),
        .ending = (enum ending)ending,
        .trace = (uint32_t)sqlite3_column_int64(statement, 3),
        .amount = (uint64_t)sqlite3_column_int64(statement, 4),
        .approved = (uint64_t)sqlite3_column_int64(statement, 5),
        .has_chip = sqlite3_column_int(statement, 10) != 0,
    };

    if (ending < PENDING || ending > UNANSWERED) {
        store_is_damaged(store, "a request has no such ending");
    }
    copy_text(statement, 6, request.card, sizeof request.card);
    copy_text(statement, 7, request.code, sizeof request.code);
    copy_text(statement, 8, request.reference, sizeof request.reference);
    copy_text(statement, 9, request.authorisation, sizeof request.authorisation);
    return request;
}

static void copy_text(sqlite3_stmt *statement, int column, char *text, size_t size)
{
    snprintf(text, size, "%s", (const char *)sqlite3_column_text(statement, column));
}

/* FNV-1a of image and entries: SQLite's check does not see a changed byte inside a value. */
static int64_t digest_of(const uint8_t *image, const uint8_t *journal, size_t entries)
{
    const uint8_t *parts[] = {image, journal};
    const size_t sizes[] = {WHISTLAUREL_IMAGE_SIZE, entries * WHISTLAUREL_ENTRY_SIZE};
    uint64_t digest = UINT64_C(14695981039346656037);

    for (size_t part = 0; part < 2; part++) {
        for (size_t i = 0; i < sizes[part]; i++) {
            digest = (digest ^ parts[part][i]) * UINT64_C(1099511628211);
        }
    }
    return (int64_t)digest;
}
