/* The work of crates/rss_speed, done with LMDB, Berkeley DB and SQLite: a table of numbers, and an index
 * over them. Each prints a line: its name, and how many a second it made of each thing.
 *
 * cc -O2 -o peers peers.c -llmdb -ldb -lsqlite3, without -llmdb or -ldb if its header isn't there
 *
 * usage: peers FOLDER COMMITS TUPLES BATCH
 *            commits of one insert, inserts, fetches, updates, tuples of a scan
 *        peers FOLDER rising|scattered|unique TUPLES BATCH
 *            inserts, look-ups by key, tuples of a scan by the index */
#include <fcntl.h>
#include <sqlite3.h>
#include <stdint.h>
#include <stdio.h>
#include <stdlib.h>
#include <string.h>
#include <time.h>
#include <unistd.h>
#if __has_include(<lmdb.h>)
#include <lmdb.h>
#define WITH_LMDB
#endif
#if __has_include(<db.h>)
#include <db.h>
#define WITH_BERKELEY_DB
#endif

#define FETCHES 1000000
#define UPDATES 200000
#define STEP 7919 /* from one row that is fetched or changed to the next */
#define CACHE_BYTES (1024 * 4096)

static const char *folder;

static void check(int ok, const char *what) {
    if (!ok) {
        fprintf(stderr, "peers: %s failed\n", what);
        exit(1);
    }
}

static double now(void) {
    struct timespec t;
    clock_gettime(CLOCK_MONOTONIC, &t);
    return t.tv_sec + t.tv_nsec / 1e9;
}

#if defined(WITH_LMDB) || defined(WITH_BERKELEY_DB)
/* Keys are in the order of their bytes. */
static uint64_t in_order(uint64_t n) { return __builtin_bswap64(n); }
#endif

static const char *path_of(const char *name) {
    static char path[4096];
    snprintf(path, sizeof path, "%s/%s", folder, name);
    return path;
}

enum index { NO_INDEX, PLAIN_INDEX, UNIQUE_INDEX };

/* What an engine does. Tuples have the numbers from 0 on; with an index, each has an entry there. */
struct engine {
    const char *name;
    void (*open)(enum index);
    void (*begin)(void);
    void (*insert)(uint64_t number, int64_t value);
    void (*end)(void);
    void (*update)(uint64_t number, int64_t value); /* without an index */
    int64_t (*fetch)(uint64_t number);
    int64_t (*look_up)(int64_t value);
    uint64_t (*scan)(void); /* by the index if there is one; how many tuples it read */
    void (*close)(void);
};

static enum index index_kind;

/* ---- LMDB */
#ifdef WITH_LMDB

static MDB_env *lm_env;
static MDB_txn *lm_txn;
static MDB_dbi lm_table, lm_index;

static void lm_begin(void) { check(!mdb_txn_begin(lm_env, NULL, 0, &lm_txn), "mdb_txn_begin"); }
static void lm_end(void) { check(!mdb_txn_commit(lm_txn), "mdb_txn_commit"); }

static void lm_open(enum index kind) {
    index_kind = kind;
    check(!mdb_env_create(&lm_env), "mdb_env_create");
    mdb_env_set_maxdbs(lm_env, 2);
    mdb_env_set_mapsize(lm_env, 1UL << 30);
    check(!mdb_env_open(lm_env, path_of("lmdb"), MDB_NOSUBDIR, 0644), "mdb_env_open");
    lm_begin();
    check(!mdb_dbi_open(lm_txn, "table", MDB_CREATE, &lm_table), "mdb_dbi_open");
    check(!mdb_dbi_open(lm_txn, "index", MDB_CREATE, &lm_index), "mdb_dbi_open");
    lm_end();
}

static void lm_put(MDB_dbi in, uint64_t key, uint64_t value, unsigned flags) {
    MDB_val k = {sizeof key, &key}, v = {sizeof value, &value};
    check(!mdb_put(lm_txn, in, &k, &v, flags), "mdb_put");
}

static uint64_t lm_get(MDB_dbi in, uint64_t key) {
    MDB_val k = {sizeof key, &key}, v;
    uint64_t value;
    check(!mdb_get(lm_txn, in, &k, &v), "mdb_get");
    memcpy(&value, v.mv_data, sizeof value);
    return value;
}

static void lm_insert(uint64_t number, int64_t value) {
    lm_put(lm_table, in_order(number), value, 0);
    if (index_kind)
        lm_put(lm_index, in_order(value), number, index_kind == UNIQUE_INDEX ? MDB_NOOVERWRITE : 0);
}

static void lm_update(uint64_t number, int64_t value) { lm_put(lm_table, in_order(number), value, 0); }

static int64_t lm_fetch(uint64_t number) { return lm_get(lm_table, in_order(number)); }
static int64_t lm_look_up(int64_t value) { return lm_fetch(lm_get(lm_index, in_order(value))); }

static uint64_t lm_scan(void) {
    MDB_cursor *cursor;
    MDB_val k, v;
    uint64_t count = 0, number;
    check(!mdb_cursor_open(lm_txn, index_kind ? lm_index : lm_table, &cursor), "mdb_cursor_open");
    while (!mdb_cursor_get(cursor, &k, &v, MDB_NEXT)) {
        memcpy(&number, v.mv_data, sizeof number);
        if (index_kind)
            lm_fetch(number);
        count++;
    }
    mdb_cursor_close(cursor);
    return count;
}

static void lm_close(void) { mdb_env_close(lm_env); }
#endif

/* ---- Berkeley DB */
#ifdef WITH_BERKELEY_DB

static DB_ENV *bd_env;
static DB_TXN *bd_txn;
static DB *bd_table, *bd_index;

static DB *bd_database(const char *name) {
    DB *db;
    check(!db_create(&db, bd_env, 0), "db_create");
    check(!db->open(db, NULL, name, NULL, DB_BTREE, DB_CREATE | DB_AUTO_COMMIT, 0644), "DB->open");
    return db;
}

static void bd_open(enum index kind) {
    index_kind = kind;
    check(!db_env_create(&bd_env, 0), "db_env_create");
    bd_env->set_cachesize(bd_env, 0, CACHE_BYTES, 1);
    bd_env->set_lk_max_locks(bd_env, 100000);
    bd_env->set_lk_max_objects(bd_env, 100000);
    check(!bd_env->open(bd_env, folder,
                        DB_CREATE | DB_PRIVATE | DB_INIT_TXN | DB_INIT_LOCK | DB_INIT_LOG | DB_INIT_MPOOL, 0644),
          "DB_ENV->open");
    bd_table = bd_database("table.db");
    bd_index = bd_database("index.db");
}

static void bd_begin(void) { check(!bd_env->txn_begin(bd_env, NULL, &bd_txn, 0), "txn_begin"); }
static void bd_end(void) { check(!bd_txn->commit(bd_txn, 0), "commit"); }

static void bd_put(DB *db, uint64_t key, uint64_t value, uint32_t flags) {
    DBT k = {.data = &key, .size = sizeof key}, v = {.data = &value, .size = sizeof value};
    check(!db->put(db, bd_txn, &k, &v, flags), "DB->put");
}

static uint64_t bd_get(DB *db, uint64_t key) {
    uint64_t value;
    DBT k = {.data = &key, .size = sizeof key};
    DBT v = {.data = &value, .ulen = sizeof value, .flags = DB_DBT_USERMEM};
    check(!db->get(db, bd_txn, &k, &v, 0), "DB->get");
    return value;
}

static void bd_insert(uint64_t number, int64_t value) {
    bd_put(bd_table, in_order(number), value, 0);
    if (index_kind)
        bd_put(bd_index, in_order(value), number, index_kind == UNIQUE_INDEX ? DB_NOOVERWRITE : 0);
}

static void bd_update(uint64_t number, int64_t value) { bd_put(bd_table, in_order(number), value, 0); }

static int64_t bd_fetch(uint64_t number) { return bd_get(bd_table, in_order(number)); }
static int64_t bd_look_up(int64_t value) { return bd_fetch(bd_get(bd_index, in_order(value))); }

static uint64_t bd_scan(void) {
    DBC *cursor;
    uint64_t count = 0, key, number;
    DBT k = {.data = &key, .ulen = sizeof key, .flags = DB_DBT_USERMEM};
    DBT v = {.data = &number, .ulen = sizeof number, .flags = DB_DBT_USERMEM};
    DB *db = index_kind ? bd_index : bd_table;
    check(!db->cursor(db, bd_txn, &cursor, 0), "DB->cursor");
    while (!cursor->get(cursor, &k, &v, DB_NEXT)) {
        if (index_kind)
            bd_fetch(number);
        count++;
    }
    cursor->close(cursor);
    return count;
}

static void bd_close(void) {
    bd_table->close(bd_table, 0);
    bd_index->close(bd_index, 0);
    bd_env->close(bd_env, 0);
}
#endif

/* ---- SQLite, by its C API */

static sqlite3 *sq;
static sqlite3_stmt *sq_insert_row, *sq_update_row, *sq_fetch_row, *sq_look_up_row, *sq_scan_rows;

static void sq_run(const char *text) { check(sqlite3_exec(sq, text, 0, 0, 0) == SQLITE_OK, text); }

static sqlite3_stmt *sq_prepared(const char *text) {
    sqlite3_stmt *made;
    check(sqlite3_prepare_v2(sq, text, -1, &made, 0) == SQLITE_OK, text);
    return made;
}

static void sq_open(enum index kind) {
    index_kind = kind;
    check(sqlite3_open(path_of("sqlite"), &sq) == SQLITE_OK, "sqlite3_open");
    sq_run("PRAGMA journal_mode=WAL");
    sq_run("PRAGMA synchronous=FULL");
    sq_run("PRAGMA cache_size=1024");
    sq_run("CREATE TABLE r (n INTEGER PRIMARY KEY, a INTEGER)");
    if (kind)
        sq_run(kind == UNIQUE_INDEX ? "CREATE UNIQUE INDEX i ON r (a)" : "CREATE INDEX i ON r (a)");
    sq_insert_row = sq_prepared("INSERT INTO r VALUES (?, ?)");
    sq_update_row = sq_prepared("UPDATE r SET a = ?2 WHERE n = ?1");
    sq_fetch_row = sq_prepared("SELECT a FROM r WHERE n = ?");
    sq_look_up_row = sq_prepared("SELECT n, a FROM r WHERE a = ?");
    sq_scan_rows = sq_prepared(kind ? "SELECT n, a FROM r ORDER BY a" : "SELECT n, a FROM r");
}

static void sq_begin(void) { sq_run("BEGIN"); }
static void sq_end(void) { sq_run("COMMIT"); }

static void sq_write(sqlite3_stmt *statement, uint64_t number, int64_t value) {
    sqlite3_bind_int64(statement, 1, number);
    sqlite3_bind_int64(statement, 2, value);
    check(sqlite3_step(statement) == SQLITE_DONE, "a change");
    sqlite3_reset(statement);
}

static void sq_insert(uint64_t number, int64_t value) { sq_write(sq_insert_row, number, value); }
static void sq_update(uint64_t number, int64_t value) { sq_write(sq_update_row, number, value); }

static int64_t sq_one(sqlite3_stmt *statement, int64_t by, int column) {
    int64_t value;
    sqlite3_bind_int64(statement, 1, by);
    check(sqlite3_step(statement) == SQLITE_ROW, "SELECT");
    value = sqlite3_column_int64(statement, column);
    sqlite3_reset(statement);
    return value;
}

static int64_t sq_fetch(uint64_t number) { return sq_one(sq_fetch_row, number, 0); }
static int64_t sq_look_up(int64_t value) { return sq_one(sq_look_up_row, value, 1); }

static uint64_t sq_scan(void) {
    uint64_t count = 0;
    while (sqlite3_step(sq_scan_rows) == SQLITE_ROW)
        count++;
    sqlite3_reset(sq_scan_rows);
    return count;
}

static void sq_close(void) {
    sqlite3_finalize(sq_insert_row);
    sqlite3_finalize(sq_update_row);
    sqlite3_finalize(sq_fetch_row);
    sqlite3_finalize(sq_look_up_row);
    sqlite3_finalize(sq_scan_rows);
    sqlite3_close(sq);
}

static const struct engine engines[] = {
#ifdef WITH_LMDB
    {"LMDB", lm_open, lm_begin, lm_insert, lm_end, lm_update, lm_fetch, lm_look_up, lm_scan, lm_close},
#endif
#ifdef WITH_BERKELEY_DB
    {"BerkeleyDB", bd_open, bd_begin, bd_insert, bd_end, bd_update, bd_fetch, bd_look_up, bd_scan, bd_close},
#endif
    {"SQLite", sq_open, sq_begin, sq_insert, sq_end, sq_update, sq_fetch, sq_look_up, sq_scan, sq_close},
};

/* ---- the work */

static void insert_all(const struct engine *e, uint32_t from, uint32_t tuples, uint32_t batch, uint32_t factor) {
    e->begin();
    for (uint32_t number = from; number < tuples; number++) {
        e->insert(number, (uint32_t)(number * factor));
        if ((number + 1) % batch == 0) {
            e->end();
            e->begin();
        }
    }
    e->end();
}

/* Rows that are far apart. */
static void fetch_some(const struct engine *e, uint32_t tuples) {
    uint64_t place = 0;
    e->begin();
    for (uint32_t k = 0; k < FETCHES; k++) {
        check(e->fetch(place) == (int64_t)place, "a fetch");
        place = (place + STEP) % tuples;
    }
    e->end();
}

static void update_some(const struct engine *e, uint32_t tuples, uint32_t batch) {
    uint64_t place = 0;
    e->begin();
    for (uint32_t k = 0; k < UPDATES; k++) {
        e->update(place, k);
        if ((k + 1) % batch == 0) {
            e->end();
            e->begin();
        }
        place = (place + STEP) % tuples;
    }
    e->end();
}

static void scan_all(const struct engine *e, uint32_t tuples) {
    e->begin();
    check(e->scan() == tuples, "a scan");
    e->end();
}

static void measure_tuples(const struct engine *e, uint32_t commits, uint32_t tuples, uint32_t batch) {
    double start, committed, inserted, fetched, updated, scanned;
    e->open(NO_INDEX);
    start = now();
    for (uint32_t number = 0; number < commits; number++) {
        e->begin();
        e->insert(number, number);
        e->end();
    }
    committed = now();
    insert_all(e, commits, tuples, batch, 1);
    inserted = now();
    fetch_some(e, tuples);
    fetched = now();
    update_some(e, tuples, batch);
    updated = now();
    scan_all(e, tuples);
    scanned = now();
    e->close();
    printf("%s %.0f %.0f %.0f %.0f %.0f\n", e->name, commits / (committed - start),
           (tuples - commits) / (inserted - committed), FETCHES / (fetched - inserted), UPDATES / (updated - fetched),
           tuples / (scanned - updated));
}

static void measure_index(const struct engine *e, const char *keys, uint32_t tuples, uint32_t batch) {
    uint32_t factor = strcmp(keys, "rising") == 0 ? 1 : 2654435761u;
    double start, inserted, found, scanned;
    e->open(strcmp(keys, "unique") == 0 ? UNIQUE_INDEX : PLAIN_INDEX);
    start = now();
    insert_all(e, 0, tuples, batch, factor);
    inserted = now();
    e->begin();
    for (uint32_t number = 0; number < tuples; number++)
        check(e->look_up((uint32_t)(number * factor)) == (uint32_t)(number * factor), "a look-up");
    e->end();
    found = now();
    scan_all(e, tuples);
    scanned = now();
    e->close();
    printf("%s-%s %.0f %.0f %.0f\n", e->name, keys, tuples / (inserted - start), tuples / (found - inserted),
           tuples / (scanned - found));
}

/* As many commits as the two synced writes of a page that one of the store's is. */
static void measure_writes(uint32_t commits) {
    static char page[4096];
    int file = open(path_of("writes"), O_RDWR | O_CREAT, 0644);
    double start;
    check(file >= 0 && posix_fallocate(file, 0, 2 * sizeof page) == 0, "open");
    start = now();
    for (uint32_t k = 0; k < commits; k++)
        for (int at = 0; at < 2; at++) {
            page[0] = k;
            check(pwrite(file, page, sizeof page, at * sizeof page) == sizeof page && fdatasync(file) == 0, "a write");
        }
    printf("two-synced-writes %.0f\n", commits / (now() - start));
    close(file);
}

int main(int count, char **words) {
    int keyed;
    if (count != 5) {
        fprintf(stderr, "usage: peers FOLDER COMMITS|rising|scattered|unique TUPLES BATCH\n");
        return 1;
    }
    folder = words[1];
    keyed = strcmp(words[2], "rising") == 0 || strcmp(words[2], "scattered") == 0 || strcmp(words[2], "unique") == 0;
    for (size_t k = 0; k < sizeof engines / sizeof *engines; k++)
        if (keyed)
            measure_index(&engines[k], words[2], atoi(words[3]), atoi(words[4]));
        else
            measure_tuples(&engines[k], atoi(words[2]), atoi(words[3]), atoi(words[4]));
    if (!keyed)
        measure_writes(atoi(words[2]));
    return 0;
}
