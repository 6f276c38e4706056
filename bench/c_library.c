/* c_library KEYS FOLDER: microseconds of a put, a get and a del of 64 bytes, with a commit every 1,000 puts, of the
   library, of LMDB and of SQLite; and seconds in which the library opens and saves images of 16 and 256 MiB. */
#include "heap.h"

#include <lmdb.h>
#include <sqlite3.h>
#include <stdio.h>
#include <stdlib.h>
#include <string.h>
#include <time.h>

enum { VALUE = 64, BATCH = 1000 };

static const uint8_t value[VALUE] = {1, 2, 3};
static const char *folder;
static char path[4096];

static double now(void) {
    struct timespec at;
    clock_gettime(CLOCK_MONOTONIC, &at);
    return (double)at.tv_sec + 1e-9 * (double)at.tv_nsec;
}

static void need(int good, const char *what) {
    if (good) return;
    fprintf(stderr, "%s failed\n", what);
    exit(1);
}

/* Spreads the keys over shards and buckets. */
static uint64_t key_of(uint64_t i) { return i * 0x9E3779B97F4A7C15u; }

static const char *in_folder(const char *name) {
    snprintf(path, sizeof path, "%s/%s", folder, name);
    return path;
}

static void tell(const char *who, const char *what, double seconds, uint64_t count) {
    printf("%s\t%s\t%.3f\n", who, what, 1e6 * seconds / (double)count);
}

static void save_whole(heap_dict *dict, uint8_t *room) {
    heap_fault fault;
    size_t size = heap_length(dict);
    need(heap_image(dict, room, size, &fault) == HEAP_DONE, "heap_image");
    need(heap_save(in_folder("library.img"), room, size) == HEAP_DONE, "heap_save");
}

static void library(uint64_t keys, int is_saved) {
    heap_dict dict = {0};
    heap_fault fault;
    uint8_t room[VALUE];
    uint64_t length;
    const char *who = is_saved ? "library, saved every 1,000" : "library";
    need(heap_format(keys / 200 + 16, &dict, &fault) == HEAP_DONE, "heap_format");
    uint8_t *image = malloc(heap_length(&dict));
    need(image != 0, "malloc");
    double start = now();
    for (uint64_t i = 0; i < keys; i++) {
        need(heap_put(&dict, key_of(i), value, VALUE) == HEAP_DONE, "heap_put");
        if (is_saved && (i + 1) % BATCH == 0) save_whole(&dict, image);
    }
    tell(who, "put", now() - start, keys);
    start = now();
    for (uint64_t i = 0; i < keys; i++)
        need(heap_get(&dict, key_of(i), room, VALUE, &length) == HEAP_DONE, "heap_get");
    tell(who, "get", now() - start, keys);
    start = now();
    for (uint64_t i = 0; i < keys; i++) need(heap_del(&dict, key_of(i)) == HEAP_DONE, "heap_del");
    tell(who, "del", now() - start, keys);
    heap_drop(&dict);
    free(image);
}

static void lmdb(uint64_t keys) {
    MDB_env *env;
    MDB_txn *txn;
    MDB_dbi dbi;
    uint64_t key;
    MDB_val name = {sizeof key, &key}, data;
    need(!mdb_env_create(&env) && !mdb_env_set_mapsize(env, (size_t)1 << 30), "mdb_env_create");
    need(!mdb_env_open(env, in_folder("lmdb.img"), MDB_NOSUBDIR, 0644), "mdb_env_open");
    for (int what = 0; what < 3; what++) {
        static const char *const names[] = {"put", "get", "del"};
        double start = now();
        need(!mdb_txn_begin(env, 0, 0, &txn) && !mdb_dbi_open(txn, 0, 0, &dbi), "mdb_txn_begin");
        for (uint64_t i = 0; i < keys; i++) {
            key = key_of(i);
            if (what == 0) data = (MDB_val){VALUE, (void *)value};
            int status = what == 0   ? mdb_put(txn, dbi, &name, &data, 0)
                         : what == 1 ? mdb_get(txn, dbi, &name, &data)
                                     : mdb_del(txn, dbi, &name, 0);
            need(!status, names[what]);
            if (what == 1 || (i + 1) % BATCH) continue;
            need(!mdb_txn_commit(txn) && !mdb_txn_begin(env, 0, 0, &txn), "mdb_txn_commit");
        }
        need(!mdb_txn_commit(txn), "mdb_txn_commit");
        tell("LMDB", names[what], now() - start, keys);
    }
    mdb_env_close(env);
}

static void step(sqlite3_stmt *of, uint64_t key, int is_put) {
    sqlite3_bind_int64(of, 1, (sqlite3_int64)key);
    if (is_put) sqlite3_bind_blob(of, 2, value, VALUE, SQLITE_STATIC);
    int status = sqlite3_step(of);
    need(status == SQLITE_DONE || status == SQLITE_ROW, "sqlite3_step");
    sqlite3_reset(of);
}

static void sqlite(uint64_t keys) {
    static const char *const words[] = {"insert or replace into d values (?, ?)", "select v from d where k = ?",
                                        "delete from d where k = ?"};
    static const char *const names[] = {"put", "get", "del"};
    sqlite3 *db;
    sqlite3_stmt *of;
    need(!sqlite3_open(in_folder("sqlite.img"), &db), "sqlite3_open");
    need(!sqlite3_exec(db, "create table d (k integer primary key, v blob)", 0, 0, 0), "create table");
    for (int what = 0; what < 3; what++) {
        need(!sqlite3_prepare_v2(db, words[what], -1, &of, 0), "sqlite3_prepare");
        double start = now();
        sqlite3_exec(db, "begin", 0, 0, 0);
        for (uint64_t i = 0; i < keys; i++) {
            step(of, key_of(i), what == 0);
            if (what != 1 && (i + 1) % BATCH == 0) need(!sqlite3_exec(db, "commit; begin", 0, 0, 0), "commit");
        }
        need(!sqlite3_exec(db, "commit", 0, 0, 0), "commit");
        tell("SQLite", names[what], now() - start, keys);
        sqlite3_finalize(of);
    }
    sqlite3_close(db);
}

static void images(uint64_t superblocks) {
    heap_dict dict = {0};
    heap_fault fault;
    uint8_t *bytes;
    size_t size;
    need(heap_format(superblocks, &dict, &fault) == HEAP_DONE, "heap_format");
    uint8_t *room = malloc(heap_length(&dict));
    need(room != 0, "malloc");
    uint32_t status = HEAP_DONE;
    for (uint64_t i = 0; status == HEAP_DONE && i < 20 * superblocks; i++)
        status = heap_put(&dict, key_of(i), value, VALUE);
    double start = now();
    save_whole(&dict, room);
    printf("%llu superblocks\timage and save\t%.3f s\n", (unsigned long long)superblocks, now() - start);
    heap_drop(&dict);
    start = now();
    need(heap_load(in_folder("library.img"), &bytes, &size) == HEAP_DONE, "heap_load");
    need(heap_open(bytes, size, &dict, &fault) == HEAP_DONE, "heap_open");
    printf("%llu superblocks\tload and open\t%.3f s\n", (unsigned long long)superblocks, now() - start);
    heap_drop(&dict);
    free(bytes);
    free(room);
}

int main(int count, char **words) {
    if (count < 3) return 2;
    uint64_t keys = strtoull(words[1], 0, 10);
    folder = words[2];
    library(keys, 0);
    library(keys, 1);
    lmdb(keys);
    sqlite(keys);
    images(256);
    images(4096);
    return 0;
}
