/* lmdb.c: puts and gets in LMDB, one transaction an operation, without sync and with a writable map: each process at keys of its own.
 *
 *   lmdb FILE [--procs P] [--ops N] [--keys K] [--mode put|get]
 */
#include "board.h"
#include <lmdb.h>

static MDB_env *opened(const char *path, MDB_dbi *table) {
    MDB_env *env;
    MDB_txn *txn;
    if (mdb_env_create(&env) || mdb_env_set_mapsize(env, 64u << 20) || mdb_env_open(env, path, MDB_NOSUBDIR | MDB_WRITEMAP | MDB_NOSYNC | MDB_NOMETASYNC, 0660)) exit(3);
    if (mdb_txn_begin(env, NULL, 0, &txn) || mdb_dbi_open(txn, NULL, MDB_INTEGERKEY | MDB_CREATE, table) || mdb_txn_commit(txn)) exit(3);
    return env;
}

static int put(MDB_env *env, MDB_dbi table, uint32_t key, uint64_t number) {
    MDB_txn *txn;
    MDB_val k = { sizeof key, &key }, v = { sizeof number, &number };
    return mdb_txn_begin(env, NULL, 0, &txn) || mdb_put(txn, table, &k, &v, 0) || mdb_txn_commit(txn);
}

/* (a transaction that reads is kept and renewed, as LMDB's pages advise) */
static int get(MDB_txn *txn, MDB_dbi table, uint32_t key) {
    MDB_val k = { sizeof key, &key }, v;
    int bad = mdb_txn_renew(txn) || mdb_get(txn, table, &k, &v) || v.mv_size != sizeof(uint64_t);
    mdb_txn_reset(txn);
    return bad;
}

static uint64_t worker(board *all, options given, uint32_t who, double *wall, double *cpu) {
    MDB_dbi table;
    MDB_env *env = opened(given.path, &table);
    MDB_txn *reads;
    uint64_t bad = 0;
    for (uint32_t key = 0; key < given.keys; key++) bad += put(env, table, who << 16 | key, key) != 0;
    if (mdb_txn_begin(env, NULL, MDB_RDONLY, &reads)) exit(3);
    mdb_txn_reset(reads);
    ready(all);
    *wall = now(CLOCK_MONOTONIC);
    *cpu = now(CLOCK_PROCESS_CPUTIME_ID);
    for (uint64_t n = 0; n < given.ops; n++) {
        uint32_t key = who << 16 | (uint32_t)(n % given.keys);
        bad += given.put ? put(env, table, key, n) != 0 : get(reads, table, key) != 0;
    }
    return bad;
}

int main(int argc, char **argv) {
    options given;
    if (!options_of(&given, argc, argv)) return 2;
    char lock[4096];
    snprintf(lock, sizeof lock, "%s-lock", given.path);
    unlink(given.path);
    unlink(lock);
    return measure("lmdb", given, worker);
}
