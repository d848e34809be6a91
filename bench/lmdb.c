/* The days of one console on LMDB without sync, written through its map, on a file in memory where /dev/shm is. A day
 * without a write in a transaction still takes a write transaction, as the log does not know before. */
#include "plain.h"
#include <lmdb.h>
#include <unistd.h>

static MDB_env *env;
static MDB_dbi dbi;
static MDB_txn *txn;

static void must(int code)
{
    if (code)
        die(mdb_strerror(code));
}

static void begin(void)
{
    must(mdb_txn_begin(env, NULL, 0, &txn));
}

static uint32_t get(uint32_t at)
{
    MDB_val key = {sizeof at, &at}, value;
    must(mdb_get(txn, dbi, &key, &value));
    uint32_t entry;
    memcpy(&entry, value.mv_data, sizeof entry);
    return entry;
}

static void put(uint32_t at, uint32_t entry)
{
    MDB_val key = {sizeof at, &at}, value = {sizeof entry, &entry};
    must(mdb_put(txn, dbi, &key, &value, 0));
}

static void commit(void)
{
    must(mdb_txn_commit(txn));
}

int main(void)
{
    char path[] = "/dev/shm/ridelog-lmdb-XXXXXX", lock[64];
    int file = mkstemp(path);
    if (file < 0)
        die("no file");
    close(file);
    must(mdb_env_create(&env));
    must(mdb_env_set_mapsize(env, 1 << 24));
    must(mdb_env_open(env, path, MDB_NOSUBDIR | MDB_NOSYNC | MDB_NOMETASYNC | MDB_WRITEMAP | MDB_MAPASYNC | MDB_NOTLS, 0600));
    begin();
    must(mdb_dbi_open(txn, NULL, MDB_CREATE | MDB_INTEGERKEY, &dbi));
    commit();
    all();
    mdb_env_close(env);
    snprintf(lock, sizeof lock, "%s-lock", path);
    unlink(lock);
    unlink(path);
    return 0;
}
