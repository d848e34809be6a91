/* The days of one console on SQLite in memory: prepared statements, no sync, the journal that it needs to roll back. */
#include "plain.h"
#include <sqlite3.h>

static sqlite3 *db;
static sqlite3_stmt *begins, *gets, *puts_, *commits;

static void run_sql(const char *sql)
{
    if (sqlite3_exec(db, sql, NULL, NULL, NULL) != SQLITE_OK)
        die(sqlite3_errmsg(db));
}

static sqlite3_stmt *prepared(const char *sql)
{
    sqlite3_stmt *s;
    if (sqlite3_prepare_v3(db, sql, -1, SQLITE_PREPARE_PERSISTENT, &s, NULL) != SQLITE_OK)
        die(sqlite3_errmsg(db));
    return s;
}

static void done(sqlite3_stmt *s)
{
    if (sqlite3_step(s) != SQLITE_DONE)
        die(sqlite3_errmsg(db));
    sqlite3_reset(s);
}

static void begin(void)
{
    done(begins);
}

static uint32_t get(uint32_t at)
{
    sqlite3_bind_int(gets, 1, (int)at);
    if (sqlite3_step(gets) != SQLITE_ROW)
        die(sqlite3_errmsg(db));
    uint32_t entry = (uint32_t)sqlite3_column_int64(gets, 0);
    sqlite3_reset(gets);
    return entry;
}

static void put(uint32_t at, uint32_t entry)
{
    sqlite3_bind_int(puts_, 1, (int)at);
    sqlite3_bind_int64(puts_, 2, entry);
    done(puts_);
}

static void commit(void)
{
    done(commits);
}

int main(void)
{
    if (sqlite3_open(":memory:", &db) != SQLITE_OK)
        die("no database");
    run_sql("PRAGMA synchronous = OFF");
    run_sql("PRAGMA journal_mode = MEMORY");
    run_sql("PRAGMA locking_mode = EXCLUSIVE");
    run_sql("CREATE TABLE record (at INTEGER PRIMARY KEY, entry INTEGER NOT NULL)");
    run_sql("WITH RECURSIVE n(at) AS (SELECT 0 UNION ALL SELECT at + 1 FROM n WHERE at < 255)"
            " INSERT INTO record SELECT at, 0 FROM n");
    begins = prepared("BEGIN");
    gets = prepared("SELECT entry FROM record WHERE at = ?1");
    puts_ = prepared("UPDATE record SET entry = ?2 WHERE at = ?1");
    commits = prepared("COMMIT");
    all();
    return 0;
}
