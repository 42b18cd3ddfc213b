/* SQLite: one table, order key to record, in the journal mode JOURNAL. A position is found by OFFSET. */
#include "order.h"
#include "work.h"
#include <sqlite3.h>
#include <stdio.h>
#include <string.h>

static sqlite3 *db;
static sqlite3_stmt *begin, *commit, *neighbours, *insert, *delete, *all;

static void run(const char *sql)
{
    if (sqlite3_exec(db, sql, NULL, NULL, NULL) != SQLITE_OK) {
        fprintf(stderr, "%s: %s\n", sql, sqlite3_errmsg(db));
        must(0, "sqlite3_exec");
    }
}

static sqlite3_stmt *prepared(const char *sql)
{
    sqlite3_stmt *statement;
    must(sqlite3_prepare_v2(db, sql, -1, &statement, NULL) == SQLITE_OK, sql);
    return statement;
}

/* Runs a statement that gives no rows. */
static void step(sqlite3_stmt *statement)
{
    must(sqlite3_step(statement) == SQLITE_DONE, sqlite3_sql(statement));
    sqlite3_reset(statement);
}

void open_list(void)
{
    must(sqlite3_open("list.db", &db) == SQLITE_OK, "sqlite3_open");
    run("PRAGMA journal_mode = " JOURNAL);
    run("CREATE TABLE IF NOT EXISTS list (place INTEGER PRIMARY KEY, record BLOB NOT NULL)");
    set_durable(0);
    begin = prepared("BEGIN IMMEDIATE");
    commit = prepared("COMMIT");
    neighbours = prepared("SELECT place FROM list ORDER BY place LIMIT 2 OFFSET ?");
    insert = prepared("INSERT INTO list VALUES (?, ?)");
    delete = prepared("DELETE FROM list WHERE place = (SELECT place FROM list ORDER BY place LIMIT 1 OFFSET ?)");
    all = prepared("SELECT record FROM list ORDER BY place");
}

void set_durable(int on) { run(on ? "PRAGMA synchronous = FULL" : "PRAGMA synchronous = OFF"); }

/* A key for the position. 0: there is none between its neighbours'. */
static int64_t key_for(int position)
{
    int64_t before = 0, behind = KEY_END;
    sqlite3_bind_int(neighbours, 1, position > 0 ? position - 1 : 0);
    if (position > 0 && sqlite3_step(neighbours) == SQLITE_ROW)
        before = sqlite3_column_int64(neighbours, 0);
    if (sqlite3_step(neighbours) == SQLITE_ROW)
        behind = sqlite3_column_int64(neighbours, 0);
    sqlite3_reset(neighbours);
    return key_between(before, behind);
}

/* Through negative keys, so that no two rows ever have the same. */
static void spread(void)
{
    char sql[300];
    snprintf(sql, sizeof sql,
             "UPDATE list SET place = -place;"
             "UPDATE list SET place = n * (%lld / (SELECT count(*) + 1 FROM list))"
             " FROM (SELECT place AS old, row_number() OVER (ORDER BY place DESC) AS n FROM list) WHERE place = old",
             (long long)KEY_END);
    run(sql);
}

void insert_at(int position, const Record *record)
{
    step(begin);
    int64_t key = key_for(position);
    if (key == 0) {
        spread();
        key = key_for(position);
    }
    sqlite3_bind_int64(insert, 1, key);
    sqlite3_bind_blob(insert, 2, record, sizeof *record, SQLITE_STATIC);
    step(insert);
    step(commit);
}

void delete_at(int position)
{
    sqlite3_bind_int(delete, 1, position);
    step(delete);
    must(sqlite3_changes(db) == 1, "delete");
}

int read_list(Record *records)
{
    int length = 0;
    while (sqlite3_step(all) == SQLITE_ROW)
        memcpy(&records[length++], sqlite3_column_blob(all, 0), sizeof *records);
    must(sqlite3_reset(all) == SQLITE_OK, "select");
    return length;
}

long long bytes_stored(void) { return -1; }
