/* LMDB: one database, order key to record. A position is found by walking a cursor from the first row. */
#include "order.h"
#include "work.h"
#include <lmdb.h>
#include <string.h>

static MDB_env *env;
static MDB_dbi list;
static MDB_txn *txn;
static MDB_cursor *cursor;

/* An integer key is a size_t in the machine's own form. */
typedef size_t Key;

static void begin(unsigned flags)
{
    must(mdb_txn_begin(env, NULL, flags, &txn) == 0, "mdb_txn_begin");
    must(mdb_cursor_open(txn, list, &cursor) == 0, "mdb_cursor_open");
}

static void commit(void)
{
    mdb_cursor_close(cursor);
    must(mdb_txn_commit(txn) == 0, "mdb_txn_commit");
}

void open_list(void)
{
    must(mdb_env_create(&env) == 0, "mdb_env_create");
    must(mdb_env_open(env, ".", MDB_NOSYNC, 0644) == 0, "mdb_env_open");
    must(mdb_txn_begin(env, NULL, 0, &txn) == 0, "mdb_txn_begin");
    must(mdb_dbi_open(txn, NULL, MDB_INTEGERKEY, &list) == 0, "mdb_dbi_open");
    must(mdb_txn_commit(txn) == 0, "mdb_txn_commit");
}

void set_durable(int on) { must(mdb_env_set_flags(env, MDB_NOSYNC, !on) == 0, "mdb_env_set_flags"); }

/* Moves the cursor. The key there, KEY_END behind the last row. */
static int64_t move(MDB_cursor_op where, MDB_val *value)
{
    MDB_val key;
    int result = mdb_cursor_get(cursor, &key, value, where);
    if (result == MDB_NOTFOUND)
        return KEY_END;
    must(result == 0, "mdb_cursor_get");
    Key number;
    memcpy(&number, key.mv_data, sizeof number);
    return (int64_t)number;
}

/* Moves the cursor to the position. A key between the one there and the one before it, 0 if there is none. */
static int64_t go_to(int position)
{
    MDB_val value;
    int64_t before = 0, key = move(MDB_FIRST, &value);
    for (; position > 0; position--) {
        before = key;
        key = move(MDB_NEXT, &value);
    }
    return key_between(before, key);
}

static void put(int64_t key, const Record *record, unsigned flags)
{
    Key number = (Key)key;
    MDB_val name = {sizeof number, &number}, value = {sizeof *record, (void *)record};
    must(mdb_cursor_put(cursor, &name, &value, flags) == 0, "mdb_cursor_put");
}

/* Inside a transaction. */
static int rows(Record *records)
{
    MDB_val value;
    int length = 0;
    for (int64_t key = move(MDB_FIRST, &value); key != KEY_END; key = move(MDB_NEXT, &value))
        memcpy(&records[length++], value.mv_data, sizeof *records);
    return length;
}

static void spread(void)
{
    static Record records[NODES];
    int length = rows(records);
    must(mdb_drop(txn, list, 0) == 0, "mdb_drop");
    for (int i = 0; i < length; i++)
        put(KEY_END / (length + 1) * (i + 1), &records[i], MDB_APPEND);
}

void insert_at(int position, const Record *record)
{
    begin(0);
    int64_t key = go_to(position);
    if (key == 0) {
        spread();
        key = go_to(position);
    }
    put(key, record, MDB_NOOVERWRITE);
    commit();
}

void delete_at(int position)
{
    begin(0);
    go_to(position);
    must(mdb_cursor_del(cursor, 0) == 0, "mdb_cursor_del");
    commit();
}

int read_list(Record *records)
{
    begin(MDB_RDONLY);
    int length = rows(records);
    mdb_cursor_close(cursor);
    mdb_txn_abort(txn);
    return length;
}

long long bytes_stored(void) { return -1; }
