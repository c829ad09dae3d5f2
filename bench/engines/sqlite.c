/* The ledger in SQLite, in memory, in the engine's own process: for bench/databases.
 *
 *     sqlite SIZE
 *
 * A table of accounts and one of assets, each with its id as primary key; statements that are prepared once; a transaction for a batch. An event's
 * values are read, and if it goes through they are written: so an event that aborts has nothing to undo.
 */
#include "ledger.h"

#include <sqlite3.h>

static sqlite3 *database;
static sqlite3_stmt *begin, *commit, *get[2], *set[2];
static const char *const tables[2] = {"acct", "asset"};

static void check(int code) {
    if (code != SQLITE_OK && code != SQLITE_ROW && code != SQLITE_DONE)
        fail("sqlite", sqlite3_errmsg(database));
}

static sqlite3_stmt *prepare(const char *words) {
    sqlite3_stmt *statement;
    check(sqlite3_prepare_v3(database, words, -1, SQLITE_PREPARE_PERSISTENT, &statement, NULL));
    return statement;
}

static void run(sqlite3_stmt *statement) {
    check(sqlite3_step(statement));
    check(sqlite3_reset(statement));
}

static void make_table(int table, int size) {
    char *words = sqlite3_mprintf("CREATE TABLE %s (id INTEGER PRIMARY KEY, value INTEGER NOT NULL);"
                                  "WITH RECURSIVE ids(id) AS (SELECT 0 UNION ALL SELECT id + 1 FROM ids WHERE id < %d - 1)"
                                  " INSERT INTO %s SELECT id, 0 FROM ids",
                                  tables[table], size, tables[table]);
    check(sqlite3_exec(database, words, NULL, NULL, NULL));
    sqlite3_free(words);
}

void engine_open(char **words, int size) {
    (void)words;
    check(sqlite3_open(":memory:", &database));
    for (int table = 0; table < 2; table++)
        make_table(table, size);
    begin = prepare("BEGIN");
    commit = prepare("COMMIT");
    get[0] = prepare("SELECT value FROM acct WHERE id = ?");
    get[1] = prepare("SELECT value FROM asset WHERE id = ?");
    set[0] = prepare("UPDATE acct SET value = ? WHERE id = ?");
    set[1] = prepare("UPDATE asset SET value = ? WHERE id = ?");
}

static long long value_of(int table, long long id) {
    sqlite3_stmt *statement = get[table];
    check(sqlite3_bind_int64(statement, 1, id));
    if (sqlite3_step(statement) != SQLITE_ROW)
        fail("sqlite", "no such id");
    long long value = sqlite3_column_int64(statement, 0);
    check(sqlite3_reset(statement));
    return value;
}

static void set_value(int table, long long id, long long value) {
    sqlite3_stmt *statement = set[table];
    check(sqlite3_bind_int64(statement, 1, value));
    check(sqlite3_bind_int64(statement, 2, id));
    run(statement);
}

/* Whether the event goes through; then the values are those after it, those of its first and second account or asset in turn. */
static int goes_through(const struct event *event, long long values[4]) {
    int ways = event->kind == 'D' ? 1 : 2;
    for (int table = 0; table < 2; table++) {
        const long long *ids = table == 0 ? event->accounts : event->assets;
        long long amount = event->amounts[table], *last = &values[2 * (ways - 1) + table];
        if (ways == 2 && (values[table] = value_of(table, ids[0]) - amount) < 0)
            return 0;
        if ((*last = value_of(table, ids[ways - 1]) + amount) > GREATEST)
            return 0;
    }
    return 1;
}

void engine_run(const struct event *events, int count, struct text *answer) {
    long long values[4];
    run(begin);
    for (const struct event *event = events; event < events + count; event++) {
        int written = event->kind == 'D' ? 2 : 4;
        if (!goes_through(event, values)) {
            put_aborted(answer, event->ts);
            continue;
        }
        for (int k = 0; k < written; k++)
            set_value(k % 2, (k % 2 == 0 ? event->accounts : event->assets)[k / 2], values[k]);
        put_committed(answer, event->ts, values, written);
    }
    run(commit);
}

void engine_close(struct text *closing) {
    for (int table = 0; table < 2; table++) {
        sqlite3_stmt *all = prepare(table == 0 ? "SELECT id, value FROM acct ORDER BY id" : "SELECT id, value FROM asset ORDER BY id");
        while (sqlite3_step(all) == SQLITE_ROW)
            put_value(closing, tables[table], sqlite3_column_int64(all, 0), sqlite3_column_int64(all, 1));
        check(sqlite3_finalize(all));
    }
}
