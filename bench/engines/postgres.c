/* The ledger in a PostgreSQL server, whose tables and functions postgres.sql made: for bench/databases.
 *
 *     postgres SIZE CONNECTION batch|event
 *
 * With `batch` each batch is one call of a prepared statement, and one transaction: its events go there as arrays, and their lines come back as
 * rows. With `event` each event is a call and a transaction of its own; the calls of a batch are sent one behind the other without waiting (libpq's
 * pipeline), so that a batch has one round trip there too.
 */
#include "ledger.h"

#include <libpq-fe.h>
#include <poll.h>
#include <stdlib.h>
#include <string.h>

#define COLUMNS 8

static PGconn *server;
static int whole; /* whether a batch is one call */

static void check(PGresult *result, ExecStatusType wanted) {
    if (PQresultStatus(result) != wanted)
        fail("postgres", PQerrorMessage(server));
}

void engine_open(char **words, int size) {
    (void)size;
    if (words[0] == NULL || words[1] == NULL)
        fail("postgres", "SIZE CONNECTION batch|event");
    server = PQconnectdb(words[0]);
    if (PQstatus(server) != CONNECTION_OK)
        fail("postgres", PQerrorMessage(server));
    whole = strcmp(words[1], "batch") == 0;
    const char *call = whole ? "SELECT * FROM batch($1, $2, $3, $4, $5, $6, $7, $8)" : "SELECT event($1, $2, $3, $4, $5, $6, $7, $8)";
    PGresult *prepared = PQprepare(server, "run", call, 0, NULL);
    check(prepared, PGRES_COMMAND_OK);
    PQclear(prepared);
    if (!whole && (PQsetnonblocking(server, 1) != 0 || PQenterPipelineMode(server) != 1))
        fail("postgres", PQerrorMessage(server));
}

/* An event's word in each column. */
static void put_column(struct text *text, const struct event *event, int column) {
    const long long numbers[COLUMNS] = {0,
                                        event->ts,
                                        event->accounts[0],
                                        event->accounts[1],
                                        event->assets[0],
                                        event->assets[1],
                                        event->amounts[0],
                                        event->amounts[1]};
    if (column == 0)
        put_bytes(text, event->kind == 'D' ? "t" : "f", 1);
    else
        put_number(text, numbers[column]);
}

static void put_line(struct text *answer, PGresult *result, int row) {
    put_bytes(answer, PQgetvalue(result, row, 0), PQgetlength(result, row, 0));
    put_bytes(answer, "\n", 1);
}

/* The whole batch in one call. */
static void run_batch(const struct event *events, int count, struct text *answer) {
    static struct text arrays[COLUMNS];
    const char *values[COLUMNS];
    for (int column = 0; column < COLUMNS; column++) {
        arrays[column].length = 0;
        for (int k = 0; k < count; k++) {
            put_bytes(&arrays[column], k == 0 ? "{" : ",", 1);
            put_column(&arrays[column], &events[k], column);
        }
        put_bytes(&arrays[column], count == 0 ? "{}" : "}", count == 0 ? 3 : 2);
        values[column] = arrays[column].bytes;
    }
    PGresult *result = PQexecPrepared(server, "run", COLUMNS, values, NULL, NULL, 0);
    check(result, PGRES_TUPLES_OK);
    for (int row = 0; row < PQntuples(result); row++)
        put_line(answer, result, row);
    PQclear(result);
}

/* Queues the call of an event, and what ends its transaction. */
static void queue_event(const struct event *event) {
    static struct text row;
    const char *values[COLUMNS];
    size_t starts[COLUMNS];
    row.length = 0;
    for (int column = 0; column < COLUMNS; column++) {
        starts[column] = row.length;
        put_column(&row, event, column);
        put_bytes(&row, "", 1);
    }
    for (int column = 0; column < COLUMNS; column++)
        values[column] = row.bytes + starts[column];
    if (PQsendQueryPrepared(server, "run", COLUMNS, values, NULL, NULL, 0) != 1 || PQpipelineSync(server) != 1)
        fail("postgres", PQerrorMessage(server));
}

/* Sends what is queued and takes what has come, until a result can be had without waiting. */
static void wait_for_result(void) {
    while (PQisBusy(server)) {
        int unsent = PQflush(server);
        struct pollfd ready = {.fd = PQsocket(server), .events = unsent > 0 ? POLLIN | POLLOUT : POLLIN};
        if (unsent < 0 || poll(&ready, 1, -1) < 0 || ((ready.revents & POLLIN) && PQconsumeInput(server) != 1))
            fail("postgres", PQerrorMessage(server));
    }
}

/* Each event has a row, the end of its call, which is no result, and the end of its transaction. */
static void take_event(struct text *answer) {
    wait_for_result();
    PGresult *result = PQgetResult(server);
    check(result, PGRES_TUPLES_OK);
    put_line(answer, result, 0);
    PQclear(result);
    wait_for_result();
    if (PQgetResult(server) != NULL)
        fail("postgres", "more than one result of an event");
    wait_for_result();
    result = PQgetResult(server);
    check(result, PGRES_PIPELINE_SYNC);
    PQclear(result);
}

void engine_run(const struct event *events, int count, struct text *answer) {
    if (whole) {
        run_batch(events, count, answer);
        return;
    }
    for (int k = 0; k < count; k++)
        queue_event(&events[k]);
    for (int k = 0; k < count; k++)
        take_event(answer);
}

void engine_close(struct text *closing) {
    if (!whole && (PQexitPipelineMode(server) != 1 || PQsetnonblocking(server, 0) != 0))
        fail("postgres", PQerrorMessage(server));
    for (int table = 0; table < 2; table++) {
        const char *name = table == 0 ? "acct" : "asset";
        PGresult *result = PQexec(server, table == 0 ? "SELECT id, value FROM acct ORDER BY id" : "SELECT id, value FROM asset ORDER BY id");
        check(result, PGRES_TUPLES_OK);
        for (int row = 0; row < PQntuples(result); row++)
            put_value(closing, name, atoll(PQgetvalue(result, row, 0)), atoll(PQgetvalue(result, row, 1)));
        PQclear(result);
    }
    PQfinish(server);
}
