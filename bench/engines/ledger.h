/* What the engines of bench/databases share.
 *
 * An engine does in a database what `morph app=ledger` does, byte for byte. `main` stands in ledger.c: it reads the events of a batch up to its
 * `P`, sorts them by timestamp where they came in another order, gives them to the engine at once, and writes the answer before it reads on. The
 * input is taken to be valid, of version 1, and to end behind a `P`.
 */
#include <stddef.h>

#define GREATEST 1000000000000LL /* of a value */

/* A deposit has one account and one asset, a transfer two of each, of which the first gives. */
struct event {
    char kind; /* 'D' or 'X' */
    long long ts;
    long long accounts[2];
    long long assets[2];
    long long amounts[2]; /* for accounts and for assets */
};

/* Bytes that are written or sent, and how many there is room for. */
struct text {
    char *bytes;
    size_t length;
    size_t room;
};

void put_bytes(struct text *text, const char *bytes, size_t length);
void put_word(struct text *text, const char *word);
void put_number(struct text *text, long long number);
/* The line of an event: that it aborted, or its new values. */
void put_aborted(struct text *answer, long long ts);
void put_committed(struct text *answer, long long ts, const long long *values, int count);
/* A closing line, unless the value is 0. */
void put_value(struct text *closing, const char *table, long long id, long long value);
/* Ends the engine with status 1. */
_Noreturn void fail(const char *what, const char *why);

/* Of each engine: what it does first, with the words behind its name; what it does with a batch, whose lines it puts into the answer; and the
 * values that are not 0, accounts first, each by id. The tables have ids from 0 to below the size, and each value is 0 at first. */
void engine_open(char **words, int size);
void engine_run(const struct event *events, int count, struct text *answer);
void engine_close(struct text *closing);
