/* The ledger in a Redis server, by a Lua script for each batch: for bench/databases.
 *
 *     redis SIZE SOCKET SCRIPT
 *
 * The script of the file is loaded once, and called by its sum (EVALSHA): an array of words goes there for each batch, and one string comes back,
 * which has the lines. The client speaks the protocol of the server itself, over a Unix socket.
 */
#include "ledger.h"

#include <stdio.h>
#include <stdlib.h>
#include <string.h>
#include <sys/socket.h>
#include <sys/un.h>
#include <unistd.h>

static int server;
static char sum[41]; /* of the script */

static struct text received; /* what has come, of which the reply that is read begins at `at` */
static size_t at;

static void connect_to(const char *path) {
    struct sockaddr_un address = {.sun_family = AF_UNIX};
    if (strlen(path) >= sizeof address.sun_path)
        fail("redis", "the socket's path is too long");
    strcpy(address.sun_path, path);
    server = socket(AF_UNIX, SOCK_STREAM, 0);
    if (server < 0 || connect(server, (struct sockaddr *)&address, sizeof address) != 0)
        fail("redis", "cannot connect");
}

static void put_header(struct text *command, char kind, long long count) {
    put_bytes(command, &kind, 1);
    put_number(command, count);
    put_bytes(command, "\r\n", 2);
}

static void put_argument(struct text *command, const char *bytes, size_t length) {
    put_header(command, '$', length);
    put_bytes(command, bytes, length);
    put_bytes(command, "\r\n", 2);
}

static void put_argument_number(struct text *command, long long number) {
    char digits[20];
    put_argument(command, digits, snprintf(digits, sizeof digits, "%lld", number));
}

static void put_argument_word(struct text *command, const char *word) {
    put_argument(command, word, strlen(word));
}

static void send_command(struct text *command) {
    for (size_t sent = 0; sent < command->length;) {
        ssize_t moved = write(server, command->bytes + sent, command->length - sent);
        if (moved <= 0)
            fail("redis", "cannot send");
        sent += moved;
    }
    command->length = 0;
    received.length = at = 0;
}

static void receive(void) {
    char piece[65536];
    ssize_t moved = read(server, piece, sizeof piece);
    if (moved <= 0)
        fail("redis", "cannot receive");
    put_bytes(&received, piece, moved);
}

/* The number in the header of a reply, which has to be of this kind, and skips the header. */
static long long take_header(char kind) {
    char *end;
    while (received.length == at || (end = memchr(received.bytes + at, '\n', received.length - at)) == NULL)
        receive();
    if (received.bytes[at] != kind) {
        *end = 0;
        fail("redis", received.bytes + at);
    }
    long long number = atoll(received.bytes + at + 1);
    at = end + 1 - received.bytes;
    return number;
}

/* The bytes of a reply, and how many they are. They last until the next command. */
static const char *take_string(size_t *length) {
    long long count = take_header('$');
    if (count < 0)
        fail("redis", "no string");
    while (received.length - at < (size_t)count + 2)
        receive();
    *length = count;
    at += count + 2;
    return received.bytes + at - count - 2;
}

static struct text read_file(const char *path) {
    struct text whole = {0};
    char piece[4096];
    FILE *file = fopen(path, "r");
    if (file == NULL)
        fail("redis", "the script is not there");
    for (size_t moved; (moved = fread(piece, 1, sizeof piece, file)) > 0;)
        put_bytes(&whole, piece, moved);
    fclose(file);
    return whole;
}

void engine_open(char **words, int size) {
    (void)size;
    if (words[0] == NULL || words[1] == NULL)
        fail("redis", "SIZE SOCKET SCRIPT");
    struct text script = read_file(words[1]), command = {0};
    size_t length;
    connect_to(words[0]);
    put_header(&command, '*', 3);
    put_argument_word(&command, "SCRIPT");
    put_argument_word(&command, "LOAD");
    put_argument(&command, script.bytes, script.length);
    send_command(&command);
    const char *loaded = take_string(&length);
    if (length != sizeof sum - 1)
        fail("redis", "the script has no sum");
    memcpy(sum, loaded, length);
}

static void put_event(struct text *command, const struct event *event) {
    int ways = event->kind == 'D' ? 1 : 2;
    put_argument(command, &event->kind, 1);
    put_argument_number(command, event->ts);
    for (int k = 0; k < ways; k++)
        put_argument_number(command, event->accounts[k]);
    for (int k = 0; k < ways; k++)
        put_argument_number(command, event->assets[k]);
    for (int k = 0; k < 2; k++)
        put_argument_number(command, event->amounts[k]);
}

void engine_run(const struct event *events, int count, struct text *answer) {
    static struct text command;
    long long words = 5;
    size_t length;
    for (int k = 0; k < count; k++)
        words += events[k].kind == 'D' ? 6 : 8;
    put_header(&command, '*', words);
    put_argument_word(&command, "EVALSHA");
    put_argument_word(&command, sum);
    put_argument_word(&command, "2");
    put_argument_word(&command, "acct");
    put_argument_word(&command, "asset");
    for (int k = 0; k < count; k++)
        put_event(&command, &events[k]);
    send_command(&command);
    const char *lines = take_string(&length);
    put_bytes(answer, lines, length);
}

struct field {
    long long id;
    long long value;
};

static int is_behind(const void *left, const void *right) {
    long long mine = ((const struct field *)left)->id, other = ((const struct field *)right)->id;
    return (mine > other) - (mine < other);
}

/* The fields of a hash, which come in any order. */
static void close_table(struct text *closing, const char *table) {
    struct text command = {0};
    size_t length;
    put_header(&command, '*', 2);
    put_argument_word(&command, "HGETALL");
    put_argument_word(&command, table);
    send_command(&command);
    long long count = take_header('*') / 2;
    struct field *fields = calloc(count + 1, sizeof *fields);
    if (fields == NULL)
        fail("redis", "out of memory");
    for (long long k = 0; k < count; k++) {
        fields[k].id = atoll(take_string(&length));
        fields[k].value = atoll(take_string(&length));
    }
    qsort(fields, count, sizeof *fields, is_behind);
    for (long long k = 0; k < count; k++)
        put_value(closing, table, fields[k].id, fields[k].value);
    free(fields);
    free(command.bytes);
}

void engine_close(struct text *closing) {
    close_table(closing, "acct");
    close_table(closing, "asset");
    close(server);
}
