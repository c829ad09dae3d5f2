/* Refuses one request that a program makes of its system, for `bench/refuse`, which loads this in front of the C library.
 *
 * REFUSE names the kind of request and REFUSE_NUMBER which of them, counted from 1: `memory` answers no memory, `read` and
 * `write` fail, `short_read` and `short_write` move one byte. Reads are those of standard input, writes those of standard
 * output. Where the request was met, a byte is written to the descriptor REFUSE_TOLD.
 */
#define _GNU_SOURCE
#include <dlfcn.h>
#include <errno.h>
#include <stdatomic.h>
#include <stdlib.h>
#include <string.h>
#include <sys/syscall.h>
#include <unistd.h>

extern void *__libc_malloc(size_t size);
extern void *__libc_calloc(size_t count, size_t size);
extern void *__libc_realloc(void *old, size_t size);
extern void *__libc_memalign(size_t alignment, size_t size);

static const char *kind = "";
static long number;
static int told;
static atomic_long met;

__attribute__((constructor)) static void begin(void) {
    const char *value = getenv("REFUSE_NUMBER");
    number = value ? atol(value) : 0;
    value = getenv("REFUSE_TOLD");
    told = value ? atoi(value) : 0;
    value = getenv("REFUSE");
    kind = value ? value : "";
}

/* Whether this request is the one to refuse. */
static int refuses(const char *asked) {
    if (number == 0 || strcmp(kind, asked) != 0 || atomic_fetch_add(&met, 1) + 1 != number)
        return 0;
    syscall(SYS_write, told, "!", 1);
    return 1;
}

static int refuses_memory(void) {
    if (!refuses("memory"))
        return 0;
    errno = ENOMEM;
    return 1;
}

void *malloc(size_t size) {
    return refuses_memory() ? NULL : __libc_malloc(size);
}

void *calloc(size_t count, size_t size) {
    return refuses_memory() ? NULL : __libc_calloc(count, size);
}

void *realloc(void *old, size_t size) {
    return refuses_memory() ? NULL : __libc_realloc(old, size);
}

void *aligned_alloc(size_t alignment, size_t size) {
    return refuses_memory() ? NULL : __libc_memalign(alignment, size);
}

int posix_memalign(void **place, size_t alignment, size_t size) {
    if (refuses_memory())
        return ENOMEM;
    *place = __libc_memalign(alignment, size);
    return *place ? 0 : ENOMEM;
}

/* A stream of the program, and the kinds of refusal that it has. */
struct stream {
    int file;
    long call;
    const char *fails;
    const char *moves_one;
};

static const struct stream input = {STDIN_FILENO, SYS_read, "read", "short_read"};
static const struct stream output = {STDOUT_FILENO, SYS_write, "write", "short_write"};

static ssize_t move(const struct stream *stream, int file, const void *bytes, size_t size) {
    if (file == stream->file && refuses(stream->fails)) {
        errno = EIO;
        return -1;
    }
    if (file == stream->file && size > 1 && refuses(stream->moves_one))
        size = 1;
    return syscall(stream->call, file, bytes, size);
}

ssize_t read(int file, void *bytes, size_t size) {
    return move(&input, file, bytes, size);
}

ssize_t write(int file, const void *bytes, size_t size) {
    return move(&output, file, bytes, size);
}

ssize_t __read(int file, void *bytes, size_t size) {
    return read(file, bytes, size);
}

ssize_t __write(int file, const void *bytes, size_t size) {
    return write(file, bytes, size);
}
