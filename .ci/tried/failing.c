// Loaded before the C library (LD_PRELOAD), it counts the calls that a program makes for memory and of its three
// devices, and lets some of them fail. The environment says which:
//
//   COUNTS   a file of 40 bytes for five counts of 8 bytes: calls for memory, the bytes that they ask for, calls of
//            read on standard input, of write to standard output, and of write to standard error
//   FAILS    the number of a count in this order, from 0: calls that it counts fail
//   FIRST    the number of the first one that fails, from 1
//   LAST     the number of the last one that fails
//   ERROR    the error that they report
//   PIECE    the most bytes that one call of a device moves
#define _GNU_SOURCE
#include <dlfcn.h>
#include <errno.h>
#include <fcntl.h>
#include <stdatomic.h>
#include <stdlib.h>
#include <sys/mman.h>
#include <unistd.h>

enum { MEMORY, BYTES, INPUT, OUTPUT, ERRORS, ALL };

static atomic_ulong *counts;
static unsigned long fails, first, last, error, piece;
static void *(*real_malloc)(size_t);
static void *(*real_realloc)(void *, size_t);
static ssize_t (*real_read)(int, void *, size_t);
static ssize_t (*real_write)(int, const void *, size_t);

static unsigned long setting(const char *name) {
    return strtoul(getenv(name), NULL, 10);
}

__attribute__((constructor)) static void start(void) {
    real_malloc = dlsym(RTLD_NEXT, "malloc");
    real_realloc = dlsym(RTLD_NEXT, "realloc");
    real_read = dlsym(RTLD_NEXT, "read");
    real_write = dlsym(RTLD_NEXT, "write");
    fails = setting("FAILS");
    first = setting("FIRST");
    last = setting("LAST");
    error = setting("ERROR");
    piece = setting("PIECE");
    int file = open(getenv("COUNTS"), O_RDWR);
    counts = mmap(NULL, ALL * sizeof *counts, PROT_READ | PROT_WRITE, MAP_SHARED, file, 0);
    close(file);
}

// Counts a call, and returns whether it fails.
static int is_failing(unsigned long kind) {
    unsigned long number = atomic_fetch_add(&counts[kind], 1) + 1;
    if (kind != fails || number < first || number > last) return 0;
    errno = error;
    return 1;
}

static int is_refused(size_t size) {
    atomic_fetch_add(&counts[BYTES], size);
    return is_failing(MEMORY);
}

static size_t at_most_a_piece(size_t size) {
    return size < piece ? size : piece;
}

void *malloc(size_t size) {
    return is_refused(size) ? NULL : real_malloc(size);
}

void *realloc(void *old, size_t size) {
    return is_refused(size) ? NULL : real_realloc(old, size);
}

ssize_t read(int device, void *into, size_t size) {
    if (device != STDIN_FILENO) return real_read(device, into, size);
    return is_failing(INPUT) ? -1 : real_read(device, into, at_most_a_piece(size));
}

ssize_t write(int device, const void *bytes, size_t size) {
    if (device != STDOUT_FILENO && device != STDERR_FILENO) return real_write(device, bytes, size);
    int fails_now = is_failing(device == STDOUT_FILENO ? OUTPUT : ERRORS);
    return fails_now ? -1 : real_write(device, bytes, at_most_a_piece(size));
}
