/* Preloaded, it lets a call of the program fail: the allocation, the read of standard input or the write to standard output
   whose number, from 1, FAIL_ALLOC, FAIL_READ or FAIL_WRITE tells, with the error FAIL_ERROR. With SHORT_IO each read and write
   moves one byte at most. A call that has failed is told by a byte to the descriptor FAIL_TOLD. */
#define _GNU_SOURCE
#include <dlfcn.h>
#include <errno.h>
#include <stdlib.h>
#include <string.h>
#include <unistd.h>

/* getenv and strtol take no memory. */
static long number_of(const char *name) {
    const char *text = getenv(name);
    return text ? strtol(text, NULL, 10) : 0;
}

static int fails(long *calls, const char *name, int error) {
    *calls += 1;
    if (*calls != number_of(name))
        return 0;
    int told = (int)number_of("FAIL_TOLD");
    ssize_t (*put)(int, const void *, size_t) = dlsym(RTLD_NEXT, "write");
    if (put(told, "!", 1) != 1)
        _exit(99);
    errno = error;
    return 1;
}

static int io_error(void) {
    return (int)number_of("FAIL_ERROR");
}

static long allocations, reads, writes;

void *malloc(size_t size) {
    static void *(*take)(size_t);
    if (!take)
        take = dlsym(RTLD_NEXT, "malloc");
    return fails(&allocations, "FAIL_ALLOC", ENOMEM) ? NULL : take(size);
}

void *realloc(void *old, size_t size) {
    static void *(*take)(void *, size_t);
    if (!take)
        take = dlsym(RTLD_NEXT, "realloc");
    return fails(&allocations, "FAIL_ALLOC", ENOMEM) ? NULL : take(old, size);
}

static size_t moved(size_t size) {
    return getenv("SHORT_IO") && size > 1 ? 1 : size;
}

ssize_t read(int file, void *room, size_t size) {
    static ssize_t (*get)(int, void *, size_t);
    if (!get)
        get = dlsym(RTLD_NEXT, "read");
    if (file != 0)
        return get(file, room, size);
    return fails(&reads, "FAIL_READ", io_error()) ? -1 : get(file, room, moved(size));
}

static ssize_t put_to(const char *name, int file, const void *bytes, size_t size) {
    ssize_t (*put)(int, const void *, size_t) = dlsym(RTLD_NEXT, name);
    if (file != 1)
        return put(file, bytes, size);
    return fails(&writes, "FAIL_WRITE", io_error()) ? -1 : put(file, bytes, moved(size));
}

ssize_t write(int file, const void *bytes, size_t size) {
    return put_to("write", file, bytes, size);
}

/* The name by which some libraries call it. */
ssize_t __write(int file, const void *bytes, size_t size) {
    return put_to("__write", file, bytes, size);
}
