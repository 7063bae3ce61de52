/* Preloaded into vtree: of each file the first calls of read(2) and write(2), as many as INTERRUPT gives, fail with
   EINTR. FAIL_READ and FAIL_WRITE give the number of a call of read(2), and of write(2) to the standard output, counted
   from 1, from which on all of them fail, with EIO and ENOSPC. With ONE_BYTE each call moves one byte at most. */
#define _GNU_SOURCE
#include <dlfcn.h>
#include <errno.h>
#include <stdlib.h>
#include <unistd.h>

static long given(const char *name) {
    const char *number = getenv(name);
    return number ? atol(number) : 0;
}

static size_t moved(size_t size) {
    return size && given("ONE_BYTE") ? 1 : size;
}

ssize_t read(int file, void *buffer, size_t size) {
    static ssize_t (*next)(int, void *, size_t);
    static long interrupted, calls;
    if (!next)
        next = (ssize_t (*)(int, void *, size_t))dlsym(RTLD_NEXT, "read");
    if (interrupted++ < given("INTERRUPT")) {
        errno = EINTR;
        return -1;
    }
    long failing = given("FAIL_READ");
    if (failing && ++calls >= failing) {
        errno = EIO;
        return -1;
    }
    return next(file, buffer, moved(size));
}

ssize_t write(int file, const void *bytes, size_t size) {
    static ssize_t (*next)(int, const void *, size_t);
    static long interrupted, calls;
    if (!next)
        next = (ssize_t (*)(int, const void *, size_t))dlsym(RTLD_NEXT, "write");
    if (interrupted++ < given("INTERRUPT")) {
        errno = EINTR;
        return -1;
    }
    long failing = given("FAIL_WRITE");
    if (failing && file == STDOUT_FILENO && ++calls >= failing) {
        errno = ENOSPC;
        return -1;
    }
    return next(file, bytes, moved(size));
}
