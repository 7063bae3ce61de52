/* Preloaded into vtree: refuses the request for memory whose number REFUSE_MEMORY gives, counted from 1.
   REFUSE_MEMORY_LOG names a file that is made when that request came, REFUSE_MEMORY_COUNT one in which the number of
   all requests stands at the end. */
#define _GNU_SOURCE
#include <dlfcn.h>
#include <fcntl.h>
#include <stddef.h>
#include <stdio.h>
#include <stdlib.h>
#include <unistd.h>

static long requests;
static long refused = -1;

static int is_refused(void) {
    if (refused < 0) {
        const char *number = getenv("REFUSE_MEMORY");
        refused = number ? atol(number) : 0;
    }
    if (++requests != refused)
        return 0;
    const char *log = getenv("REFUSE_MEMORY_LOG");
    if (log)
        close(open(log, O_CREAT | O_WRONLY, 0600));
    return 1;
}

void *malloc(size_t size) {
    static void *(*next)(size_t);
    if (!next)
        next = (void *(*)(size_t))dlsym(RTLD_NEXT, "malloc");
    return is_refused() ? NULL : next(size);
}

void *realloc(void *old, size_t size) {
    static void *(*next)(void *, size_t);
    if (!next)
        next = (void *(*)(void *, size_t))dlsym(RTLD_NEXT, "realloc");
    return is_refused() ? NULL : next(old, size);
}

__attribute__((destructor)) static void write_count(void) {
    const char *name = getenv("REFUSE_MEMORY_COUNT");
    long counted = requests;
    FILE *file = name ? fopen(name, "w") : NULL;
    if (file) {
        fprintf(file, "%ld\n", counted);
        fclose(file);
    }
}
