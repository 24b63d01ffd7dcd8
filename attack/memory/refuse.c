/* Preloaded beside a program: refuses the allocation with the number FAIL_AT, from 1, of all its threads, and writes into the file COUNT_TO how many there were. */
#define _GNU_SOURCE
#include <dlfcn.h>
#include <errno.h>
#include <stdio.h>
#include <stdlib.h>
#include <sys/syscall.h>
#include <unistd.h>

static long count = 0;
static long refused = 0;

__attribute__((constructor)) static void prepare(void) {
    const char *number = getenv("FAIL_AT");
    refused = number ? atol(number) : 0;
    count = 0;
}

static int is_refused(void) {
    return __atomic_add_fetch(&count, 1, __ATOMIC_RELAXED) == refused;
}

void *malloc(size_t size) {
    static void *(*real)(size_t);
    if (!real) real = dlsym(RTLD_NEXT, "malloc");
    if (is_refused()) {
        errno = ENOMEM;
        return NULL;
    }
    return real(size);
}

void *realloc(void *block, size_t size) {
    static void *(*real)(void *, size_t);
    if (!real) real = dlsym(RTLD_NEXT, "realloc");
    if (is_refused()) {
        errno = ENOMEM;
        return NULL;
    }
    return real(block, size);
}

static void tell(void) {
    const char *name = getenv("COUNT_TO");
    long counted = count;
    FILE *file = name ? fopen(name, "w") : NULL;
    if (file) {
        fprintf(file, "%ld\n", counted);
        fclose(file);
    }
}

/* The program ends by this call, which runs no destructor. */
void _exit(int status) {
    tell();
    for (;;) syscall(SYS_exit_group, status);
}

__attribute__((destructor)) static void end(void) {
    tell();
}
