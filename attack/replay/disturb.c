/* Preloaded beside a program: each of its threads sleeps or gives up its processor now and then where it allocates, frees or copies memory, so that the threads
   meet each other at other places. DISTURB is a number to draw from and how many such calls there are to a disturbance on average, with a blank between. */
#define _GNU_SOURCE
#include <dlfcn.h>
#include <stddef.h>
#include <stdlib.h>
#include <sys/syscall.h>
#include <time.h>
#include <unistd.h>

#define LONGEST_SLEEP 100000

static unsigned long long first = 0;
static unsigned long every = 0;
static unsigned long threads = 0;
static __thread unsigned long long drawn = 0;

static void *(*real_malloc)(size_t);
static void *(*real_realloc)(void *, size_t);
static void (*real_free)(void *);

__attribute__((constructor)) static void prepare(void) {
    const char *told = getenv("DISTURB");
    char *rest = NULL;
    real_malloc = dlsym(RTLD_NEXT, "malloc");
    real_realloc = dlsym(RTLD_NEXT, "realloc");
    real_free = dlsym(RTLD_NEXT, "free");
    if (told) {
        first = strtoull(told, &rest, 10);
        every = strtoul(rest, NULL, 10);
    }
}

static unsigned long long draw(void) {
    if (!drawn) drawn = ((first + 1) * 0x9E3779B97F4A7C15ull + __atomic_add_fetch(&threads, 1, __ATOMIC_RELAXED) * 0xBF58476D1CE4E5B9ull) | 1;
    drawn ^= drawn << 13;
    drawn ^= drawn >> 7;
    drawn ^= drawn << 17;
    return drawn;
}

static void disturb(void) {
    unsigned long long here;
    struct timespec nap = {0, 0};
    if (!every) return;
    here = draw();
    if (here % every) return;
    here /= every;
    if (here % 2) {
        syscall(SYS_sched_yield);
    } else {
        nap.tv_nsec = here / 2 % LONGEST_SLEEP;
        syscall(SYS_nanosleep, &nap, NULL);
    }
}

void *malloc(size_t size) {
    disturb();
    if (!real_malloc) real_malloc = dlsym(RTLD_NEXT, "malloc");
    return real_malloc(size);
}

void *realloc(void *block, size_t size) {
    disturb();
    if (!real_realloc) real_realloc = dlsym(RTLD_NEXT, "realloc");
    return real_realloc(block, size);
}

void free(void *block) {
    disturb();
    if (!real_free) real_free = dlsym(RTLD_NEXT, "free");
    real_free(block);
}

/* The volatile stores keep the compiler from calling the function itself. */
void *memcpy(void *to, const void *from, size_t count) {
    volatile char *target = to;
    const char *source = from;
    disturb();
    for (size_t i = 0; i < count; i++) target[i] = source[i];
    return to;
}
