/* Refuses one request for memory: that of the number in the environment variable REFUSE, counted from 1.
   It is put before a program by LD_PRELOAD; refuse_memory.sh builds it and tries one number after another. */
#define _GNU_SOURCE
#include <dlfcn.h>
#include <stdlib.h>

static long asked;

static int is_refused(void)
{
    static long refused = -1;
    if (refused < 0) {
        const char *word = getenv("REFUSE");
        refused = word ? atol(word) : 0;
    }
    return ++asked == refused;
}

void *malloc(size_t size)
{
    static void *(*real)(size_t);
    if (!real)
        real = (void *(*)(size_t))dlsym(RTLD_NEXT, "malloc");
    return is_refused() ? NULL : real(size);
}

void *realloc(void *old, size_t size)
{
    static void *(*real)(void *, size_t);
    if (!real)
        real = (void *(*)(void *, size_t))dlsym(RTLD_NEXT, "realloc");
    return is_refused() ? NULL : real(old, size);
}
