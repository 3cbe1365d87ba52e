/* malloc and realloc of which the request with the number in FAILING fails, the first being 1 (bench/failing-rows.py, by LD_PRELOAD). At the end descriptor 3 is told how many there were. */
#define _GNU_SOURCE
#include <dlfcn.h>
#include <stddef.h>
#include <stdint.h>
#include <stdio.h>
#include <stdlib.h>

static void *(*met)(size_t);
static void *(*moved)(void *, size_t);
static unsigned long failing, asked;

__attribute__((constructor)) static void begin(void)
{
    const char *number = getenv("FAILING");
    failing = number ? strtoul(number, NULL, 10) : 0;
    met = (void *(*)(size_t))(uintptr_t)dlsym(RTLD_NEXT, "malloc");
    moved = (void *(*)(void *, size_t))(uintptr_t)dlsym(RTLD_NEXT, "realloc");
    asked = 0;
}

__attribute__((destructor)) static void end(void)
{
    dprintf(3, "%lu\n", asked);
}

void *malloc(size_t size)
{
    if (!met)
        met = (void *(*)(size_t))(uintptr_t)dlsym(RTLD_NEXT, "malloc");
    return ++asked == failing ? NULL : met(size);
}

void *realloc(void *block, size_t size)
{
    if (!moved)
        moved = (void *(*)(void *, size_t))(uintptr_t)dlsym(RTLD_NEXT, "realloc");
    return ++asked == failing ? NULL : moved(block, size);
}
