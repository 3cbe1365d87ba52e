/* malloc and realloc of which one request fails, for `atspi_failing` (bench/failing.sh, by LD_PRELOAD). The program chooses it by the size of a request: behind one
 * of 16,000,000 + k bytes the k-th fails, none where k is 0; one of 15,999,999 bytes fails itself where one failed since the last of those, and behind it none does. */
#define _GNU_SOURCE
#include <dlfcn.h>
#include <stddef.h>
#include <stdint.h>

enum { FAILED = 15999999, NEXT = 16000000, MOST = 100000 };

static void *(*met)(size_t);
static void *(*moved)(void *, size_t);
static size_t left;
static int failed;

/* Whether a request of a size is to be refused. */
static int refused(size_t size)
{
    if (size == FAILED) {
        int was = failed;
        failed = 0;
        left = 0;
        return was;
    }
    if (NEXT <= size && size <= NEXT + MOST) {
        failed = 0;
        left = size - NEXT;
        return 0;
    }
    if (left == 0)
        return 0;
    left--;
    if (left == 0)
        failed = 1;
    return left == 0;
}

void *malloc(size_t size)
{
    if (!met)
        met = (void *(*)(size_t))(uintptr_t)dlsym(RTLD_NEXT, "malloc");
    return refused(size) ? NULL : met(size);
}

void *realloc(void *block, size_t size)
{
    if (!moved)
        moved = (void *(*)(void *, size_t))(uintptr_t)dlsym(RTLD_NEXT, "realloc");
    return refused(size) ? NULL : moved(block, size);
}
