// Refuses memory to a program from outside, for tests/growths. Preloaded, it counts the program's calls of malloc and realloc,
// the two by which it takes memory, over all threads and from 1. Call number REFUSE_AT is refused, or each from number
// REFUSE_FROM on. In the file REFUSE_TOLD are two numbers of 8 bytes, at the end and after a crash too: how many calls there
// were, and how many of them were refused; so it is known whether a run met its refusal.
//     cc -O1 -shared -fPIC -o refuse.so refuse.c -ldl
#define _GNU_SOURCE
#include <dlfcn.h>
#include <errno.h>
#include <fcntl.h>
#include <stdatomic.h>
#include <stdlib.h>
#include <sys/mman.h>
#include <unistd.h>

struct told {
    atomic_long calls, refused;
};

static struct told unasked, *told = &unasked;
static long at, from;
static void *(*next_malloc)(size_t);
static void *(*next_realloc)(void *, size_t);

static long number(const char *name)
{
    const char *text = getenv(name);
    return text ? atol(text) : 0;
}

static void find_next(void)
{
    next_malloc = dlsym(RTLD_NEXT, "malloc");
    next_realloc = dlsym(RTLD_NEXT, "realloc");
}

// What the loader and the C library take before this runs isn't counted: their calls aren't the program's.
__attribute__((constructor)) static void begin(void)
{
    const char *name = getenv("REFUSE_TOLD");
    int file = name ? open(name, O_RDWR | O_CREAT | O_TRUNC, 0644) : -1;
    void *shared = MAP_FAILED;

    find_next();
    if (file >= 0 && posix_fallocate(file, 0, sizeof *told) == 0)
        shared = mmap(0, sizeof *told, PROT_READ | PROT_WRITE, MAP_SHARED, file, 0);
    if (file >= 0)
        close(file);
    if (shared == MAP_FAILED)
        _exit(125);
    told = shared;
    at = number("REFUSE_AT");
    from = number("REFUSE_FROM");
}

static int refuses(void)
{
    long call = atomic_fetch_add(&told->calls, 1) + 1;

    if (call != at && (from == 0 || call < from))
        return 0;
    atomic_fetch_add(&told->refused, 1);
    errno = ENOMEM;
    return 1;
}

void *malloc(size_t size)
{
    if (!next_malloc)
        find_next();
    return refuses() ? 0 : next_malloc(size);
}

void *realloc(void *old, size_t size)
{
    if (!next_realloc)
        find_next();
    return refuses() ? 0 : next_realloc(old, size);
}
