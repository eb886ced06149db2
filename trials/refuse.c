/* Preloaded into a program: counts its requests for memory, and refuses one of them.

   REFUSE_NTH is the number of the request that is refused, from 1; with 0 none is. REFUSE_COUNT names a file of eight
   bytes, in which the number of requests so far stands, whatever ends the program. */
#define _GNU_SOURCE
#include <errno.h>
#include <fcntl.h>
#include <stdatomic.h>
#include <stddef.h>
#include <stdint.h>
#include <stdlib.h>
#include <sys/mman.h>
#include <unistd.h>

extern void *__libc_malloc(size_t size);
extern void *__libc_calloc(size_t number, size_t size);
extern void *__libc_realloc(void *old, size_t size);
extern void *__libc_memalign(size_t alignment, size_t size);

static _Atomic uint64_t *requests;
static uint64_t refused;

/* Requests of the loader, before this, are not counted. */
__attribute__((constructor)) static void begin(void)
{
    const char *nth = getenv("REFUSE_NTH"), *path = getenv("REFUSE_COUNT");
    int file = path ? open(path, O_RDWR) : -1;
    void *place = file < 0 ? MAP_FAILED : mmap(NULL, 8, PROT_READ | PROT_WRITE, MAP_SHARED, file, 0);

    if (!nth || place == MAP_FAILED)
        _exit(99);
    close(file);
    refused = strtoull(nth, NULL, 10);
    requests = place;
}

static int is_refused(void)
{
    if (requests && atomic_fetch_add(requests, 1) + 1 == refused) {
        errno = ENOMEM;
        return 1;
    }
    return 0;
}

void *malloc(size_t size)
{
    return is_refused() ? NULL : __libc_malloc(size);
}

void *calloc(size_t number, size_t size)
{
    return is_refused() ? NULL : __libc_calloc(number, size);
}

void *realloc(void *old, size_t size)
{
    return is_refused() ? NULL : __libc_realloc(old, size);
}

void *memalign(size_t alignment, size_t size)
{
    return is_refused() ? NULL : __libc_memalign(alignment, size);
}

void *aligned_alloc(size_t alignment, size_t size)
{
    return is_refused() ? NULL : __libc_memalign(alignment, size);
}

int posix_memalign(void **place, size_t alignment, size_t size)
{
    void *memory = is_refused() ? NULL : __libc_memalign(alignment, size);

    if (!memory)
        return ENOMEM;
    *place = memory;
    return 0;
}
