/* Preloaded into a program: counts the threads that it starts, and refuses all from one on.

   REFUSE_FROM is the number of the first thread that is refused, from 1; with 0 none is. REFUSE_COUNT names a file of
   eight bytes, in which the number of threads that were started stands, whatever ends the program. */
#define _GNU_SOURCE
#include <dlfcn.h>
#include <errno.h>
#include <fcntl.h>
#include <pthread.h>
#include <stdatomic.h>
#include <stdint.h>
#include <stdlib.h>
#include <sys/mman.h>
#include <unistd.h>

typedef int create_thread(pthread_t *, const pthread_attr_t *, void *(*)(void *), void *);

static create_thread *create;
static _Atomic uint64_t asked;
static _Atomic uint64_t *started;
static uint64_t refused;

__attribute__((constructor)) static void begin(void)
{
    const char *from = getenv("REFUSE_FROM"), *path = getenv("REFUSE_COUNT");
    int file = path ? open(path, O_RDWR) : -1;
    void *place = file < 0 ? MAP_FAILED : mmap(NULL, 8, PROT_READ | PROT_WRITE, MAP_SHARED, file, 0);

    create = (create_thread *)dlsym(RTLD_NEXT, "pthread_create");
    if (!from || !create || place == MAP_FAILED)
        _exit(99);
    close(file);
    refused = strtoull(from, NULL, 10);
    started = place;
}

int pthread_create(pthread_t *thread, const pthread_attr_t *attributes, void *(*function)(void *), void *argument)
{
    int ended;

    if (refused && atomic_fetch_add(&asked, 1) + 1 >= refused)
        return EAGAIN;
    ended = create(thread, attributes, function, argument);
    if (ended == 0)
        atomic_fetch_add(started, 1);
    return ended;
}
