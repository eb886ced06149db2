/* Which names lead to one file, and the lock of a register, for day.c. */
#ifndef NAMES_H
#define NAMES_H

#include <errno.h>
#include <fcntl.h>
#include <stdbool.h>
#include <stdio.h>
#include <stdlib.h>
#include <string.h>
#include <sys/file.h>
#include <sys/stat.h>
#include <unistd.h>

/* Where a name leads: to a file, or, if there is none, to the folder in which it would be made, under this name. */
struct place {
    dev_t device;
    ino_t number;
    const char *name;
    char *path;
};

/* Finds where PATH with an ending leads. If the folder does not exist either, the complete path counts. False if an
 * allocation fails. */
static inline bool find_place(struct place *place, const char *path, const char *ending) {
    struct stat found = {0};
    char *at = malloc(strlen(path) + strlen(ending) + 1);
    if (!at)
        return false;
    sprintf(at, "%s%s", path, ending);
    *place = (struct place){0, 0, "", at};
    if (stat(at, &found) != 0) {
        char *slash = strrchr(at, '/'), *name = slash ? slash + 1 : at, first = *name;
        *name = 0;
        place->name = stat(slash ? at : ".", &found) == 0 ? name : at;
        *name = first;
    }
    place->device = found.st_dev;
    place->number = found.st_ino;
    return true;
}

static inline bool is_one_place(const struct place *a, const struct place *b) {
    return a->device == b->device && a->number == b->number && strcmp(a->name, b->name) == 0;
}

/* Whether what is read would be written over, or one file written twice: each FILE.ack, REGISTER, their drafts, the lock
 * and each FILE are different ones, except that a draft may be one with what it is to replace, and two FILE may be one by
 * a link. -1 if an allocation fails. */
static inline int is_used_twice(const char *kept, char **files, int count) {
    static const char *of_file[] = {"", ".ack", ".ack.new"}, *of_register[] = {".lock", "", ".new"};
    int all = 3 * (count + 1), found = 0, twice = 0;
    struct place *places = calloc(all, sizeof *places);
    while (places && found < all) {
        const char *ending = (found < 3 ? of_register : of_file)[found % 3];
        if (!find_place(&places[found], found < 3 ? kept : files[found / 3 - 1], ending))
            break;
        for (int i = 0; i < found; i++)
            if (is_one_place(&places[i], &places[found]) && !(found % 3 == 2 && i == found - 1) && !(found % 3 == 0 && i % 3 == 0 && i > 0))
                twice = 1;
        found++;
    }
    for (int i = 0; i < found; i++)
        free(places[i].path);
    free(places);
    return found < all ? -1 : twice;
}

/* Locks a register as `purvilgo run` does, by REGISTER.lock, an empty file that stays. It does not wait. The lock is held
 * until the returned descriptor is closed, or the process ends. -1 if it cannot be had, with EWOULDBLOCK in errno if
 * another process has it. */
static inline int lock_register(const char *path) {
    char name[4096];
    snprintf(name, sizeof name, "%s.lock", path);
    int lock = open(name, O_WRONLY | O_CREAT | O_CLOEXEC, 0666);
    if (lock >= 0 && flock(lock, LOCK_EX | LOCK_NB) != 0) {
        int why = errno;
        close(lock);
        errno = why;
        return -1;
    }
    return lock;
}

#endif
