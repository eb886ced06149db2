/* Continues a register for a day: runs files, one after the other, against the registry of REGISTER.
 *
 *     day [--begin] REGISTER SOCIETY NAME YYYYMMDD HHMMSS FILE..
 *
 * With --begin it runs them against an empty one, and REGISTER may not exist. Otherwise it must exist, so that no wrong
 * name begins a second history. It prints how the work on each FILE ended, as `purvilgo run` does, and writes REGISTER
 * again and FILE.ack of each that was acknowledged. The register takes its name first, so that nobody finds an answer
 * that it does not have. If it cannot be kept, no answer is left. If an answer then cannot take its name, it stays in
 * FILE.ack.new. Unlike `purvilgo run` it does not wait for the disk: a crash of the system may undo what was written.
 *
 * REGISTER.lock is locked from before REGISTER is read until all is in place. So of two programs at one register, this
 * one or `purvilgo run`, the second prints that it is in use, and reads and writes nothing. If REGISTER is a link, the
 * file that it leads to is locked and replaced.
 *
 * What cannot be read or kept is reported on standard error. The status is 0 if all files were acknowledged and all was
 * written; 2 if the words are no stamp, or name one file twice; else 1. */
#include "files.h"
#include "names.h"
#include "purvilgo.h"
#include "stamps.h"
#include <unistd.h>

/* A call that gives a text of a registry. */
typedef uint32_t text_call(struct purvilgo_registry *, uint8_t *, size_t, size_t *);

/* The text of a call, which is given a buffer of `size` bytes and, if that is too small, one that suffices. `at` is null
 * if an allocation fails. */
static struct bytes text_of(struct purvilgo_registry *registry, text_call *call, size_t size) {
    struct bytes text = {malloc(size + 1), 0};
    uint32_t status = text.at ? call(registry, text.at, size, &text.length) : PURVILGO_NO_MEMORY;
    if (status == PURVILGO_NO_ROOM) {
        free(text.at);
        size = text.length;
        text.at = malloc(size);
        status = text.at ? call(registry, text.at, size, &text.length) : PURVILGO_NO_MEMORY;
    }
    if (status != PURVILGO_DONE) {
        free(text.at);
        text.at = NULL;
    }
    return text;
}

/* Writes a text as a draft, PATH with `ending` and ".new", and frees it. 0 if all of it is written. */
static int draft(const char *path, const char *ending, struct bytes text) {
    char name[4096];
    int written = -1;
    snprintf(name, sizeof name, "%s%s.new", path, ending);
    if (text.at)
        written = write_file(name, text.at, text.length);
    free(text.at);
    return written;
}

/* Gives a draft its name. */
static int take_name(const char *path, const char *ending) {
    char before[4096], after[4096];
    snprintf(before, sizeof before, "%s%s.new", path, ending);
    snprintf(after, sizeof after, "%s%s", path, ending);
    return rename(before, after);
}

/* Removes a draft. */
static void drop(const char *path, const char *ending) {
    char name[4096];
    snprintf(name, sizeof name, "%s%s.new", path, ending);
    unlink(name);
}

/* Prints on standard error what is wrong with a file. Returns -1, for a caller that returns it. */
static int tell_wrong(const char *path, const char *what) {
    fprintf(stderr, "%s%s\n", path, what);
    return -1;
}

/* Opens the registry of a register, or an empty one to `begin` it. */
static int open_registry(struct purvilgo_registry *registry, const char *path, int begin) {
    struct purvilgo_register_fault fault;
    struct bytes text;
    uint32_t status;
    if (begin) {
        if (access(path, F_OK) == 0)
            return tell_wrong(path, ": is there already");
        status = purvilgo_registry_open(registry);
        if (status != PURVILGO_DONE)
            tell_status(path, status);
        return status == PURVILGO_DONE ? 0 : -1;
    }
    text = read_file(path);
    if (!text.at)
        return tell_wrong(path, ": cannot be read; --begin begins a register");
    status = purvilgo_registry_read(registry, text.at, text.length, &fault);
    if (status == PURVILGO_FAULTY)
        fprintf(stderr, "%s: refused G%u at line %llu\n", path, fault.number, (unsigned long long)fault.line);
    else if (status != PURVILGO_DONE)
        tell_status(path, status);
    free(text.at);
    return status == PURVILGO_DONE ? 0 : -1;
}

/* Runs one file, and leaves its acknowledgement as a draft. 0 if it was acknowledged. */
static int run(struct purvilgo_registry *registry, const char *path, const struct purvilgo_stamp *stamp) {
    struct purvilgo_outcome outcome;
    struct bytes file = read_file(path);
    uint32_t status;
    if (!file.at)
        return tell_wrong(path, ": cannot be read");
    status = purvilgo_registry_run(registry, file.at, file.length, stamp, &outcome);
    free(file.at);
    if (status != PURVILGO_DONE) {
        tell_status(path, status);
        return -1;
    }
    tell(path, &outcome);
    if (outcome.kind != PURVILGO_ACKNOWLEDGED)
        return -1;
    if (draft(path, ".ack", text_of(registry, purvilgo_registry_acknowledgement, 4096)) != 0)
        return tell_wrong(path, ".ack: not in place");
    return 0;
}

/* Keeps the register of a registry. 0 if it has its name. */
static int keep(struct purvilgo_registry *registry, const char *kept) {
    uint64_t entries = 0;
    purvilgo_registry_entries(registry, &entries);
    if (draft(kept, "", text_of(registry, purvilgo_registry_register, 12 + 192 * entries)) == 0 && take_name(kept, "") == 0)
        return 0;
    drop(kept, "");
    return tell_wrong(kept, ": not kept");
}

/* Runs all files, and keeps the register and then the acknowledgements. */
static int day(struct purvilgo_registry *registry, const char *kept, const struct purvilgo_stamp *stamp, char **files,
               int count) {
    int worst = 0;
    for (int i = 0; i < count; i++) {
        if (run(registry, files[i], stamp) != 0) {
            files[i] = NULL;
            worst = 1;
        }
    }
    if (keep(registry, kept) != 0) {
        for (int i = 0; i < count; i++)
            if (files[i])
                drop(files[i], ".ack");
        return 1;
    }
    for (int i = 0; i < count; i++) {
        if (files[i] && take_name(files[i], ".ack") != 0) {
            tell_wrong(files[i], ".ack: not in place");
            worst = 1;
        }
    }
    return worst;
}

/* Locks the register, opens its registry, and continues it. */
static int locked_day(const char *kept, int begin, const struct purvilgo_stamp *stamp, char **files, int count) {
    struct purvilgo_registry registry = PURVILGO_REGISTRY_SHUT;
    int told = 1, lock = lock_register(kept);
    if (lock < 0) {
        tell_wrong(kept, errno == EWOULDBLOCK ? ": in use" : ": cannot be locked");
        return 1;
    }
    if (open_registry(&registry, kept, begin) == 0)
        told = day(&registry, kept, stamp, files, count);
    purvilgo_registry_close(&registry);
    close(lock);
    return told;
}

int main(int argc, char **argv) {
    struct purvilgo_stamp stamp;
    struct stat found;
    char *led_to = NULL;
    int told, twice, begin = argc > 1 && strcmp(argv[1], "--begin") == 0;
    argv += begin;
    argc -= begin;
    if (argc < 7 || set_stamp(&stamp, argv + 2) != 0) {
        fprintf(stderr, "day [--begin] REGISTER SOCIETY NAME YYYYMMDD HHMMSS FILE..\n");
        return 2;
    }
    if (!is_stamp(&stamp)) {
        tell_status("day", PURVILGO_BAD_STAMP);
        return 2;
    }
    if (lstat(argv[1], &found) == 0 && S_ISLNK(found.st_mode))
        led_to = realpath(argv[1], NULL);
    if (led_to)
        argv[1] = led_to;
    twice = is_used_twice(argv[1], argv + 6, argc - 6);
    if (twice < 0)
        tell_status("day", PURVILGO_NO_MEMORY);
    else if (twice)
        fprintf(stderr, "file used twice\n");
    told = twice < 0 ? 1 : twice ? 2 : locked_day(argv[1], begin, &stamp, argv + 6, argc - 6);
    free(led_to);
    return told;
}
