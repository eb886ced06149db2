/* Acknowledges files, each into an empty registry: writes FILE.ack, and prints how that ended, as `purvilgo run`
 * does.
 *
 *     acknowledge SOCIETY NAME YYYYMMDD HHMMSS FILE..
 *
 * What cannot be read or written, and an allocation that fails, is reported on standard error. The status is 0 if all
 * files were acknowledged, 2 if the words are no stamp, else 1. */
#include "files.h"
#include "purvilgo.h"
#include "stamps.h"

/* Writes an acknowledgement. 0 if all of it is written. */
static int write_answer(const char *path, const uint8_t *at, size_t length) {
    char name[4096];
    snprintf(name, sizeof name, "%s.ack", path);
    if (write_file(name, at, length) == 0)
        return 0;
    fprintf(stderr, "%s: cannot be written\n", name);
    return -1;
}

/* Acknowledges a file, and prints how that ended. 0 if it was acknowledged, and its acknowledgement is written. */
static int answer(const char *path, struct bytes file, const struct purvilgo_stamp *stamp) {
    struct purvilgo_outcome outcome;
    size_t size = 2 * file.length + 4096, length = 0;
    uint8_t *out = malloc(size);
    uint32_t status = PURVILGO_NO_MEMORY;
    int done = -1;
    if (out)
        status = purvilgo_acknowledge(file.at, file.length, stamp, out, size, &length, &outcome);
    if (status == PURVILGO_NO_ROOM) {
        free(out);
        out = malloc(length);
        status = out ? purvilgo_acknowledge(file.at, file.length, stamp, out, length, &length, &outcome)
                     : PURVILGO_NO_MEMORY;
    }
    if (status == PURVILGO_DONE)
        tell(path, &outcome);
    else
        tell_status(path, status);
    if (status == PURVILGO_DONE && outcome.kind == PURVILGO_ACKNOWLEDGED)
        done = write_answer(path, out, length);
    free(out);
    return done;
}

/* Reads and acknowledges one file. */
static int acknowledge(const char *path, const struct purvilgo_stamp *stamp) {
    struct bytes file = read_file(path);
    int done;
    if (!file.at) {
        fprintf(stderr, "%s: cannot be read\n", path);
        return -1;
    }
    done = answer(path, file, stamp);
    free(file.at);
    return done;
}

int main(int argc, char **argv) {
    struct purvilgo_stamp stamp;
    int worst = 0;
    if (argc < 6 || set_stamp(&stamp, argv + 1) != 0) {
        fprintf(stderr, "acknowledge SOCIETY NAME YYYYMMDD HHMMSS FILE..\n");
        return 2;
    }
    if (!is_stamp(&stamp)) {
        tell_status("acknowledge", PURVILGO_BAD_STAMP);
        return 2;
    }
    for (int i = 5; i < argc; i++)
        if (acknowledge(argv[i], &stamp) != 0)
            worst = 1;
    return worst;
}
