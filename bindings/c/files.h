/* Complete files in memory, for the examples. */
#ifndef FILES_H
#define FILES_H

#include <stdint.h>
#include <stdio.h>
#include <stdlib.h>

struct bytes {
    uint8_t *at;
    size_t length;
};

/* The bytes of a file; `at` is null if it cannot be read or an allocation fails. */
static inline struct bytes read_file(const char *path) {
    struct bytes none = {NULL, 0}, read = {NULL, 0};
    FILE *file = fopen(path, "rb");
    if (!file)
        return none;
    for (;;) {
        uint8_t *more = realloc(read.at, read.length + 65536);
        if (!more)
            break;
        read.at = more;
        size_t n = fread(read.at + read.length, 1, 65536, file);
        read.length += n;
        if (n == 0 && !ferror(file)) {
            fclose(file);
            return read;
        }
        if (n == 0)
            break;
    }
    fclose(file);
    free(read.at);
    return none;
}

/* Writes bytes to a file. 0 if all of them are written. */
static inline int write_file(const char *path, const uint8_t *at, size_t length) {
    FILE *file = fopen(path, "wb");
    if (!file)
        return -1;
    size_t n = fwrite(at, 1, length, file);
    return fclose(file) == 0 && n == length ? 0 : -1;
}

#endif
