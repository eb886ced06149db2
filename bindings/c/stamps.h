/* Stamps from words, and outcomes and statuses as lines, for the examples. */
#ifndef STAMPS_H
#define STAMPS_H

#include "purvilgo.h"
#include <stdio.h>
#include <stdlib.h>
#include <string.h>

/* Fills a stamp from a society's number and name, a date and a time. 0 if the number is one of at most 999, and each
 * other part has its width. */
static inline int set_stamp(struct purvilgo_stamp *stamp, char **words) {
    size_t digits = strspn(words[0], "0123456789");
    unsigned long society = strtoul(words[0], NULL, 10);
    if (digits == 0 || words[0][digits] != 0 || society > 999)
        return -1;
    if (strlen(words[1]) > sizeof stamp->name || strlen(words[2]) != 8 || strlen(words[3]) != 6)
        return -1;
    stamp->society = (uint16_t)society;
    memset(stamp->name, ' ', sizeof stamp->name);
    memcpy(stamp->name, words[1], strlen(words[1]));
    memcpy(stamp->date, words[2], 8);
    memcpy(stamp->time, words[3], 6);
    return 0;
}

/* Whether the library takes a stamp: it checks that before it looks at the file, which has no bytes here. */
static inline bool is_stamp(const struct purvilgo_stamp *stamp) {
    struct purvilgo_outcome outcome;
    uint8_t none[1] = {0};
    uint8_t out[1];
    size_t length;
    return purvilgo_acknowledge(none, 0, stamp, out, 0, &length, &outcome) != PURVILGO_BAD_STAMP;
}

/* Prints the line of an outcome. */
static inline void tell(const char *path, const struct purvilgo_outcome *outcome) {
    uint8_t line[8192];
    size_t length;
    if (purvilgo_outcome_line((const uint8_t *)path, strlen(path), outcome, line, sizeof line, &length) == PURVILGO_DONE)
        fwrite(line, 1, length, stdout);
}

/* Prints what a status means on standard error, behind a name. */
static inline void tell_status(const char *name, uint32_t status) {
    uint8_t text[64];
    size_t length = 0;
    purvilgo_status_text(status, text, sizeof text, &length);
    fprintf(stderr, "%s: %.*s\n", name, (int)length, (const char *)text);
}

#endif
