/* Audits a register: prints what `purvilgo audit` prints of it.
 *
 *     audit REGISTER
 *
 * The status is 0 if it is the register of one registry, else 1. */
#include "files.h"
#include "purvilgo.h"
#include <inttypes.h>

/* Prints what an audit finds. 0 if it finds no fault. */
static int audit(struct bytes text) {
    struct purvilgo_register_fault fault;
    uint64_t entries;
    switch (purvilgo_audit(text.at, text.length, &entries, &fault)) {
    case PURVILGO_DONE:
        printf("%" PRIu64 " entries\n", entries);
        return 0;
    case PURVILGO_FAULTY:
        printf("refused G%" PRIu32 " at line %" PRIu64 "\n", fault.number, fault.line);
        return 1;
    default:
        fprintf(stderr, "audit: no memory\n");
        return 1;
    }
}

int main(int argc, char **argv) {
    struct bytes text = argc == 2 ? read_file(argv[1]) : (struct bytes){NULL, 0};
    int told;
    if (!text.at) {
        fprintf(stderr, "audit: no register\n");
        return 1;
    }
    told = audit(text);
    free(text.at);
    return told;
}
