/* Prints a text of the library, as the program's command of that name prints it.
 *
 *     tell check FILE, or check-long FILE, or check-json FILE
 *     tell explain [RULE]
 *     tell claims REGISTER, or works, history or summary REGISTER
 *     tell verify REGISTER FILE..      each with its acknowledgement, FILE.ack
 *     tell version
 *
 * The status is 0 if a file is clean, a register has no fault, and files are verified; 2 for words that are not taken
 * and files that cannot be read; else 1. */
#include "files.h"
#include "purvilgo.h"
#include "stamps.h"
#include <inttypes.h>
#include <stdlib.h>
#include <string.h>

/* A call that gives a text, what it reads, and what it sets beside the text. */
struct question {
    const char *call;
    struct bytes text;
    bool clean;
    struct purvilgo_register_fault fault;
};

/* Makes the call of a question, with this buffer for its text. */
static uint32_t ask(struct question *q, uint8_t *out, size_t size, size_t *length) {
    const uint8_t *at = q->text.at;
    size_t n = q->text.length;
    if (strcmp(q->call, "check") == 0)
        return purvilgo_check(at, n, out, size, length, &q->clean);
    if (strcmp(q->call, "check-long") == 0)
        return purvilgo_check_long(at, n, out, size, length, &q->clean);
    if (strcmp(q->call, "check-json") == 0)
        return purvilgo_check_json(at, n, out, size, length, &q->clean);
    q->clean = true;
    if (strcmp(q->call, "explain") == 0)
        return purvilgo_explain(at, n, out, size, length);
    if (strcmp(q->call, "claims") == 0)
        return purvilgo_claims(at, n, out, size, length, &q->fault);
    if (strcmp(q->call, "works") == 0)
        return purvilgo_works(at, n, out, size, length, &q->fault);
    if (strcmp(q->call, "history") == 0)
        return purvilgo_history(at, n, out, size, length, &q->fault);
    return purvilgo_summary(at, n, out, size, length, &q->fault);
}

/* Prints what a status means on standard error. */
static int wrong(uint32_t status) {
    tell_status("tell", status);
    return 1;
}

/* Prints the first fault of a register. */
static int faulty(const struct purvilgo_register_fault *fault) {
    printf("refused G%" PRIu32 " at line %" PRIu64 "\n", fault->number, fault->line);
    return 1;
}

/* Makes the call with a buffer that is likely to suffice, and again with one that does. */
static int answer(struct question *q) {
    size_t size = q->text.length + 4096, length = 0;
    uint8_t *out = malloc(size);
    uint32_t status = out ? ask(q, out, size, &length) : PURVILGO_NO_MEMORY;
    if (status == PURVILGO_NO_ROOM) {
        free(out);
        out = malloc(length);
        status = out ? ask(q, out, length, &length) : PURVILGO_NO_MEMORY;
    }
    if (status == PURVILGO_DONE)
        fwrite(out, 1, length, stdout);
    free(out);
    if (status == PURVILGO_FAULTY)
        return faulty(&q->fault);
    return status == PURVILGO_DONE ? !q->clean : wrong(status);
}

/* Prints which file does not fit a register, and what of it. */
static int unverified(char **names, const struct purvilgo_misfit *misfit) {
    const char *name = names[misfit->file];
    if (misfit->kind == PURVILGO_FILE_TOO_LONG)
        printf("%s: too long\n", name);
    if (misfit->kind == PURVILGO_FILE_REFUSED)
        printf("%s: refused F%" PRIu32 " at line %" PRIu64 "\n", name, misfit->fault, misfit->line);
    if (misfit->kind == PURVILGO_OTHER_TRANSACTION)
        printf("%s: group %" PRIu32 ", transaction %" PRIu32 ": not in the register as %s.ack has it\n", name,
               misfit->group, misfit->transaction, name);
    if (misfit->kind == PURVILGO_OTHER_LINE)
        printf("%s.ack: line %" PRIu64 " is another in the register\n", name, misfit->line);
    return 1;
}

/* Reads a file. If it cannot be read, that is printed on standard error. */
static struct bytes read_or_tell(const char *path) {
    struct bytes file = read_file(path);
    if (!file.at)
        fprintf(stderr, "tell: %s: cannot be read\n", path);
    return file;
}

/* Reads each file and its acknowledgement. Those that cannot be read are null. False if one is. */
static bool read_all(int count, char **names, struct purvilgo_sent *sent) {
    bool all = true;
    for (int i = 0; i < count; i++) {
        char path[4096];
        snprintf(path, sizeof path, "%s.ack", names[i]);
        struct bytes file = read_or_tell(names[i]), ack = read_or_tell(path);
        sent[i] = (struct purvilgo_sent){file.at, file.length, ack.at, ack.length};
        all = all && file.at && ack.at;
    }
    return all;
}

/* Verifies files against a register. */
static int verify(struct bytes text, int count, char **names) {
    struct purvilgo_sent *sent = calloc(count + 1, sizeof *sent);
    struct purvilgo_register_fault fault;
    struct purvilgo_misfit misfit;
    uint64_t transactions;
    int told = 2;
    if (!sent)
        return wrong(PURVILGO_NO_MEMORY);
    if (read_all(count, names, sent)) {
        uint32_t status = purvilgo_verify(text.at, text.length, sent, count, &transactions, &fault, &misfit);
        if (status == PURVILGO_DONE)
            printf("%" PRIu64 " transactions of %d files\n", transactions, count);
        told = status == PURVILGO_DONE         ? 0
               : status == PURVILGO_FAULTY     ? faulty(&fault)
               : status == PURVILGO_UNVERIFIED ? unverified(names, &misfit)
                                               : wrong(status);
    }
    for (int i = 0; i < count; i++) {
        free((void *)sent[i].file);
        free((void *)sent[i].acknowledgement);
    }
    free(sent);
    return told;
}

/* Prints the version, as the program does. */
static int version(void) {
    uint8_t text[64];
    size_t length = 0;
    uint32_t status = purvilgo_version(text, sizeof text, &length);
    printf("purvilgo %.*s\n", (int)length, (const char *)text);
    return status == PURVILGO_DONE ? 0 : wrong(status);
}

int main(int argc, char **argv) {
    static const char *calls[] = {"check", "check-long", "check-json", "explain", "claims", "works", "history", "summary", "verify"};
    struct question q = {argc > 1 ? argv[1] : "", {NULL, 0}, false, {0, 0}};
    bool known = false;
    int told;
    if (argc == 2 && strcmp(q.call, "version") == 0)
        return version();
    for (size_t i = 0; i < sizeof calls / sizeof *calls; i++)
        known = known || strcmp(q.call, calls[i]) == 0;
    if (known && strcmp(q.call, "explain") == 0 && argc <= 3) {
        q.text.at = (uint8_t *)(argc == 3 ? argv[2] : "");
        q.text.length = strlen((char *)q.text.at);
        return answer(&q);
    }
    bool verifies = strcmp(q.call, "verify") == 0;
    if (!known || (verifies ? argc < 4 : argc != 3)) {
        fprintf(stderr, "tell: words that are not taken\n");
        return 2;
    }
    q.text = read_or_tell(argv[2]);
    if (!q.text.at)
        return 2;
    told = verifies ? verify(q.text, argc - 3, argv + 3) : answer(&q);
    free(q.text.at);
    return told;
}
