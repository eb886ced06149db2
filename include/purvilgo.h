/* The registry of musical works, for C and for all that calls C: checks, acknowledgements, audits, tables, and a
 * registry that goes on from file to file.
 *
 * Bytes go in and bytes come out. No call opens a file, starts a thread, prints or waits, and none ends the process.
 *
 * What every call requires of its caller:
 *   - No pointer is null, not even one whose length is 0, and each points at the number of bytes that its length says.
 *   - What a call writes (registry, out, length, clean, outcome, entries, transactions, fault, misfit) overlaps nothing
 *     else that it is given.
 *   - Bytes that a call reads are written by nobody while it runs.
 *   - No call is made from a signal handler, nor in the child of a fork of a process that has threads.
 *   - malloc, realloc and free belong together, and align blocks as C asks for.
 * Nothing checks these: a call that breaks one may do anything, as anywhere in C.
 *
 * Calls on different data may run at once, in as many threads as there are.
 *
 * What the calls of a registry require in addition:
 *   - A `struct purvilgo_registry` begins as PURVILGO_REGISTRY_SHUT, and from then on only these calls write it.
 *   - One call at a time is made on it, also of those that only read it. Another thread may make the next one,
 *     if a lock, or the start or end of a thread, puts it after the one before.
 *   - It may be copied to another place, if the copy alone is used from then on.
 *
 * Who frees what: all memory behind these pointers is the caller's, except what `at` of a registry points to, which
 * purvilgo_registry_close frees. A call frees what else it allocated before it returns, and nothing else is kept from
 * one call to the next.
 *
 * Texts: a call that gives a text takes your buffer, `out` of `out_size` bytes, and sets `*length` to the text's
 * length. If the text fits it goes to the front of the buffer, and what is behind it stays as it was; it has no 0 at
 * its end. If not, the call returns PURVILGO_NO_ROOM and writes nothing into the buffer: call again with `*length`
 * bytes.
 *
 * The layouts, rules, faults and texts are in docs/PROFILE.md.
 */
#ifndef PURVILGO_H
#define PURVILGO_H

#include <stdbool.h>
#include <stddef.h>
#include <stdint.h>

#ifdef __cplusplus
extern "C" {
#endif

/* What a call returns. */
enum {
    /* The call was successful. */
    PURVILGO_DONE = 0,
    /* The text is longer than the buffer for it: `*length` is set, and the buffer stays as it was. */
    PURVILGO_NO_ROOM = 1,
    /* An allocation failed: all stays as it was. */
    PURVILGO_NO_MEMORY = 2,
    /* The stamp is not valid: its society is above 999, its name has a byte below 32, or its date or its time is not
     * valid. */
    PURVILGO_BAD_STAMP = 3,
    /* The text is no register of one registry: its first fault is set. */
    PURVILGO_FAULTY = 4,
    /* No outcome has these numbers. */
    PURVILGO_NO_OUTCOME = 5,
    /* The registry is closed: all stays as it was. */
    PURVILGO_SHUT = 6,
    /* The registry is open already: all stays as it was. */
    PURVILGO_ALREADY_OPEN = 7,
    /* The word names no rule and no answer: all stays as it was. */
    PURVILGO_NO_RULE = 8,
    /* The files and the register do not fit: the first file that does not, and what of it, is set. */
    PURVILGO_UNVERIFIED = 9
};

/* The version of the library, as 0.2.0: that of the program that was built with it.
 * Returns PURVILGO_DONE or PURVILGO_NO_ROOM. */
uint32_t purvilgo_version(uint8_t *out, size_t out_size, size_t *length);

/* What a status means, in a few words of at most 64 bytes, as "memory was refused"; for a number that no call returns,
 * that it is not a status.
 * Returns PURVILGO_DONE or PURVILGO_NO_ROOM. */
uint32_t purvilgo_status_text(uint32_t status, uint8_t *out, size_t out_size, size_t *length);

/* How the work on a file ended. */
enum {
    /* Each transaction was decided, and the complete acknowledgement was written. */
    PURVILGO_ACKNOWLEDGED = 0,
    /* The file is not well-formed: nothing was decided, and nothing written. */
    PURVILGO_REFUSED = 1,
    /* Some of the transactions were decided, and then it stopped. */
    PURVILGO_STOPPED = 2
};

/* Why it stopped. purvilgo_acknowledge and purvilgo_registry_run stop for memory (also as PURVILGO_FOR_WRITE, if
 * there was none for the acknowledgement), for the file's length, and the latter for a registry of 99,999,999 entries.
 * The others are those of jobs of other kinds, whose line purvilgo_outcome_line gives too. */
enum {
    PURVILGO_FOR_MEMORY = 1,
    PURVILGO_FOR_FULL_BOOK = 2,
    PURVILGO_FOR_READ = 3,
    /* The file has more than 16,777,216 bytes. */
    PURVILGO_FOR_LENGTH = 4,
    PURVILGO_FOR_GATE = 5,
    PURVILGO_FOR_WRITE = 6
};

/* How the work on a file ended, in numbers. What does not belong to its kind is 0. */
struct purvilgo_outcome {
    /* PURVILGO_ACKNOWLEDGED, PURVILGO_REFUSED or PURVILGO_STOPPED. */
    uint32_t kind;
    /* Refused: the file's first fault, 1 to 12 for F1 to F12. */
    uint32_t fault;
    /* Refused: the line that has it, from 1. */
    uint64_t line;
    /* Acknowledged: the number of transactions of the file. Stopped: the number of those that were decided. */
    uint32_t transactions;
    /* Stopped: PURVILGO_FOR_MEMORY to PURVILGO_FOR_WRITE. */
    uint32_t cause;
    /* Stopped for a write: the number of bytes of the acknowledgement that were written. */
    uint64_t sent;
};

/* Who acknowledges, and when. No field has a 0 at its end. A name that is shorter than its field is filled with blanks:
 *
 *     memset(stamp.name, ' ', sizeof stamp.name);
 *     memcpy(stamp.name, name, strlen(name));
 *
 * Its bytes go out as they are. */
struct purvilgo_stamp {
    /* The society's number (CISAC), at most 999. */
    uint16_t society;
    /* Its name, filled with blanks at the right, without a byte below 32. */
    uint8_t name[45];
    /* The date, as YYYYMMDD. */
    uint8_t date[8];
    /* The time, as HHMMSS. */
    uint8_t time[6];
};

/* Where a register is at fault. */
struct purvilgo_register_fault {
    /* 1 to 4 for G1 to G4. */
    uint32_t number;
    /* The line that has it, from 1. */
    uint64_t line;
};

/* Checks a submission file, without a registry. The text is that of `purvilgo check`: a line for each transaction and a
 * last one with their number, or the file's first fault. `*clean` says whether the file is well-formed and none of its
 * transactions has a fault. It is set with PURVILGO_NO_ROOM too.
 *
 * A check sets no limit on the file's length. `purvilgo check`, and every run, stop at a file of more than 16,777,216
 * bytes: one that is clean here may be too long there.
 *
 * Returns PURVILGO_DONE, PURVILGO_NO_ROOM or PURVILGO_NO_MEMORY. */
uint32_t purvilgo_check(const uint8_t *file, size_t file_length, uint8_t *out, size_t out_size, size_t *length,
                        bool *clean);

/* The same for a person. The text is that of `purvilgo check --long`: for each fault its line, its field, what stands
 * there and what was expected, and behind that the remarks, which are no faults. The statuses are those of
 * purvilgo_check. */
uint32_t purvilgo_check_long(const uint8_t *file, size_t file_length, uint8_t *out, size_t out_size, size_t *length,
                             bool *clean);

/* The same for a program. The text is that of `purvilgo check --json`: one JSON object, in UTF-8, with LF behind it.
 * The statuses are those of purvilgo_check. */
uint32_t purvilgo_check_json(const uint8_t *file, size_t file_length, uint8_t *out, size_t out_size, size_t *length,
                             bool *clean);

/* Explains a rule, as F9, J11, G3, or 011 as an MSG record has it: what it requires, an example that breaks it, and how
 * to fix that; or an answer, AS, DU, CO or RJ: what it means, and what a publisher does then. The text is that of
 * `purvilgo explain`. A word of no bytes stands for all of them.
 * Returns PURVILGO_DONE, PURVILGO_NO_ROOM, PURVILGO_NO_MEMORY, or PURVILGO_NO_RULE, which leaves all as it was. */
uint32_t purvilgo_explain(const uint8_t *word, size_t word_length, uint8_t *out, size_t out_size, size_t *length);

/* Acknowledges one file into an empty registry. The text is the acknowledgement file; there is none if the file is
 * refused or stopped. `*outcome` says how that ended, with PURVILGO_NO_ROOM too, and also if an allocation of the work
 * failed.
 * Returns PURVILGO_DONE, PURVILGO_NO_ROOM, or PURVILGO_BAD_STAMP, which leaves all as it was. */
uint32_t purvilgo_acknowledge(const uint8_t *file, size_t file_length, const struct purvilgo_stamp *stamp, uint8_t *out,
                              size_t out_size, size_t *length, struct purvilgo_outcome *outcome);

/* Audits a register: hands each call in again, and compares each reply.
 * Returns PURVILGO_DONE, and sets `*entries` to the number of its entries; PURVILGO_FAULTY, and sets `*fault` to the
 * first fault of a text that is no register of one registry; or PURVILGO_NO_MEMORY. What is not set stays as it was. */
uint32_t purvilgo_audit(const uint8_t *text, size_t text_length, uint64_t *entries,
                        struct purvilgo_register_fault *fault);

/* The tables of a register, as the commands of these names print them for all rows: CSV with a header line, each line
 * with LF at its end. Texts of the register stand as it has them, also bytes above 126 and blanks at their ends; one
 * with a comma, a quote or a line end stands between quotes. Control of a right is in hundredths of one per cent: 5007
 * is 50.07 per cent. docs/guide/auditing.md describes the columns.
 *
 * Each returns PURVILGO_DONE, PURVILGO_NO_ROOM, PURVILGO_NO_MEMORY, or PURVILGO_FAULTY. The last sets `*fault` to the
 * first fault of a text that is no register of one registry; otherwise `*fault` stays as it was. With PURVILGO_FAULTY
 * and PURVILGO_NO_MEMORY nothing else is written. Each call decides on the complete register again and makes the table
 * again, so pass a buffer that is likely to suffice. */

/* The current claims, in the order of their entries. The columns are
 * submitter,number,work,version,title,iswc,performing,mechanical,synchronization: the last three are the claim's
 * control. */
uint32_t purvilgo_claims(const uint8_t *text, size_t text_length, uint8_t *out, size_t out_size, size_t *length,
                         struct purvilgo_register_fault *fault);

/* The works, by number. The columns are work,iswc,performing,mechanical,synchronization,claims: the control of all
 * current claims on the work together, and the number of these claims. */
uint32_t purvilgo_works(const uint8_t *text, size_t text_length, uint8_t *out, size_t out_size, size_t *length,
                        struct purvilgo_register_fault *fault);

/* Every entry, in order. The columns are
 * entry,submitter,kind,number,title,iswc,performing,mechanical,synchronization,status,work,version,faults. */
uint32_t purvilgo_history(const uint8_t *text, size_t text_length, uint8_t *out, size_t out_size, size_t *length,
                          struct purvilgo_register_fault *fault);

/* A summary, as a page and not CSV: lines of a name, a colon, a blank and a number, the later ones indented
 * below a line that names what they count. */
uint32_t purvilgo_summary(const uint8_t *text, size_t text_length, uint8_t *out, size_t out_size, size_t *length,
                          struct purvilgo_register_fault *fault);

/* A file that was sent, and the acknowledgement that is to answer it. */
struct purvilgo_sent {
    const uint8_t *file;
    size_t file_length;
    const uint8_t *acknowledgement;
    size_t acknowledgement_length;
};

/* What does not fit of a file. */
enum {
    /* The file has more than 16,777,216 bytes. */
    PURVILGO_FILE_TOO_LONG = 1,
    /* The file is not well-formed. */
    PURVILGO_FILE_REFUSED = 2,
    /* The register has no entry for a transaction, with the reply that the acknowledgement has. */
    PURVILGO_OTHER_TRANSACTION = 3,
    /* All transactions are there, and the acknowledgement that answers them has another line. An acknowledgement whose
     * first line is not that of an acknowledgement is reported, as line 1, before anything else of its file. */
    PURVILGO_OTHER_LINE = 4
};

/* The first file that does not fit, and what does not. What does not belong to its kind is 0. */
struct purvilgo_misfit {
    /* PURVILGO_FILE_TOO_LONG to PURVILGO_OTHER_LINE. */
    uint32_t kind;
    /* Refused: the file's first fault, 1 to 12 for F1 to F12. */
    uint32_t fault;
    /* Which file, from 0. */
    uint64_t file;
    /* Refused: the line of the file that has the fault. Another line: the first one of the acknowledgement. From 1. */
    uint64_t line;
    /* A transaction: its group's ID, from 1, and its number in the group, from 0. */
    uint32_t group;
    uint32_t transaction;
};

/* Checks a register against files that were sent, and against their acknowledgements, as `purvilgo verify` does: the
 * transactions of each file are judged again, and stand in the register in the order of the file. Each has the reply
 * that its acknowledgement has, and no entry answers two of them. Give the files in the order in which they were run.
 * There may be any number of them, also none: with a count of 0 `files` is any pointer that is not null.
 * Returns PURVILGO_DONE, and sets `*transactions` to their number; PURVILGO_UNVERIFIED, and sets `*misfit` to the first
 * file that does not fit; PURVILGO_FAULTY, and sets `*fault` to the first fault of a text that is no register of one
 * registry; or PURVILGO_NO_MEMORY. What is not set stays as it was. */
uint32_t purvilgo_verify(const uint8_t *text, size_t text_length, const struct purvilgo_sent *files, size_t file_count,
                         uint64_t *transactions, struct purvilgo_register_fault *fault,
                         struct purvilgo_misfit *misfit);

/* Gives the line of an outcome as `purvilgo run` prints it: the file's name, a colon, the outcome and LF.
 * Returns PURVILGO_DONE, PURVILGO_NO_ROOM, PURVILGO_NO_MEMORY, or PURVILGO_NO_OUTCOME, which leaves all as it was. */
uint32_t purvilgo_outcome_line(const uint8_t *name, size_t name_length, const struct purvilgo_outcome *outcome,
                               uint8_t *out, size_t out_size, size_t *length);

/* A registry of musical works, which goes on from file to file: a handle, closed or open.
 *
 *     struct purvilgo_registry registry = PURVILGO_REGISTRY_SHUT;
 *     if (purvilgo_registry_open(&registry) == PURVILGO_DONE) {
 *         ..
 *         purvilgo_registry_close(&registry);
 *     }
 *
 * It holds all that was decided, in memory: some 300 to 400 bytes for each transaction. It is as if it had been read
 * from its register: neither it nor a register says which run an entry is from. */
struct purvilgo_registry {
    /* The library's own; null if it is closed. */
    void *at;
};

#define PURVILGO_REGISTRY_SHUT {0}

/* Opens an empty registry.
 * Returns PURVILGO_DONE; PURVILGO_NO_MEMORY, which leaves it closed; or PURVILGO_ALREADY_OPEN. */
uint32_t purvilgo_registry_open(struct purvilgo_registry *registry);

/* Opens the registry of a register, as purvilgo_registry_register or `purvilgo run --to` wrote it. Each of its
 * decisions is made again, and compared.
 *
 * The library locks nothing. A program that reads a register from a file and writes it back there holds an exclusive
 * lock of flock(2) on the empty file REGISTER.lock, from before the read until the new one has its name, as
 * `purvilgo run --to` and bindings/c/day.c do. Of two at once, the decisions of one would be lost.
 *
 * Returns PURVILGO_DONE; PURVILGO_FAULTY, and sets `*fault` to the first fault of a text that is no register of one
 * registry; PURVILGO_NO_MEMORY; both leave it closed; or PURVILGO_ALREADY_OPEN. Only PURVILGO_FAULTY changes
 * `*fault`. */
uint32_t purvilgo_registry_read(struct purvilgo_registry *registry, const uint8_t *text, size_t text_length,
                                struct purvilgo_register_fault *fault);

/* Runs one file: decides its transactions, in file order, after all that was decided before. `*outcome` says how
 * that ended. Its acknowledgement stays behind the handle, in place of the one before, until the next run:
 * purvilgo_registry_acknowledgement copies it out, any number of times. So this call takes no buffer, and no file is
 * decided twice because a buffer is too small.
 *
 * A file that is refused, or too long, decides nothing. One that is stopped for memory, or for a registry that is full,
 * leaves what was decided of it, `outcome->transactions`, in the registry, and no acknowledgement. To undo that, close
 * the registry, and read a register from before. PURVILGO_FOR_WRITE says that all of it was decided.
 *
 * Returns PURVILGO_DONE, PURVILGO_SHUT, or PURVILGO_BAD_STAMP, which leaves all as it was. */
uint32_t purvilgo_registry_run(struct purvilgo_registry *registry, const uint8_t *file, size_t file_length,
                               const struct purvilgo_stamp *stamp, struct purvilgo_outcome *outcome);

/* The acknowledgement file of the last run: a text of no bytes if that file was not acknowledged, and before the first
 * run. It allocates nothing.
 * Returns PURVILGO_DONE, PURVILGO_NO_ROOM or PURVILGO_SHUT. */
uint32_t purvilgo_registry_acknowledgement(struct purvilgo_registry *registry, uint8_t *out, size_t out_size,
                                           size_t *length);

/* Sets `*entries` to the number of decided transactions, those of the register that it was read from included.
 * Returns PURVILGO_DONE or PURVILGO_SHUT. */
uint32_t purvilgo_registry_entries(struct purvilgo_registry *registry, uint64_t *entries);

/* The register: all that was decided, as `purvilgo run --to` writes it. It has 12 bytes, and for each transaction 174,
 * and 13 for each fault of it. Each call makes it again, so pass a buffer that is likely to suffice.
 * Returns PURVILGO_DONE, PURVILGO_NO_ROOM, PURVILGO_NO_MEMORY or PURVILGO_SHUT. */
uint32_t purvilgo_registry_register(struct purvilgo_registry *registry, uint8_t *out, size_t out_size, size_t *length);

/* Closes a registry: frees all that is behind the handle, which is closed then. Nothing happens to one that is
 * closed. */
void purvilgo_registry_close(struct purvilgo_registry *registry);

#ifdef __cplusplus
}
#endif

#endif
