/* Refuses memory: the n-th request of a run fails, for each n until a run makes fewer requests. A call whose request
 * fails must report that, leave what it says it leaves, and give all memory back. Every other result must be as in a run
 * without a failure.
 *
 *     refused FILE REGISTER ACKNOWLEDGEMENT
 *
 * Linked with -Wl,--wrap=malloc,--wrap=realloc,--wrap=free, so that the requests of the library come here. */
#include "files.h"
#include "stamps.h"

void *__real_malloc(size_t size);
void *__real_realloc(void *at, size_t size);
void __real_free(void *at);

/* The number of requests made, the one that fails (0: none), the number of blocks held, and whether they count. */
static size_t asked, fails_at, held;
static bool counts, failed;

static bool refuses(void) {
    if (counts && ++asked == fails_at) {
        failed = true;
        return true;
    }
    return false;
}

void *__wrap_malloc(size_t size) {
    void *at = refuses() ? NULL : __real_malloc(size);
    held += counts && at;
    return at;
}

void *__wrap_realloc(void *at, size_t size) {
    void *moved = refuses() ? NULL : __real_realloc(at, size);
    held += counts && !at && moved;
    return moved;
}

void __wrap_free(void *at) {
    held -= counts && at;
    __real_free(at);
}

/* The texts that are compared with those of the first run. */
enum { CHECK, LONG, JSON, PAGE, PAGES, CLAIMS, WORKS, HISTORY, SUMMARY, ALONE, LINE, LAST, REGISTER, TEXTS };
enum { ROOM = 1 << 16 };
static uint8_t room[ROOM], expected[TEXTS][ROOM];
static size_t expected_length[TEXTS];

static void must(bool holds, const char *what) {
    if (!holds) {
        counts = false;
        fprintf(stderr, "refused: request %zu: %s\n", fails_at, what);
        exit(1);
    }
}

/* A call is made; its buffer is filled with 0xA5 before. */
static void fill(size_t *length) {
    memset(room, 0xA5, ROOM);
    *length = 12345;
    failed = false;
    counts = true;
}

/* Whether the buffer is as it was. */
static bool is_filled(void) {
    for (size_t i = 0; i < ROOM; i++)
        if (room[i] != 0xA5)
            return false;
    return true;
}

/* A call that gives text k has returned. If an allocation failed all is as it was. If not, the text is that of the first
 * run, and behind it the buffer is as it was; `same` is false if the text may be another. */
static void told(int k, uint32_t status, size_t length, bool same) {
    counts = false;
    must((status == PURVILGO_NO_MEMORY) == failed, "want of memory was not told, or told without need");
    if (status == PURVILGO_NO_MEMORY) {
        must(length == 12345 && is_filled(), "something was written for want of memory");
        return;
    }
    must(status == PURVILGO_DONE, "the call was not done");
    if (fails_at == 0) {
        memcpy(expected[k], room, length);
        expected_length[k] = length;
    }
    must(!same || (length == expected_length[k] && memcmp(room, expected[k], length) == 0), "another text");
    for (size_t i = length; i < ROOM; i++)
        must(room[i] == 0xA5, "the room behind the text was written");
}

typedef uint32_t check_call(const uint8_t *, size_t, uint8_t *, size_t, size_t *, bool *);

static void check(int k, check_call *call, struct bytes file) {
    size_t length;
    bool clean = true;
    uint32_t status;
    fill(&length);
    status = call(file.at, file.length, room, ROOM, &length, &clean);
    told(k, status, length, true);
    must(clean || !failed, "a check that was refused told something");
    must(held == 0, "the check kept memory");
}

static void explain(int k, const char *name) {
    size_t length;
    uint32_t status;
    fill(&length);
    status = purvilgo_explain((const uint8_t *)name, strlen(name), room, ROOM, &length);
    told(k, status, length, true);
    must(held == 0, "a page kept memory");
}

typedef uint32_t table_call(const uint8_t *, size_t, uint8_t *, size_t, size_t *, struct purvilgo_register_fault *);

/* A table of a register, or its fault: then nothing else is set. */
static void table(int k, table_call *call, struct bytes text) {
    struct purvilgo_register_fault fault = {77, 77};
    size_t length;
    uint32_t status;
    fill(&length);
    status = call(text.at, text.length, room, ROOM, &length, &fault);
    counts = false;
    must(held == 0, "a table kept memory");
    if (status == PURVILGO_FAULTY) {
        must(!failed && fault.number != 77 && fault.line != 77, "a fault was not told, or for want of memory");
        must(length == 12345 && is_filled(), "a register with a fault has a table");
        return;
    }
    told(k, status, length, true);
    must(fault.number == 77 && fault.line == 77, "a fault was told beside a table");
}

/* What is set for a file and its acknowledgement in a first run is set in each other, or nothing is. */
static void verify(struct bytes text, struct bytes file, struct bytes answer) {
    static struct purvilgo_misfit first;
    static uint64_t first_transactions;
    static uint32_t first_status;
    const struct purvilgo_sent sent = {file.at, file.length, answer.at, answer.length};
    struct purvilgo_misfit misfit = {77, 77, 77, 77, 77, 77};
    struct purvilgo_register_fault fault = {77, 77};
    uint64_t transactions = 77;
    uint32_t status;
    failed = false;
    counts = true;
    status = purvilgo_verify(text.at, text.length, &sent, 1, &transactions, &fault, &misfit);
    counts = false;
    must(held == 0, "a verification kept memory");
    must((status == PURVILGO_NO_MEMORY) == failed, "a verification was not refused as it is");
    must((transactions == 77) == (status != PURVILGO_DONE), "transactions were told, or were not");
    must((misfit.kind == 77) == (status != PURVILGO_UNVERIFIED), "a misfit was told, or was not");
    must((fault.number == 77) == (status != PURVILGO_FAULTY), "a fault was told, or was not");
    if (failed)
        return;
    if (fails_at == 0) {
        first = misfit;
        first_transactions = transactions;
        first_status = status;
    }
    must(status == first_status && transactions == first_transactions && memcmp(&misfit, &first, sizeof first) == 0,
         "a verification told something else");
}

static struct purvilgo_outcome acknowledge(struct bytes file, const struct purvilgo_stamp *stamp) {
    struct purvilgo_outcome outcome;
    size_t length;
    uint32_t status;
    fill(&length);
    status = purvilgo_acknowledge(file.at, file.length, stamp, room, ROOM, &length, &outcome);
    counts = false;
    must(status == PURVILGO_DONE && held == 0, "the acknowledgement kept memory, or was not done");
    must(failed == (outcome.kind == PURVILGO_STOPPED), "want of memory was not told by the outcome");
    if (failed) {
        must(outcome.cause == PURVILGO_FOR_MEMORY || outcome.cause == PURVILGO_FOR_WRITE, "another cause");
        must(length == 0 && is_filled(), "part of an acknowledgement was written");
    } else {
        told(ALONE, status, length, true);
    }
    return outcome;
}

static void tell_line(const struct purvilgo_outcome *outcome) {
    size_t length;
    uint32_t status;
    fill(&length);
    status = purvilgo_outcome_line((const uint8_t *)"name", 4, outcome, room, ROOM, &length);
    told(LINE, status, length, outcome->kind != PURVILGO_STOPPED);
    must(held == 0, "the line kept memory");
}

/* What an audit sets in a first run is set in each other, or nothing is. */
static void audit(struct bytes text) {
    static uint64_t first_entries;
    static struct purvilgo_register_fault first_fault;
    struct purvilgo_register_fault fault = {77, 77};
    uint64_t entries = 77;
    uint32_t status;
    failed = false;
    counts = true;
    status = purvilgo_audit(text.at, text.length, &entries, &fault);
    counts = false;
    must(held == 0, "the audit kept memory");
    must((status == PURVILGO_NO_MEMORY) == failed, "an audit was not refused as it is");
    if (failed) {
        must(entries == 77 && fault.number == 77 && fault.line == 77, "an audit that was refused told something");
        return;
    }
    must(status == PURVILGO_DONE || status == PURVILGO_FAULTY, "the audit was not done");
    must(status == PURVILGO_DONE ? fault.number == 77 && fault.line == 77 : entries == 77, "an audit told too much");
    if (fails_at == 0) {
        first_entries = entries;
        first_fault = fault;
    }
    must(entries == first_entries && fault.number == first_fault.number && fault.line == first_fault.line,
         "an audit told something else");
}

/* A registry is opened: of the text if that is a register, else an empty one. An allocation failure leaves it closed,
 * and it is opened again, which does not fail. True if an allocation failed. */
static bool open_registry(struct purvilgo_registry *registry, struct bytes text) {
    struct purvilgo_register_fault fault = {77, 77};
    uint32_t status;
    failed = false;
    counts = true;
    status = purvilgo_registry_read(registry, text.at, text.length, &fault);
    if (status == PURVILGO_FAULTY)
        status = purvilgo_registry_open(registry);
    else
        must(fault.number == 77 && fault.line == 77, "a fault was told of a register that has none");
    counts = false;
    must(status == (failed ? PURVILGO_NO_MEMORY : PURVILGO_DONE), "a registry was not opened as it is");
    must((registry->at == NULL) == failed, "a registry that was refused is open");
    must(held > 0 || failed, "a registry holds no memory");
    must(held == 0 || !failed, "a registry that was refused holds memory");
    if (!failed)
        return false;
    must(!open_registry(registry, text), "two requests were refused");
    return true;
}

/* The number of entries of a registry. */
static uint64_t entries_of(struct purvilgo_registry *registry) {
    uint64_t entries = 77;
    must(purvilgo_registry_entries(registry, &entries) == PURVILGO_DONE, "the entries were not told");
    return entries;
}

/* A file is run: it is stopped if an allocation failed, and what was decided of it is there. True if one failed. */
static bool run(struct purvilgo_registry *registry, struct bytes file, const struct purvilgo_stamp *stamp) {
    uint64_t before = entries_of(registry);
    struct purvilgo_outcome outcome;
    uint32_t status;
    failed = false;
    counts = true;
    status = purvilgo_registry_run(registry, file.at, file.length, stamp, &outcome);
    counts = false;
    must(status == PURVILGO_DONE, "a run was not done");
    must(failed == (outcome.kind == PURVILGO_STOPPED), "want of memory was not told by the outcome of a run");
    must(entries_of(registry) == before + outcome.transactions, "a run left other entries than it told");
    must(outcome.kind != PURVILGO_STOPPED || outcome.cause == PURVILGO_FOR_MEMORY || outcome.cause == PURVILGO_FOR_WRITE,
         "a run was stopped for another cause");
    return failed;
}

/* The acknowledgement of the last run is given, without a request: no bytes if it was stopped. */
static void tell_last(struct purvilgo_registry *registry, bool stopped, bool same) {
    size_t length, requests = asked;
    uint32_t status;
    fill(&length);
    status = purvilgo_registry_acknowledgement(registry, room, ROOM, &length);
    must(asked == requests, "an acknowledgement asked for memory");
    if (stopped)
        must(status == PURVILGO_DONE && length == 0 && is_filled(), "there is an acknowledgement of a run that was stopped");
    else
        told(LAST, status, length, same);
    counts = false;
}

/* The register is given, with all entries that there are. */
static void tell_register(struct purvilgo_registry *registry, bool same) {
    struct purvilgo_register_fault fault;
    uint64_t entries = 0;
    size_t length;
    uint32_t status;
    fill(&length);
    status = purvilgo_registry_register(registry, room, ROOM, &length);
    told(REGISTER, status, length, same);
    if (status == PURVILGO_DONE) {
        must(purvilgo_audit(room, length, &entries, &fault) == PURVILGO_DONE, "the register is none");
        must(entries == entries_of(registry), "the register has other entries");
    }
}

/* A registry is opened, a file is run twice, and all is given and freed. What is given is that of the first run as
 * long as no allocation of a run failed. */
static void carry_on(struct bytes file, struct bytes text, const struct purvilgo_stamp *stamp) {
    struct purvilgo_registry registry = PURVILGO_REGISTRY_SHUT;
    bool stopped, any = false;
    open_registry(&registry, text);
    any = run(&registry, file, stamp);
    stopped = run(&registry, file, stamp);
    any = any || stopped;
    tell_last(&registry, stopped, !any);
    tell_register(&registry, !any);
    counts = true;
    purvilgo_registry_close(&registry);
    purvilgo_registry_close(&registry);
    counts = false;
    must(held == 0 && registry.at == NULL, "a registry that was closed holds memory");
}

/* What the library is and what a status means are given without a request. */
static void about(void) {
    size_t length, requests = asked;
    fill(&length);
    must(purvilgo_version(room, ROOM, &length) == PURVILGO_DONE, "there is no version");
    must(purvilgo_status_text(PURVILGO_SHUT, room, ROOM, &length) == PURVILGO_DONE, "a status has no text");
    must(asked == requests, "a text asked for memory");
    counts = false;
}

/* Each call once. */
static void calls(struct bytes file, struct bytes text, struct bytes answer, const struct purvilgo_stamp *stamp) {
    struct purvilgo_outcome outcome;
    about();
    check(CHECK, purvilgo_check, file);
    check(LONG, purvilgo_check_long, file);
    check(JSON, purvilgo_check_json, file);
    explain(PAGE, "J11");
    explain(PAGES, "");
    table(CLAIMS, purvilgo_claims, text);
    table(WORKS, purvilgo_works, text);
    table(HISTORY, purvilgo_history, text);
    table(SUMMARY, purvilgo_summary, text);
    verify(text, file, answer);
    outcome = acknowledge(file, stamp);
    tell_line(&outcome);
    audit(text);
    carry_on(file, text, stamp);
}

int main(int argc, char **argv) {
    char *words[] = {"0", "CWR REGISTRY", "20240601", "090000"};
    struct purvilgo_stamp stamp;
    const struct bytes none = {NULL, 0};
    struct bytes file = argc == 4 ? read_file(argv[1]) : none;
    struct bytes text = argc == 4 ? read_file(argv[2]) : none;
    struct bytes answer = argc == 4 ? read_file(argv[3]) : none;
    size_t requests;
    must(file.at && text.at && answer.at && set_stamp(&stamp, words) == 0,
         "a file, a register and an acknowledgement are wanted");
    calls(file, text, answer, &stamp);
    requests = asked;
    must(requests > 0, "no request was counted");
    for (fails_at = 1; fails_at <= requests; fails_at++) {
        asked = 0;
        held = 0;
        calls(file, text, answer, &stamp);
    }
    printf("refused: each of %zu requests\n", requests);
    free(file.at);
    free(text.at);
    free(answer.at);
    return 0;
}
