/*
 * passes_stages.c: plays passes_stages.txt, which has the code of each call in each stage. SPDX: MIT OR Apache-2.0
 *
 * usage: passes_stages TABLE      each row of the table is tried in each of its columns, on a heap of its own
 *
 * Linked with -Wl,--wrap=malloc,--wrap=calloc,--wrap=realloc,--wrap=free, so that each request for memory of the archive's or the mock's
 * can be refused. A call that is refused leaves both handles as they were.
 */
#include "../lxr_passes.h"

#include <stdbool.h>
#include <stdio.h>
#include <stdlib.h>
#include <string.h>

enum { LINE = 512, WORDS = 32, THREAD = 0, OTHER_THREAD = 1, HELPER = 2, NO_PASS = 4 };

static const lxr_passes_settings settings = { sizeof settings, 64, 2, 1, 64, 1024, 100, 4, 2, 1, 0, 0, 0 };

/* ---- Memory ---- */

static bool refuses;
static long held;

void *__real_malloc(size_t bytes);
void *__real_calloc(size_t count, size_t bytes);
void *__real_realloc(void *old, size_t bytes);
void __real_free(void *old);
void *__wrap_malloc(size_t bytes);
void *__wrap_calloc(size_t count, size_t bytes);
void *__wrap_realloc(void *old, size_t bytes);
void __wrap_free(void *old);

static void *hold(void *got) {
    held += got != NULL;
    return got;
}

void *__wrap_malloc(size_t bytes) { return refuses ? NULL : hold(__real_malloc(bytes)); }

void *__wrap_calloc(size_t count, size_t bytes) { return refuses ? NULL : hold(__real_calloc(count, bytes)); }

void *__wrap_realloc(void *old, size_t bytes) {
    if (refuses) return NULL;
    held -= old != NULL;
    return hold(__real_realloc(old, bytes));
}

void __wrap_free(void *old) {
    held -= old != NULL;
    __real_free(old);
}

/* ---- Stages ---- */

/* A heap, a station, an empty one, and the number of the pass that the first has, had, or would have. */
struct stage {
    lxr_passes heap;
    lxr_station station, other;
    uint32_t number;
};

static bool done(lxr_code code) { return code == LXR_OK; }

static bool opened(struct stage *at) { return done(lxr_passes_open(&at->heap, &settings)); }

static bool within(struct stage *at) { return opened(at) && done(lxr_passes_resume(&at->heap)); }

static bool out(struct stage *at, uint32_t number) {
    at->number = number;
    return done(lxr_station_leave(&at->heap, number, &at->station));
}

static bool away(struct stage *at) { return within(at) && out(at, THREAD); }

static bool helper(struct stage *at) { return within(at) && out(at, HELPER); }

static bool home(struct stage *at) { return away(at) && done(lxr_station_come_home(&at->station)); }

static bool wanted(struct stage *at) {
    return away(at) && done(lxr_station_ask_pause(&at->station)) && done(lxr_station_come_home(&at->station));
}

static bool paused(struct stage *at) { return wanted(at) && done(lxr_passes_pause(&at->heap)); }

/* An operation of one thread waits for the pause that the other has asked for. */
static bool waits(struct stage *at) {
    uint32_t same = 0;
    return wanted(at) && out(at, OTHER_THREAD) && lxr_station_same(&at->station, 0, 0, &same) == LXR_E_WAITS;
}

/* After that pause it has no answer yet. */
static bool open(struct stage *at) {
    return waits(at) && done(lxr_station_come_home(&at->station)) && done(lxr_passes_pause(&at->heap)) &&
           done(lxr_passes_resume(&at->heap)) && out(at, OTHER_THREAD);
}

static bool lose(struct stage *at) {
    refuses = true;
    lxr_code code = lxr_passes_resume(&at->heap);
    refuses = false;
    return code == LXR_E_MEMORY;
}

static bool lost(struct stage *at) { return opened(at) && lose(at); }

static bool lost_home(struct stage *at) { return paused(at) && lose(at); }

static bool closed(struct stage *at) { return away(at) && done(lxr_passes_close(&at->heap)); }

static bool closed_home(struct stage *at) { return home(at) && done(lxr_passes_close(&at->heap)); }

static bool empty(struct stage *at) { return !at->heap.live; }

static const struct {
    const char *name;
    bool (*come)(struct stage *at);
} stages[] = {
    { "empty", empty },   { "fresh", opened },
    { "paused", paused }, { "within", within },
    { "home", home },     { "away", away },
    { "helper", helper }, { "waits", waits },
    { "open", open },     { "wanted", wanted },
    { "lost", lost },     { "lost_home", lost_home },
    { "closed", closed }, { "closed_home", closed_home },
};

/* ---- Calls ---- */

static uint64_t word;
static uint32_t flag;
static const uint64_t *place;

static lxr_code open_heap(struct stage *at) { return lxr_passes_open(&at->heap, &settings); }
static lxr_code close_heap(struct stage *at) { return lxr_passes_close(&at->heap); }
static lxr_code resume(struct stage *at) { return lxr_passes_resume(&at->heap); }
static lxr_code pause_heap(struct stage *at) { return lxr_passes_pause(&at->heap); }
static lxr_code count(struct stage *at) { return lxr_passes_count(&at->heap, LXR_COUNT_PAUSES, &word); }
static lxr_code count_what(struct stage *at) { return lxr_passes_count(&at->heap, 100, &word); }
static lxr_code trim(struct stage *at) { return lxr_passes_trim(&at->heap); }
static lxr_code trim_next(struct stage *at) { return lxr_passes_trim_next(&at->heap, 0, &flag); }
static lxr_code trim_beyond(struct stage *at) { return lxr_passes_trim_next(&at->heap, UINT32_MAX, &flag); }
static lxr_code first_word(struct stage *at) { return lxr_passes_first_word(&at->heap, &place); }
static lxr_code leave(struct stage *at) { return lxr_station_leave(&at->heap, at->number, &at->station); }
static lxr_code leave_none(struct stage *at) { return lxr_station_leave(&at->heap, NO_PASS, &at->station); }
static lxr_code other(struct stage *at) { return lxr_station_leave(&at->heap, at->number, &at->other); }
static lxr_code other_none(struct stage *at) { return lxr_station_leave(&at->heap, NO_PASS, &at->other); }
static lxr_code come_home(struct stage *at) { return lxr_station_come_home(&at->station); }
static lxr_code close_station(struct stage *at) { return lxr_station_close(&at->station); }
static lxr_code wants(struct stage *at) { return lxr_station_wants_pause(&at->station, &flag); }
static lxr_code help(struct stage *at) { return lxr_station_help(&at->station, 1, &flag); }
static lxr_code same(struct stage *at) { return lxr_station_same(&at->station, 0, 0, &flag); }
static lxr_code same_register(struct stage *at) { return lxr_station_same(&at->station, 0, LXR_REGISTERS, &flag); }
static lxr_code same_beyond(struct stage *at) { return lxr_station_same(&at->station, 0, LXR_MOST_REGISTERS, &flag); }
static lxr_code new_size(struct stage *at) { return lxr_station_new(&at->station, 1, LXR_MOST_REFS + 1, 0); }
static lxr_code answer(struct stage *at) { return lxr_station_answer(&at->station, &word); }

/* Calls by the names of rows; a row whose name ends in _refused makes its call while no memory is granted. */
static const struct {
    const char *name;
    lxr_code (*make)(struct stage *at);
    bool refused;
} calls[] = {
    { "open", open_heap, false },
    { "open_refused", open_heap, true },
    { "close", close_heap, false },
    { "resume", resume, false },
    { "resume_refused", resume, true },
    { "pause", pause_heap, false },
    { "count", count, false },
    { "count_what", count_what, false },
    { "trim", trim, false },
    { "trim_refused", trim, true },
    { "trim_next", trim_next, false },
    { "trim_beyond", trim_beyond, false },
    { "first_word", first_word, false },
    { "leave", leave, false },
    { "leave_refused", leave, true },
    { "leave_none", leave_none, false },
    { "other", other, false },
    { "other_refused", other, true },
    { "other_none", other_none, false },
    { "come_home", come_home, false },
    { "close_station", close_station, false },
    { "wants", wants, false },
    { "help", help, false },
    { "same", same, false },
    { "same_register", same_register, false },
    { "same_beyond", same_beyond, false },
    { "new_size", new_size, false },
    { "answer", answer, false },
};

static const struct {
    const char *name;
    lxr_code code;
} codes[] = {
    { "OK", LXR_OK },
    { "NO_HEAP", LXR_E_NO_HEAP },
    { "IN_USE", LXR_E_IN_USE },
    { "REGISTER", LXR_E_REGISTER },
    { "SIZE", LXR_E_SIZE },
    { "MEMORY", LXR_E_MEMORY },
    { "WHAT", LXR_E_WHAT },
    { "NUMBER", LXR_E_NUMBER },
    { "LOST", LXR_E_LOST },
    { "WAITS", LXR_E_WAITS },
    { "HELD", LXR_E_HELD },
    { "BUSY", LXR_E_BUSY },
    { "AWAY", LXR_E_AWAY },
    { "HOME", LXR_E_HOME },
    { "KIND", LXR_E_KIND },
    { "EPOCH", LXR_E_EPOCH },
    { "NOT_WANTED", LXR_E_NOT_WANTED },
    { "NOTHING", LXR_E_NOTHING },
};

/* ---- The table ---- */

static void fail(const char *stage, const char *call, const char *what) {
    fprintf(stderr, "passes_stages: %s, %s: %s\n", stage, call, what);
    exit(1);
}

/* The index of a name among so many; they are the first member of each entry. */
static size_t find(const char *name, const void *entries, size_t size, size_t count) {
    for (size_t at = 0; at < count; at++) {
        if (strcmp(name, *(const char *const *)(const void *)((const char *)entries + at * size)) == 0) return at;
    }
    fail(name, "-", "nothing has this name");
    return 0;
}

/* Whether all handles are the same. */
static bool are_alike(const struct stage *left, const struct stage *right) {
    return left->heap.live == right->heap.live && left->heap.block == right->heap.block && left->station.live == right->station.live &&
           left->station.block == right->station.block && left->other.live == right->other.live && left->other.block == right->other.block;
}

#define FIND(name, entries) find(name, entries, sizeof entries[0], sizeof entries / sizeof entries[0])

/* Brings a heap of its own to a stage, and makes a call there, which is to answer a code. */
static void try_cell(const char *stage, const char *call, const char *code) {
    struct stage at = { { 0, 0 }, { 0, 0 }, { 0, 0 }, THREAD };
    size_t made = FIND(call, calls);
    uint32_t wanted_code = codes[FIND(code, codes)].code;
    held = 0;
    if (!stages[FIND(stage, stages)].come(&at)) fail(stage, call, "the stage isn't reached");
    struct stage before = at;
    refuses = calls[made].refused;
    uint32_t found = calls[made].make(&at);
    refuses = false;
    if (found != wanted_code) {
        fprintf(stderr, "passes_stages: %s, %s: the code is %u, not %u\n", stage, call, (unsigned)found, (unsigned)wanted_code);
        exit(1);
    }
    if (found != LXR_OK && !are_alike(&before, &at)) fail(stage, call, "a refused call has changed a handle");
    lxr_station_close(&at.station);
    lxr_station_close(&at.other);
    lxr_passes_close(&at.heap);
    if (held != 0) fail(stage, call, "memory is held by nobody");
}

/* The words of a line; how many there are. */
static size_t split(char *line, char *words[WORDS]) {
    size_t count = 0;
    for (char *word_at = strtok(line, " \n"); word_at && count < WORDS; word_at = strtok(NULL, " \n")) words[count++] = word_at;
    return count;
}

int main(int argc, char **argv) {
    char head[LINE], line[LINE], *columns[WORDS], *cells[WORDS];
    size_t width = 0, cases = 0;
    FILE *table = argc == 2 ? fopen(argv[1], "r") : NULL;
    if (!table) fail("-", "-", "there is no table");
    while (fgets(width ? line : head, LINE, table)) {
        char *row = width ? line : head;
        if (*row == '#' || *row == '\n') continue;
        if (!width) {
            width = split(head, columns);
            continue;
        }
        if (split(line, cells) != width) fail("-", cells[0], "the row has another number of codes than the table has stages");
        for (size_t at = 1; at < width; at++) try_cell(columns[at], cells[0], cells[at]);
        cases += width - 1;
    }
    fclose(table);
    if (cases != (sizeof stages / sizeof stages[0]) * (sizeof calls / sizeof calls[0])) fail("-", "-", "a call or a stage is missing");
    printf("passes_stages: %zu cases\n", cases);
    return 0;
}
