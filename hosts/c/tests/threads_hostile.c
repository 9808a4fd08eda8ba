/*
 * threads_hostile.c: calls of lxr_threads.h that a careful host never makes, each with its code. SPDX: MIT OR Apache-2.0
 *
 * Every code, in every state of a handle: null, open, opened twice, closed, closed twice; a mutator that runs, rests, has left, or has no
 * number to take. Whatever is refused changes nothing, and writes to no out parameter. Last comes a mutator that lives long.
 */
#include "../lxr_threads.h"

#include <inttypes.h>
#include <stdio.h>
#include <stdlib.h>
#include <string.h>

#define UNTOUCHED 0xA5A5A5A5u
#define LAST      UINT32_MAX
#define LONG      90000000u

/* The bytes of settings of version 0.2. */
#define FIRST 64

/* Of those that end before the room. */
#define SECOND 72

/* Of those that end before the runs. */
#define THIRD 80

/* The largest heap that is opened here: one of the archive's writes all its words as it is opened. */
#ifdef MOCK_PASSES
enum { LARGEST = 65536 };
#else
enum { LARGEST = 3000 };
#endif

static unsigned long checks;

static void check(uint64_t found, uint64_t wanted, const char *what, int line) {
    checks++;
    if (found == wanted) return;
    fprintf(stderr, "threads_hostile.c:%d: %s is %" PRIu64 ", not %" PRIu64 "\n", line, what, found, wanted);
    exit(1);
}

#define IS(what, wanted) check(what, wanted, #what, __LINE__)

/* The out parameters of all calls. A refused call leaves them as they are. */
static uint32_t narrow = UNTOUCHED;
static uint64_t wide = UNTOUCHED;

static void is_untouched(int line) {
    check(narrow, UNTOUCHED, "the out parameter of a refused call", line);
    check(wide, UNTOUCHED, "the word of a refused call", line);
}

/* A refused call. */
#define REFUSED(call, code) (check(call, code, #call, __LINE__), is_untouched(__LINE__))

/* Operations: the call's code, and how many are done, which is told at any code. */
#define APPLIES(mutator, operations, count, code, are_done) \
    (done = UNTOUCHED, check(lxr_mutator_apply(mutator, operations, count, &done), code, "lxr_mutator_apply", __LINE__), \
     check(done, are_done, "the operations that are done", __LINE__))

static size_t done;

/* Several operations at once. */
static void refuse_several(lxr_mutator *mutator, lxr_code code) {
    const uint32_t some[2] = { 2, 3 };
    const uint64_t data[2] = { 5, 6 };
    lxr_operation operations[2] = { { LXR_OP_GET, 0, 0, 0, UNTOUCHED }, { LAST, LAST, LAST, LAST, UNTOUCHED } };
    REFUSED(lxr_mutator_new_with(mutator, 1, some, 2, data, 2), code);
    REFUSED(lxr_mutator_get_many(mutator, 1, 0, &wide, 1), code);
    REFUSED(lxr_mutator_put_many(mutator, 1, 0, data, 2), code);
    REFUSED(lxr_mutator_load_many(mutator, 1, 0, some, 2), code);
    REFUSED(lxr_mutator_store_many(mutator, 1, 0, some, 2), code);
    REFUSED(lxr_mutator_get_many(mutator, LAST, LAST, &wide, 0), code);
    REFUSED(lxr_mutator_load_many(mutator, LAST, LAST, some, 0), code);
    APPLIES(mutator, operations, 2, code, 0);
    APPLIES(mutator, operations, 0, code, 0);
    IS(operations[0].word, UNTOUCHED);
}

/* Each operation of a mutator, with numbers that would do. */
static void refuse_all(lxr_mutator *mutator, lxr_code code) {
    REFUSED(lxr_mutator_new(mutator, 1, 1, 1), code);
    REFUSED(lxr_mutator_load(mutator, 1, 0, 0), code);
    REFUSED(lxr_mutator_store(mutator, 0, 0, 1), code);
    REFUSED(lxr_mutator_swap(mutator, 1, 0, 0, 1), code);
    REFUSED(lxr_mutator_get(mutator, 1, 0, &wide), code);
    REFUSED(lxr_mutator_put(mutator, 1, 0, 0), code);
    REFUSED(lxr_mutator_add(mutator, 1, 0, 0, &wide), code);
    REFUSED(lxr_mutator_same(mutator, 1, 1, &narrow), code);
    REFUSED(lxr_mutator_move(mutator, 1, 1), code);
    REFUSED(lxr_mutator_nil(mutator, 1), code);
    REFUSED(lxr_mutator_registers_in_use(mutator, 1), code);
    REFUSED(lxr_mutator_registers_in_use(mutator, 0), code);
    refuse_several(mutator, code);
    REFUSED(lxr_mutator_pause(mutator), code);
    REFUSED(lxr_mutator_collect(mutator), code);
    REFUSED(lxr_mutator_trim(mutator), code);
    REFUSED(lxr_mutator_poll(mutator), code);
    REFUSED(lxr_mutator_rest(mutator), code);
}

/* ---- Handles ---- */

/* Settings of another size than there is are refused, whatever else they have. */
static void try_sizes(void) {
    const uint64_t all = sizeof(lxr_shared_heap_settings);
    const uint64_t wrong[] = { 0,         8,         FIRST - 8, FIRST - 1, FIRST + 1, SECOND - 1, SECOND + 1,
                               THIRD - 1, THIRD + 1, THIRD + 4, all - 1,   all + 1,   all + 8,    UINT64_MAX };
    for (size_t at = 0; at < sizeof wrong / sizeof wrong[0]; at++) {
        lxr_shared_heap *heap = NULL;
        lxr_shared_heap_settings settings = LXR_SHARED_HEAP_SETTINGS(8, 2);
        settings.size = wrong[at];
        IS(lxr_shared_heap_open(&heap, &settings), LXR_E_SIZE);
        IS(heap == NULL, 1);
    }
}

/* Settings of version 0.2 are taken, and nothing is read that stands after them. */
static void try_first(void) {
    lxr_shared_heap_settings wanted = LXR_SHARED_HEAP_SETTINGS(8, 2);
    lxr_shared_heap *heap = NULL;
    void *settings = malloc(FIRST);
    IS(settings != NULL, 1);
    wanted.size = FIRST;
    memcpy(settings, &wanted, FIRST);
    IS(lxr_shared_heap_open(&heap, settings), LXR_OK);
    IS(lxr_shared_heap_close(&heap), LXR_OK);
    wanted.mutators = 256;
    memcpy(settings, &wanted, FIRST);
    IS(lxr_shared_heap_open(&heap, settings), LXR_E_SIZE);
    free(settings);
}

/* So are those that end before the room, which is all then. */
static void try_second(void) {
    lxr_shared_heap_settings wanted = LXR_SHARED_HEAP_SETTINGS(100, 2);
    lxr_shared_heap *heap = NULL;
    void *settings = malloc(SECOND);
    IS(settings != NULL, 1);
    wanted.size = SECOND;
    memcpy(settings, &wanted, SECOND);
    IS(lxr_shared_heap_open(&heap, settings), LXR_OK);
    IS(lxr_shared_heap_count(heap, LXR_COUNT_ROOM, &wide), LXR_OK);
    IS(wide, 100);
    wide = UNTOUCHED;
    IS(lxr_shared_heap_close(&heap), LXR_OK);
    free(settings);
}

/* And those that end before the runs. */
static void try_third(void) {
    lxr_shared_heap_settings wanted = LXR_SHARED_HEAP_SETTINGS(100, 2);
    lxr_shared_heap *heap = NULL;
    void *settings = malloc(THIRD);
    IS(settings != NULL, 1);
    wanted.size = THIRD;
    wanted.room = 7;
    memcpy(settings, &wanted, THIRD);
    IS(lxr_shared_heap_open(&heap, settings), LXR_OK);
    IS(lxr_shared_heap_count(heap, LXR_COUNT_ROOM, &wide), LXR_OK);
    IS(wide, 7);
    wide = UNTOUCHED;
    IS(lxr_shared_heap_close(&heap), LXR_OK);
    free(settings);
}

/* The room is set up to what is reserved, and its growth up to its bound. */
static void try_rooms(void) {
    lxr_shared_heap_settings settings = LXR_SHARED_HEAP_SETTINGS(100, 2);
    lxr_shared_heap *heap = NULL;
    IS(lxr_shared_heap_set_room(heap, 1), LXR_E_NO_HEAP);
    IS(lxr_shared_heap_set_grow(heap, 1), LXR_E_NO_HEAP);
    settings.room = 7;
    IS(lxr_shared_heap_open(&heap, &settings), LXR_OK);
    const uint32_t tried[] = { 0, 1, 99, 100, 101, 10000, 10001, 65536, LAST };
    uint64_t wanted = 7;
    for (size_t at = 0; at < sizeof tried / sizeof tried[0]; at++) {
        IS(lxr_shared_heap_count(heap, LXR_COUNT_ROOM, &wide), LXR_OK);
        IS(wide, wanted);
        IS(lxr_shared_heap_set_room(heap, tried[at]), tried[at] <= 100 ? LXR_OK : LXR_E_SIZE);
        IS(lxr_shared_heap_set_grow(heap, tried[at]), tried[at] <= LXR_MOST_GROW ? LXR_OK : LXR_E_SIZE);
        if (tried[at] <= 100) wanted = tried[at] ? tried[at] : 100;
    }
    wide = UNTOUCHED;
    IS(lxr_shared_heap_close(&heap), LXR_OK);
}

/* A heap is opened with these settings where they fit, and else refused. */
static void try_open(const lxr_shared_heap_settings *settings, uint32_t fits) {
    lxr_shared_heap *heap = NULL;
    IS(lxr_shared_heap_open(&heap, settings), fits ? LXR_OK : LXR_E_SIZE);
    IS(heap != NULL, fits);
    IS(lxr_shared_heap_close(&heap), fits ? LXR_OK : LXR_E_NO_HEAP);
}

static void try_settings(void) {
    const lxr_shared_heap_settings good = LXR_SHARED_HEAP_SETTINGS(8, 2);
    const struct {
        size_t field;
        uint32_t least, most;
    } ranges[] = {
        { offsetof(lxr_shared_heap_settings, mutators), 1, 255 },  { offsetof(lxr_shared_heap_settings, helpers), 0, 8 },
        { offsetof(lxr_shared_heap_settings, log), 1, 65536 },     { offsetof(lxr_shared_heap_settings, remember), 1, 1048576 },
        { offsetof(lxr_shared_heap_settings, evacuate), 0, 1 },    { offsetof(lxr_shared_heap_settings, every), 1, 1000000 },
        { offsetof(lxr_shared_heap_settings, trace), 0, 1000000 }, { offsetof(lxr_shared_heap_settings, within), 0, 1000000 },
        { offsetof(lxr_shared_heap_settings, room), 0, 8 },        { offsetof(lxr_shared_heap_settings, grow), 0, 10000 },
    };
    for (size_t at = 0; at < sizeof ranges / sizeof ranges[0]; at++) {
        const uint32_t tried[] = { ranges[at].least - 1, ranges[at].least, ranges[at].most, ranges[at].most + 1, LAST };
        for (size_t it = 0; it < 5; it++) {
            lxr_shared_heap_settings settings = good;
            *(uint32_t *)(void *)((char *)&settings + ranges[at].field) = tried[it];
            try_open(&settings, tried[it] - ranges[at].least <= ranges[at].most - ranges[at].least);
        }
    }
}

/* 16 to 256 registers, or 0 for sixteen. */
static void try_registers(void) {
    const uint32_t tried[] = { 0, 1, 15, 16, 17, 255, 256, 257, 65536, 65536 + 16, LAST };
    for (size_t at = 0; at < sizeof tried / sizeof tried[0]; at++) {
        lxr_shared_heap_settings settings = LXR_SHARED_HEAP_SETTINGS(8, 2);
        IS(settings.registers, 16);
        settings.registers = tried[at];
        try_open(&settings, tried[at] == 0 || (tried[at] >= 16 && tried[at] <= 256));
    }
}

/* At least 64 runs, or 0 for 65,536, in small heaps and in large ones. */
static void try_runs(void) {
    const uint32_t tried[] = { 0, 1, 2, 63, 64, 65, 1000, 65536, 65537, 1u << 31, LAST };
    for (size_t at = 0; at < sizeof tried / sizeof tried[0]; at++) {
        for (uint32_t blocks = 1024; blocks <= 1025; blocks++) {
            lxr_shared_heap_settings settings = LXR_SHARED_HEAP_SETTINGS(blocks, 2);
            IS(settings.runs, 0);
            settings.runs = tried[at];
            settings.unused = LAST;
            try_open(&settings, tried[at] == 0 || tried[at] >= LXR_LEAST_RUNS);
        }
    }
}

/* Heaps of the header's own settings, and those of which as much is evacuated as may be, and more. */
static void try_blocks(void) {
    const uint32_t tried[] = { 0, 1, 7, 8, 511, 512, 1024, 1025, LARGEST, LXR_MOST_SHARED_BLOCKS + 1, 1u << 31, LAST };
    for (size_t at = 0; at < sizeof tried / sizeof tried[0]; at++) {
        const uint32_t blocks = tried[at], fits = blocks >= 1 && blocks <= 65536;
        lxr_shared_heap_settings settings = LXR_SHARED_HEAP_SETTINGS(blocks, 2);
        IS(settings.evacuate, blocks / 8 < 64 ? blocks / 8 : 64);
        try_open(&settings, fits);
        settings.evacuate = blocks / 8;
        try_open(&settings, fits);
        settings.evacuate = blocks / 8 + 1;
        try_open(&settings, 0);
    }
}

static void try_null(void) {
    lxr_shared_heap *heap = NULL;
    lxr_mutator *mutator = NULL;
    IS(lxr_shared_heap_close(&heap), LXR_E_NO_HEAP);
    REFUSED(lxr_shared_heap_count(heap, LXR_COUNT_PAUSES, &wide), LXR_E_NO_HEAP);
    IS(lxr_mutator_enter(heap, &mutator), LXR_E_NO_HEAP);
    IS(lxr_mutator_leave(&mutator), LXR_E_NO_HEAP);
    IS(lxr_mutator_wake(mutator), LXR_E_NO_HEAP);
    refuse_all(mutator, LXR_E_NO_HEAP);
}

static void try_handles(void) {
    lxr_shared_heap *heap = NULL;
    lxr_mutator *one = NULL, *other = NULL, *third = NULL;
    const lxr_shared_heap_settings settings = LXR_SHARED_HEAP_SETTINGS(8, 2);
    IS(lxr_shared_heap_open(&heap, &settings), LXR_OK);
    IS(lxr_shared_heap_open(&heap, &settings), LXR_E_IN_USE);
    IS(lxr_mutator_enter(heap, &one), LXR_OK);
    IS(lxr_mutator_enter(heap, &one), LXR_E_IN_USE);
    IS(lxr_mutator_enter(heap, &other), LXR_OK);
    IS(lxr_mutator_enter(heap, &third), LXR_E_NUMBER);
    IS(third == NULL, 1);
    IS(lxr_shared_heap_close(&heap), LXR_E_IN_USE);
    IS(lxr_mutator_rest(other), LXR_OK);
    IS(lxr_shared_heap_close(&heap), LXR_E_IN_USE);
    IS(lxr_mutator_leave(&other), LXR_OK);
    IS(lxr_mutator_enter(heap, &third), LXR_OK);
    IS(lxr_mutator_leave(&third), LXR_OK);
    IS(lxr_mutator_leave(&one), LXR_OK);
    IS(lxr_mutator_leave(&one), LXR_E_NO_HEAP);
    IS(lxr_shared_heap_close(&heap), LXR_OK);
    IS(lxr_shared_heap_close(&heap), LXR_E_NO_HEAP);
}

/* ---- Operations ---- */

/* Numbers of registers that a mutator hasn't which has so many. */
static void try_numbers(lxr_mutator *mutator, uint32_t registers) {
    const uint32_t bad[] = { registers, registers + 1, 256, 257, 65536, LAST };
    for (size_t at = 0; at < sizeof bad / sizeof bad[0]; at++) {
        uint32_t r = bad[at];
        REFUSED(lxr_mutator_new(mutator, r, 1, 1), LXR_E_REGISTER);
        REFUSED(lxr_mutator_load(mutator, r, 0, 0), LXR_E_REGISTER);
        REFUSED(lxr_mutator_load(mutator, 1, r, 0), LXR_E_REGISTER);
        REFUSED(lxr_mutator_store(mutator, r, 0, 1), LXR_E_REGISTER);
        REFUSED(lxr_mutator_store(mutator, 0, 0, r), LXR_E_REGISTER);
        REFUSED(lxr_mutator_swap(mutator, r, 0, 0, 1), LXR_E_REGISTER);
        REFUSED(lxr_mutator_swap(mutator, 1, r, 0, 1), LXR_E_REGISTER);
        REFUSED(lxr_mutator_swap(mutator, 1, 0, 0, r), LXR_E_REGISTER);
        REFUSED(lxr_mutator_get(mutator, r, 0, &wide), LXR_E_REGISTER);
        REFUSED(lxr_mutator_put(mutator, r, 0, 1), LXR_E_REGISTER);
        REFUSED(lxr_mutator_add(mutator, r, 0, 1, &wide), LXR_E_REGISTER);
        REFUSED(lxr_mutator_same(mutator, r, 1, &narrow), LXR_E_REGISTER);
        REFUSED(lxr_mutator_same(mutator, 1, r, &narrow), LXR_E_REGISTER);
        REFUSED(lxr_mutator_move(mutator, r, 1), LXR_E_REGISTER);
        REFUSED(lxr_mutator_move(mutator, 1, r), LXR_E_REGISTER);
        REFUSED(lxr_mutator_nil(mutator, r), LXR_E_REGISTER);
    }
    REFUSED(lxr_mutator_new(mutator, 1, 1024, 0), LXR_E_SIZE);
    REFUSED(lxr_mutator_new(mutator, 1, 0, 1024), LXR_E_SIZE);
    REFUSED(lxr_mutator_new(mutator, 1, LAST, LAST), LXR_E_SIZE);
    REFUSED(lxr_mutator_new(mutator, registers, LAST, LAST), LXR_E_REGISTER);
}

/* Which registers are nil: all but 0, from this one on. */
static void are_nil(lxr_mutator *mutator, uint32_t registers, uint32_t from) {
    for (uint32_t at = 1; at < registers; at++) {
        uint64_t word = 0;
        IS(lxr_mutator_get(mutator, at, 0, &word), at < from ? LXR_OK : LXR_E_NIL);
    }
}

/* The mutator leaves, and the one that has its number next finds nothing in its registers. */
static void enter_again(lxr_shared_heap *heap, lxr_mutator **mutator, uint32_t registers) {
    IS(lxr_mutator_leave(mutator), LXR_OK);
    IS(lxr_mutator_enter(heap, mutator), LXR_OK);
    are_nil(*mutator, registers, 1);
}

/* So many registers: all of them are there, and those that aren't in use are nil. */
static void try_in_use(uint32_t registers) {
    lxr_shared_heap *heap = NULL;
    lxr_mutator *mutator = NULL;
    lxr_shared_heap_settings settings = LXR_SHARED_HEAP_SETTINGS(8, 2);
    settings.registers = registers;
    IS(lxr_shared_heap_open(&heap, &settings), LXR_OK);
    IS(lxr_mutator_registers_in_use(mutator, LAST), LXR_E_NO_HEAP);
    IS(lxr_mutator_enter(heap, &mutator), LXR_OK);
    try_numbers(mutator, registers);
    for (uint32_t at = 1; at < registers; at++) IS(lxr_mutator_new(mutator, at, 0, 1), LXR_OK);
    const uint32_t bad[] = { 0, registers + 1, 257, LAST };
    for (size_t at = 0; at < sizeof bad / sizeof bad[0]; at++) IS(lxr_mutator_registers_in_use(mutator, bad[at]), LXR_E_REGISTER);
    IS(lxr_mutator_registers_in_use(mutator, registers), LXR_OK);
    are_nil(mutator, registers, registers);
    IS(lxr_mutator_registers_in_use(mutator, 9), LXR_OK);
    are_nil(mutator, registers, 9);
    IS(lxr_mutator_pause(mutator), LXR_OK);
    IS(lxr_mutator_move(mutator, registers - 1, 8), LXR_OK);
    IS(lxr_mutator_collect(mutator), LXR_OK);
    IS(lxr_mutator_put(mutator, registers - 1, 0, 1), LXR_OK);
    IS(lxr_mutator_rest(mutator), LXR_OK);
    IS(lxr_mutator_registers_in_use(mutator, 1), LXR_E_RESTS);
    IS(lxr_mutator_wake(mutator), LXR_OK);
    IS(lxr_mutator_registers_in_use(mutator, 1), LXR_OK);
    are_nil(mutator, registers, 1);
    IS(lxr_mutator_new(mutator, 1, 0, 1), LXR_OK);
    IS(lxr_mutator_store(mutator, 0, 0, 1), LXR_OK);
    IS(lxr_mutator_load(mutator, registers - 1, 0, 0), LXR_OK);
    enter_again(heap, &mutator, registers);
    IS(lxr_mutator_swap(mutator, registers - 2, 0, 0, 1), LXR_OK);
    enter_again(heap, &mutator, registers);
    IS(lxr_mutator_leave(&mutator), LXR_OK);
    IS(lxr_shared_heap_close(&heap), LXR_OK);
}

/* Register 0 keeps the world. */
static void try_world(lxr_mutator *mutator) {
    REFUSED(lxr_mutator_new(mutator, 0, 1, 1), LXR_E_REGISTER);
    REFUSED(lxr_mutator_load(mutator, 0, 0, 0), LXR_E_REGISTER);
    REFUSED(lxr_mutator_swap(mutator, 0, 0, 0, 1), LXR_E_REGISTER);
    REFUSED(lxr_mutator_move(mutator, 0, 1), LXR_E_REGISTER);
    REFUSED(lxr_mutator_nil(mutator, 0), LXR_E_REGISTER);
    IS(lxr_mutator_store(mutator, 0, 63, 0), LXR_OK);
    REFUSED(lxr_mutator_store(mutator, 0, 64, 0), LXR_E_INDEX);
    REFUSED(lxr_mutator_get(mutator, 0, 0, &wide), LXR_E_INDEX);
    IS(lxr_mutator_store(mutator, 0, 63, 15), LXR_OK);
}

static void try_fields(lxr_mutator *mutator) {
    REFUSED(lxr_mutator_load(mutator, 1, 2, 0), LXR_E_NIL);
    REFUSED(lxr_mutator_store(mutator, 2, 0, 0), LXR_E_NIL);
    REFUSED(lxr_mutator_swap(mutator, 1, 2, 0, 0), LXR_E_NIL);
    REFUSED(lxr_mutator_get(mutator, 2, 0, &wide), LXR_E_NIL);
    REFUSED(lxr_mutator_put(mutator, 2, LAST, 0), LXR_E_NIL);
    REFUSED(lxr_mutator_add(mutator, 2, 0, 1, &wide), LXR_E_NIL);
    IS(lxr_mutator_new(mutator, 2, 1023, 1023), LXR_OK);
    const uint32_t bad[] = { 1023, 1024, 65535, 65536, LAST };
    for (size_t at = 0; at < sizeof bad / sizeof bad[0]; at++) {
        REFUSED(lxr_mutator_load(mutator, 1, 2, bad[at]), LXR_E_INDEX);
        REFUSED(lxr_mutator_store(mutator, 2, bad[at], 0), LXR_E_INDEX);
        REFUSED(lxr_mutator_swap(mutator, 1, 2, bad[at], 0), LXR_E_INDEX);
        REFUSED(lxr_mutator_get(mutator, 2, bad[at], &wide), LXR_E_INDEX);
        REFUSED(lxr_mutator_put(mutator, 2, bad[at], 1), LXR_E_INDEX);
        REFUSED(lxr_mutator_add(mutator, 2, bad[at], 1, &wide), LXR_E_INDEX);
    }
    IS(lxr_mutator_put(mutator, 2, 1022, 7), LXR_OK);
    IS(lxr_mutator_add(mutator, 2, 1022, UINT64_MAX, &wide), LXR_OK);
    IS(wide, 7);
    IS(lxr_mutator_get(mutator, 2, 1022, &wide), LXR_OK);
    IS(wide, 6);
    wide = UNTOUCHED;
    IS(lxr_mutator_swap(mutator, 3, 2, 1022, 2), LXR_OK);
    REFUSED(lxr_mutator_get(mutator, 3, 0, &wide), LXR_E_NIL);
    IS(lxr_mutator_swap(mutator, 2, 2, 1022, 15), LXR_OK);
    IS(lxr_mutator_get(mutator, 2, 1022, &wide), LXR_OK);
    IS(wide, 6);
    wide = UNTOUCHED;
}

/* ---- Several at once ---- */

/* A register that isn't there, in each place of several. */
static void try_registers_of_several(lxr_mutator *mutator, uint32_t r) {
    const uint32_t good[3] = { 3, 4, 5 };
    const uint64_t data[1] = { 5 };
    REFUSED(lxr_mutator_new_with(mutator, r, good, 3, data, 1), LXR_E_REGISTER);
    REFUSED(lxr_mutator_get_many(mutator, r, 0, &wide, 0), LXR_E_REGISTER);
    REFUSED(lxr_mutator_get_many(mutator, r, 0, &wide, 1), LXR_E_REGISTER);
    REFUSED(lxr_mutator_put_many(mutator, r, LAST, data, 1), LXR_E_REGISTER);
    REFUSED(lxr_mutator_load_many(mutator, r, 0, good, 3), LXR_E_REGISTER);
    REFUSED(lxr_mutator_store_many(mutator, r, 0, good, 0), LXR_E_REGISTER);
    for (size_t at = 0; at < 3; at++) {
        uint32_t some[3] = { 3, 4, 5 };
        some[at] = r;
        REFUSED(lxr_mutator_new_with(mutator, 1, some, 3, data, 1024), LXR_E_REGISTER);
        REFUSED(lxr_mutator_load_many(mutator, 0, 0, some, 3), LXR_E_REGISTER);
        REFUSED(lxr_mutator_load_many(mutator, 15, LAST, some, 3), LXR_E_REGISTER);
        REFUSED(lxr_mutator_store_many(mutator, 0, 0, some, 3), LXR_E_REGISTER);
        REFUSED(lxr_mutator_store_many(mutator, 15, LAST, some, 3), LXR_E_REGISTER);
    }
}

/* Registers that are written to: not 0, and not one that is still read. */
static void try_registers_among_others(lxr_mutator *mutator) {
    const uint32_t good[3] = { 3, 4, 5 };
    const uint64_t data[1] = { 5 };
    REFUSED(lxr_mutator_new_with(mutator, 0, good, 0, data, 1), LXR_E_REGISTER);
    for (size_t at = 0; at < 3; at++) {
        uint32_t some[3] = { 3, 4, 5 };
        some[at] = 1;
        REFUSED(lxr_mutator_new_with(mutator, 1, some, 3, data, 1), LXR_E_REGISTER);
        REFUSED(lxr_mutator_load_many(mutator, 1, 0, some, 3), at < 2 ? LXR_E_REGISTER : LXR_E_NIL);
        some[at] = 0;
        REFUSED(lxr_mutator_load_many(mutator, 1, 0, some, 3), LXR_E_REGISTER);
        REFUSED(lxr_mutator_store_many(mutator, 1, 0, some, 3), LXR_E_NIL);
    }
}

static void try_sizes_of_several(lxr_mutator *mutator) {
    static uint32_t sources[1024];
    static uint64_t data[1024];
    REFUSED(lxr_mutator_new_with(mutator, 1, sources, 1024, data, 0), LXR_E_SIZE);
    REFUSED(lxr_mutator_new_with(mutator, 1, sources, 0, data, 1024), LXR_E_SIZE);
    REFUSED(lxr_mutator_new_with(mutator, 1, sources, 0, data, SIZE_MAX), LXR_E_SIZE);
    REFUSED(lxr_mutator_new_with(mutator, 1, sources, 0, data, (SIZE_MAX >> 32) + 2), LXR_E_SIZE);
    REFUSED(lxr_mutator_new_with(mutator, 0, sources, 0, data, 1024), LXR_E_REGISTER);
    IS(lxr_mutator_new_with(mutator, 1, sources, 1023, data, 1023), LXR_OK);
    REFUSED(lxr_mutator_put_many(mutator, 1, 0, data, 1024), LXR_E_INDEX);
    REFUSED(lxr_mutator_store_many(mutator, 1, 0, sources, 1024), LXR_E_INDEX);
    REFUSED(lxr_mutator_get_many(mutator, 1, 1023, &wide, SIZE_MAX), LXR_E_INDEX);
    REFUSED(lxr_mutator_put_many(mutator, 1, LAST, data, SIZE_MAX), LXR_E_INDEX);
    IS(lxr_mutator_nil(mutator, 1), LXR_OK);
}

/* An operation that is refused for its numbers, and one that nothing of is done before it. */
static void refuse_operation(lxr_mutator *mutator, lxr_operation it, lxr_code code, int line) {
    lxr_operation operations[2] = { { LXR_OP_NEW, 1, 0, 0, UNTOUCHED }, it };
    done = UNTOUCHED;
    check(lxr_mutator_apply(mutator, operations, 2, &done), code, "lxr_mutator_apply", line);
    check(done, 0, "the operations that are done", line);
    check(operations[1].word, it.word, "the word of a refused operation", line);
    check(lxr_mutator_get(mutator, 1, 0, &wide), LXR_E_NIL, "lxr_mutator_get", line);
}

#define REFUSES(mutator, op, a, b, c, word, code) refuse_operation(mutator, (lxr_operation){ op, a, b, c, word }, code, __LINE__)

static void try_registers_of_operations(lxr_mutator *mutator, uint32_t r) {
    REFUSES(mutator, LXR_OP_NEW, r, LAST, LAST, 0, LXR_E_REGISTER);
    REFUSES(mutator, LXR_OP_LOAD, r, 0, 0, 0, LXR_E_REGISTER);
    REFUSES(mutator, LXR_OP_LOAD, 1, r, 0, 0, LXR_E_REGISTER);
    REFUSES(mutator, LXR_OP_STORE, r, 0, 1, 0, LXR_E_REGISTER);
    REFUSES(mutator, LXR_OP_STORE, 0, 0, r, 0, LXR_E_REGISTER);
    REFUSES(mutator, LXR_OP_GET, r, 0, 0, 0, LXR_E_REGISTER);
    REFUSES(mutator, LXR_OP_PUT, r, 0, 0, 0, LXR_E_REGISTER);
    REFUSES(mutator, LXR_OP_SAME, r, 1, 0, 0, LXR_E_REGISTER);
    REFUSES(mutator, LXR_OP_SAME, 1, r, 0, 0, LXR_E_REGISTER);
    REFUSES(mutator, LXR_OP_MOVE, r, 1, 0, 0, LXR_E_REGISTER);
    REFUSES(mutator, LXR_OP_MOVE, 1, r, 0, 0, LXR_E_REGISTER);
    REFUSES(mutator, LXR_OP_NIL, r, 0, 0, 0, LXR_E_REGISTER);
    REFUSES(mutator, LXR_OP_IS_NIL, r, 0, 0, 0, LXR_E_REGISTER);
    REFUSES(mutator, LXR_OP_SWAP, r, 0, 0, 0, LXR_E_REGISTER);
    REFUSES(mutator, LXR_OP_SWAP, 1, r, 0, 0, LXR_E_REGISTER);
    REFUSES(mutator, LXR_OP_SWAP, 1, 0, 0, r, LXR_E_REGISTER);
    REFUSES(mutator, LXR_OP_SWAP, 1, 0, 0, (UINT64_C(1) << 32) + r, LXR_E_REGISTER);
    REFUSES(mutator, LXR_OP_ADD, r, 0, 0, 1, LXR_E_REGISTER);
    REFUSES(mutator, 11 + r, r, r, r, 0, LXR_E_WHAT);
}

/* Register 0 keeps the world; sizes; and operations that there aren't. */
static void try_operations(lxr_mutator *mutator) {
    const uint32_t writes[] = { LXR_OP_NEW, LXR_OP_LOAD, LXR_OP_MOVE, LXR_OP_NIL, LXR_OP_SWAP };
    for (size_t at = 0; at < sizeof writes / sizeof writes[0]; at++) REFUSES(mutator, writes[at], 0, 0, 0, 0, LXR_E_REGISTER);
    REFUSES(mutator, LXR_OP_SWAP, 1, 0, 0, UINT64_C(1) << 32, LXR_E_REGISTER);
    REFUSES(mutator, LXR_OP_NEW, 1, 1024, 0, 0, LXR_E_SIZE);
    REFUSES(mutator, LXR_OP_NEW, 1, 0, 1024, 0, LXR_E_SIZE);
    REFUSES(mutator, 11, 1, 1, 1, 0, LXR_E_WHAT);
    REFUSES(mutator, LAST, 1, 1, 1, 0, LXR_E_WHAT);
    REFUSES(mutator, UINT32_C(1) << 31, 0, LAST, LAST, LAST, LXR_E_WHAT);
}

/* Each operation as its call does it, and the one that stops them. */
static void apply_each(lxr_mutator *mutator) {
    lxr_operation all[] = {
        { LXR_OP_NEW, 1, 2, 2, UNTOUCHED },  { LXR_OP_PUT, 1, 1, LAST, 70 }, { LXR_OP_ADD, 1, 1, LAST, 7 },
        { LXR_OP_STORE, 1, 0, 1, 1 },        { LXR_OP_LOAD, 2, 1, 0, 2 },    { LXR_OP_SWAP, 3, 1, 1, 2 },
        { LXR_OP_IS_NIL, 3, LAST, LAST, 4 }, { LXR_OP_MOVE, 3, 2, LAST, 5 }, { LXR_OP_NIL, 2, LAST, LAST, 6 },
        { LXR_OP_SAME, 1, 3, LAST, 7 },      { LXR_OP_SAME, 2, 3, LAST, 8 }, { LXR_OP_IS_NIL, 0, LAST, LAST, 9 },
        { LXR_OP_GET, 3, 1, LAST, 10 },      { LXR_OP_GET, 3, 2, LAST, 11 }, { LXR_OP_NIL, 1, 0, 0, 12 },
    };
    const uint64_t told[] = { UNTOUCHED, 70, 70, 1, 2, 2, 1, 5, 6, 1, 0, 0, 77, 11, 12 };
    APPLIES(mutator, all, 15, LXR_E_INDEX, 13);
    for (size_t at = 0; at < 15; at++) IS(all[at].word, told[at]);
    APPLIES(mutator, all + 14, 1, LXR_OK, 1);
    APPLIES(mutator, all, 0, LXR_OK, 0);
    all[0] = (lxr_operation){ LXR_OP_ADD, 1, 0, 0, 5 };
    APPLIES(mutator, all, 2, LXR_E_NIL, 0);
    IS(all[0].word, 5);
    IS(lxr_mutator_nil(mutator, 3), LXR_OK);
}

/* What is done before the field that isn't there stays done. */
static void try_parts(lxr_mutator *mutator) {
    const uint32_t some[3] = { 0, 1, 15 }, loaded[3] = { 3, 4, 2 };
    const uint64_t data[3] = { 5, 6, 7 };
    uint64_t found[3] = { 0, 0, 9 };
    IS(lxr_mutator_new_with(mutator, 1, some, 1, data, 1), LXR_OK);
    IS(lxr_mutator_new_with(mutator, 2, some, 2, data, 2), LXR_OK);
    IS(lxr_mutator_get_many(mutator, 2, 0, found, 3), LXR_E_INDEX);
    IS(found[0] * 100 + found[1] * 10 + found[2], 569);
    IS(lxr_mutator_put_many(mutator, 2, 1, data, 2), LXR_E_INDEX);
    IS(lxr_mutator_get_many(mutator, 2, 0, found, 2), LXR_OK);
    IS(found[0] * 10 + found[1], 55);
    IS(lxr_mutator_store_many(mutator, 2, 1, some, 2), LXR_E_INDEX);
    IS(lxr_mutator_load_many(mutator, 2, 0, loaded, 3), LXR_E_INDEX);
    IS(lxr_mutator_same(mutator, 3, 4, &narrow), LXR_OK);
    IS(narrow, 1);
    IS(lxr_mutator_load_many(mutator, 2, 0, loaded + 1, 2), LXR_OK);
    IS(lxr_mutator_same(mutator, 2, 0, &narrow), LXR_OK);
    IS(narrow, 1);
    narrow = UNTOUCHED;
}

static void clear(lxr_mutator *mutator) {
    for (uint32_t at = 1; at < LXR_REGISTERS; at++) IS(lxr_mutator_nil(mutator, at), LXR_OK);
}

static void try_several(lxr_mutator *mutator) {
    const uint32_t bad[] = { 16, 17, 255, 256, 65536, LAST - 11 };
    clear(mutator);
    for (size_t at = 0; at < sizeof bad / sizeof bad[0]; at++) {
        try_registers_of_several(mutator, bad[at]);
        try_registers_of_operations(mutator, bad[at]);
    }
    try_registers_among_others(mutator);
    try_sizes_of_several(mutator);
    try_operations(mutator);
    apply_each(mutator);
    try_parts(mutator);
    clear(mutator);
}

static void try_counts(lxr_shared_heap *heap) {
    for (uint32_t what = 0; what < 20; what++) {
        uint32_t known = what <= LXR_COUNT_SWEPT || what == LXR_COUNT_FREE_BLOCKS || what == LXR_COUNT_ROOM ||
                         (what >= LXR_COUNT_COLLECTING && what <= LXR_COUNT_LAST_KIND);
        IS(lxr_shared_heap_count(heap, what, &wide), known ? LXR_OK : LXR_E_WHAT);
        if (!known) is_untouched(__LINE__);
        wide = UNTOUCHED;
    }
    REFUSED(lxr_shared_heap_count(heap, LAST, &wide), LXR_E_WHAT);
}

static uint64_t count(lxr_shared_heap *heap, uint32_t what) {
    uint64_t number = 0;
    IS(lxr_shared_heap_count(heap, what, &number), LXR_OK);
    return number;
}

static void try_rest(lxr_shared_heap *heap, lxr_mutator *mutator) {
    REFUSED(lxr_mutator_wake(mutator), LXR_E_AWAKE);
    IS(count(heap, LXR_COUNT_RESTING), 0);
    IS(lxr_mutator_rest(mutator), LXR_OK);
    IS(count(heap, LXR_COUNT_RESTING), 1);
    refuse_all(mutator, LXR_E_RESTS);
    REFUSED(lxr_mutator_nil(mutator, 0), LXR_E_RESTS);
    IS(lxr_mutator_wake(mutator), LXR_OK);
    REFUSED(lxr_mutator_wake(mutator), LXR_E_AWAKE);
    IS(count(heap, LXR_COUNT_RESTING), 0);
    IS(count(heap, LXR_COUNT_ENTERED), 1);
}

static void try_pauses(lxr_shared_heap *heap, lxr_mutator *mutator) {
    uint64_t before = count(heap, LXR_COUNT_PAUSES), collected = count(heap, LXR_COUNT_COLLECTING);
    IS(lxr_mutator_pause(mutator), LXR_OK);
    IS(count(heap, LXR_COUNT_PAUSES) > before, 1);
    IS(count(heap, LXR_COUNT_LAST_KIND) <= LXR_KIND_COLLECT, 1);
    IS(lxr_mutator_collect(mutator), LXR_OK);
    IS(count(heap, LXR_COUNT_COLLECTING) > collected, 1);
    IS(count(heap, LXR_COUNT_LAST_KIND), LXR_KIND_COLLECT);
    IS(lxr_mutator_poll(mutator), LXR_OK);
}

/* A new object with one reference. The mock says at random that there is no room. */
static void make_one(lxr_mutator *mutator, uint32_t dest, uint32_t words) {
    lxr_code code = LXR_E_FULL;
    while (code == LXR_E_FULL) code = lxr_mutator_new(mutator, dest, 1, words);
    IS(code, LXR_OK);
}

/* Memory of free blocks goes back in a pause: what is kept stays, and new objects have nil references and zeros where others lay. */
static void try_trimming(lxr_shared_heap *heap, lxr_mutator *mutator) {
    for (uint64_t times = 1; times < 4; times++) {
        uint64_t before = count(heap, LXR_COUNT_PAUSES);
        make_one(mutator, 1, 2);
        IS(lxr_mutator_put(mutator, 1, 1, times), LXR_OK);
        for (uint32_t made = 0; made < 200; made++) {
            make_one(mutator, 2, 100);
            IS(lxr_mutator_load(mutator, 3, 2, 0), LXR_OK);
            IS(lxr_mutator_same(mutator, 3, 15, &narrow), LXR_OK);
            IS(narrow, 1);
            for (uint32_t word = 0; word < 100; word += 33) {
                IS(lxr_mutator_add(mutator, 2, word, LAST, &wide), LXR_OK);
                IS(wide, 0);
            }
            IS(lxr_mutator_store(mutator, 2, 0, 1), LXR_OK);
            if (made % 50 == 20) IS(lxr_mutator_trim(mutator), LXR_OK);
        }
        IS(lxr_mutator_nil(mutator, 2), LXR_OK);
        IS(lxr_mutator_nil(mutator, 3), LXR_OK);
        IS(lxr_mutator_collect(mutator), LXR_OK);
        IS(lxr_mutator_trim(mutator), LXR_OK);
        IS(count(heap, LXR_COUNT_PAUSES) > before + 5, 1);
        IS(lxr_mutator_get(mutator, 1, 1, &wide), LXR_OK);
        IS(wide, times);
        narrow = UNTOUCHED;
        wide = UNTOUCHED;
    }
    IS(lxr_mutator_nil(mutator, 1), LXR_OK);
}

/* A mutator makes more operations than one may be ordered before names are renewed, while another rests. */
static void live_long(void) {
    lxr_shared_heap *heap = NULL;
    lxr_mutator *mutator = NULL, *other = NULL;
    lxr_shared_heap_settings settings = LXR_SHARED_HEAP_SETTINGS(8, 2);
    settings.every = LXR_MOST_EVERY;
    settings.trace = LXR_MOST_TRACE; /* so that no other pause collects */
    IS(lxr_shared_heap_open(&heap, &settings), LXR_OK);
    IS(lxr_mutator_enter(heap, &other), LXR_OK);
    IS(lxr_mutator_new(other, 1, 0, 1), LXR_OK);
    IS(lxr_mutator_put(other, 1, 0, 42), LXR_OK);
    IS(lxr_mutator_rest(other), LXR_OK);
    IS(lxr_mutator_enter(heap, &mutator), LXR_OK);
    for (uint32_t left = LONG; left--;) {
        if (lxr_mutator_nil(mutator, 1) != LXR_OK) IS(lxr_mutator_nil(mutator, 1), LXR_OK);
    }
    IS(count(heap, LXR_COUNT_COLLECTING) > 0, 1);
    IS(count(heap, LXR_COUNT_PAUSES) >= LONG / LXR_MOST_EVERY, 1);
    IS(lxr_mutator_leave(&mutator), LXR_OK);
    IS(lxr_mutator_wake(other), LXR_OK);
    IS(lxr_mutator_get(other, 1, 0, &wide), LXR_OK);
    IS(wide, 42);
    IS(lxr_mutator_leave(&other), LXR_OK);
    IS(lxr_shared_heap_close(&heap), LXR_OK);
}

int main(int words, char **unused) {
    (void)unused;
    lxr_shared_heap *heap = NULL;
    lxr_mutator *mutator = NULL;
    const lxr_shared_heap_settings settings = LXR_SHARED_HEAP_SETTINGS(16, 1);
    try_null();
    try_sizes();
    try_first();
    try_second();
    try_third();
    try_rooms();
    try_settings();
    try_registers();
    try_runs();
    try_blocks();
    try_in_use(16);
    try_in_use(64);
    try_in_use(256);
    try_handles();
    IS(lxr_shared_heap_open(&heap, &settings), LXR_OK);
    IS(lxr_mutator_enter(heap, &mutator), LXR_OK);
    try_numbers(mutator, 16);
    try_world(mutator);
    try_fields(mutator);
    try_several(mutator);
    try_counts(heap);
    try_rest(heap, mutator);
    try_pauses(heap, mutator);
    try_trimming(heap, mutator);
    IS(lxr_mutator_leave(&mutator), LXR_OK);
    IS(lxr_shared_heap_close(&heap), LXR_OK);
    if (words > 1) live_long();
    printf("threads_hostile: %lu calls%s\n", checks, words > 1 ? ", and a long life" : "");
    return 0;
}
