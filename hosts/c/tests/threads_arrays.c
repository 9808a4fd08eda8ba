/*
 * threads_arrays.c: arrays and words of lxr_threads.h against plain C, by 1 to 8 threads. SPDX: MIT OR Apache-2.0
 *
 * usage: threads_arrays SECONDS [SEED]     random rounds for so long, each from a number of its own on; with 0 seconds one round, from SEED
 *
 * Linked with -Wl,--wrap=malloc,--wrap=calloc,--wrap=realloc, so that each request for memory comes through here. First come calls that a
 * careful host never makes; then arrays that find no room for one of their parts, because a heap is full or memory is refused. In a round each
 * thread has arrays and words of its own, and each answer has to be that of a model. What threads share has to keep what they agree on: tokens
 * that are swapped into and out of an array stay as many as they were; and elements that are filled, copied and loaded at once are nil, or hold
 * objects that were made whole.
 */
#include "../lxr_threads.h"

#include <inttypes.h>
#include <pthread.h>
#include <stdarg.h>
#include <stdbool.h>
#include <stdio.h>
#include <stdlib.h>
#include <string.h>
#include <time.h>

/* Registers: the world, a token, what is shared, an element; from OWN on a thread's own things. The last is always nil. */
enum { WORLD, TOKEN, SHARED, FOUND, OWN, THINGS = 8 };

/* References of the world, and lengths of what they refer to. */
enum { TOKENS, BOARD, TOKEN_PLACES = 1500, BOARD_LENGTH = 2100 };

enum { PART = LXR_MOST_REFS, LONGEST = 10000, MOST_PLAYERS = 8, CALLS = 300 };

#define LAST UINT32_MAX

enum sort { NOTHING, PLAIN, ARRAY, WORDS };

/* An object of the model: one without fields, an array, or words. */
struct thing {
    enum sort sort;
    uint32_t length;
    struct thing *older, **element;
    uint64_t *word;
};

/* A thread of the round. */
struct player {
    uint32_t number;
    uint64_t dice, token, calls, fulls, made;
    lxr_mutator *mutator;
    struct thing *of[OWN + THINGS], *newest;
};

static struct {
    uint64_t seed;
    lxr_shared_heap *heap;
    uint32_t players, tokens, registers;
    struct player player[MOST_PLAYERS];
} now;

static struct { uint64_t rounds, calls, fulls, refused, pauses; } sums;

static void differ(const struct player *player, const char *form, ...) {
    va_list parts;
    va_start(parts, form);
    fprintf(stderr, "threads_arrays: seed %" PRIu64 ", thread %" PRIu32 ", call %" PRIu64 ": ", now.seed, player->number, player->calls);
    vfprintf(stderr, form, parts);
    fputc('\n', stderr);
    va_end(parts);
    _Exit(1);
}

static void agree(const struct player *player, const char *what, uint64_t found, uint64_t wanted) {
    if (found != wanted) differ(player, "%s: %" PRIu64 ", and %" PRIu64 " is wanted", what, found, wanted);
}

static void done(const struct player *player, const char *what, lxr_code code) {
    if (code != LXR_OK) differ(player, "%s: %s", what, lxr_message(code));
}

static void check(uint64_t found, uint64_t wanted, const char *what, int line) {
    if (found == wanted) return;
    fprintf(stderr, "threads_arrays.c:%d: %s is %" PRIu64 ", not %" PRIu64 "\n", line, what, found, wanted);
    _Exit(1);
}

#define IS(what, wanted) check(what, wanted, #what, __LINE__)

/* ---- Memory ---- */

/* How many requests are granted while they are watched, by one thread, and how many were made. */
static struct {
    size_t granted, asked;
    bool watched;
} memory;

void *__real_malloc(size_t bytes);
void *__real_calloc(size_t count, size_t bytes);
void *__real_realloc(void *old, size_t bytes);
void *__wrap_malloc(size_t bytes);
void *__wrap_calloc(size_t count, size_t bytes);
void *__wrap_realloc(void *old, size_t bytes);

static bool refuse(void) { return memory.watched && memory.asked++ >= memory.granted; }

void *__wrap_malloc(size_t bytes) { return refuse() ? NULL : __real_malloc(bytes); }

void *__wrap_calloc(size_t count, size_t bytes) { return refuse() ? NULL : __real_calloc(count, bytes); }

void *__wrap_realloc(void *old, size_t bytes) { return refuse() ? NULL : __real_realloc(old, bytes); }

/* ---- Calls that a careful host never makes ---- */

static lxr_mutator *open_heap(uint32_t blocks, uint32_t registers) {
    lxr_mutator *mutator = NULL;
    lxr_shared_heap_settings settings = LXR_SHARED_HEAP_SETTINGS(blocks, 2);
    settings.registers = registers;
    settings.helpers = 0;
    now.heap = NULL;
    IS(lxr_shared_heap_open(&now.heap, &settings), LXR_OK);
    IS(lxr_mutator_enter(now.heap, &mutator), LXR_OK);
    return mutator;
}

static void close_heap(lxr_mutator *mutator) {
    IS(lxr_mutator_leave(&mutator), LXR_OK);
    IS(lxr_shared_heap_close(&now.heap), LXR_OK);
}

/* Makes an array in a heap that has room for it; the mock of the archive may say once and again that it is full. */
static void make_array(lxr_mutator *mutator, uint32_t dest, uint32_t length) {
    lxr_code code = LXR_E_FULL;
    for (uint32_t left = 1000; code == LXR_E_FULL && left--;) code = lxr_mutator_array_new(mutator, dest, length);
    IS(code, LXR_OK);
}

static void make_words(lxr_mutator *mutator, uint32_t dest, uint32_t length) {
    lxr_code code = LXR_E_FULL;
    for (uint32_t left = 1000; code == LXR_E_FULL && left--;) code = lxr_mutator_words_new(mutator, dest, length);
    IS(code, LXR_OK);
}

/* Each array call with these registers, which all refuse. */
static void refuse_arrays(lxr_mutator *mutator, uint32_t base, uint32_t other, lxr_code code) {
    uint32_t length = 7;
    IS(lxr_mutator_array_length(mutator, base, &length), code);
    IS(lxr_mutator_array_load(mutator, other, base, LAST), code);
    IS(lxr_mutator_array_store(mutator, base, LAST, other), code);
    IS(lxr_mutator_array_swap(mutator, other, base, LAST, other), code);
    IS(lxr_mutator_array_fill(mutator, base, LAST, LAST, other), code);
    IS(lxr_mutator_array_copy(mutator, base, LAST, other, LAST, LAST), code);
    IS(lxr_mutator_array_copy(mutator, other, LAST, base, LAST, LAST), code);
    IS(length, 7);
}

static void refuse_words(lxr_mutator *mutator, uint32_t base, lxr_code code) {
    uint64_t word = 7;
    uint32_t length = 7;
    IS(lxr_mutator_words_length(mutator, base, &length), code);
    IS(lxr_mutator_words_get(mutator, base, LAST, &word), code);
    IS(lxr_mutator_words_put(mutator, base, LAST, 1), code);
    IS(lxr_mutator_words_read(mutator, base, LAST, &word, SIZE_MAX), code);
    IS(lxr_mutator_words_write(mutator, base, LAST, &word, SIZE_MAX), code);
    IS(lxr_mutator_words_read(mutator, base, 0, &word, 0), code);
    IS(length, 7);
    IS(word, 7);
}

static bool is_same(lxr_mutator *mutator, uint32_t left, uint32_t right) {
    uint32_t same = 0;
    IS(lxr_mutator_same(mutator, left, right, &same), LXR_OK);
    return same != 0;
}

/* Registers that there aren't, the library's own among them, in calls of arrays and words and in all others. */
static void refuse_register(lxr_mutator *mutator, uint32_t n) {
    uint64_t word = 0;
    uint32_t same = 0;
    refuse_arrays(mutator, n, 1, LXR_E_REGISTER);
    refuse_words(mutator, n, LXR_E_REGISTER);
    IS(lxr_mutator_array_new(mutator, n, LAST), LXR_E_REGISTER);
    IS(lxr_mutator_array_load(mutator, n, 1, 0), LXR_E_REGISTER);
    IS(lxr_mutator_array_store(mutator, 1, 0, n), LXR_E_REGISTER);
    IS(lxr_mutator_array_swap(mutator, n, 1, 0, 1), LXR_E_REGISTER);
    IS(lxr_mutator_array_swap(mutator, 1, 1, 0, n), LXR_E_REGISTER);
    IS(lxr_mutator_array_fill(mutator, 1, 0, LAST, n), LXR_E_REGISTER);
    IS(lxr_mutator_words_new(mutator, n, LAST), LXR_E_REGISTER);
    IS(lxr_mutator_new(mutator, n, LAST, LAST), LXR_E_REGISTER);
    IS(lxr_mutator_load(mutator, n, 1, 0), LXR_E_REGISTER);
    IS(lxr_mutator_load(mutator, 1, n, 0), LXR_E_REGISTER);
    IS(lxr_mutator_store(mutator, n, 0, 1), LXR_E_REGISTER);
    IS(lxr_mutator_store(mutator, 1, 0, n), LXR_E_REGISTER);
    IS(lxr_mutator_swap(mutator, 1, 1, 0, n), LXR_E_REGISTER);
    IS(lxr_mutator_get(mutator, n, 0, &word), LXR_E_REGISTER);
    IS(lxr_mutator_put(mutator, n, 0, 1), LXR_E_REGISTER);
    IS(lxr_mutator_add(mutator, n, 0, 1, &word), LXR_E_REGISTER);
    IS(lxr_mutator_same(mutator, 1, n, &same), LXR_E_REGISTER);
    IS(lxr_mutator_move(mutator, 1, n), LXR_E_REGISTER);
    IS(lxr_mutator_nil(mutator, n), LXR_E_REGISTER);
}

static void try_numbers(uint32_t registers) {
    const uint32_t bad[] = { registers, registers + 1, registers + 2, 256, 257, LAST };
    lxr_mutator *mutator = open_heap(8, registers);
    for (size_t at = 0; at < sizeof bad / sizeof *bad; at++) refuse_register(mutator, bad[at]);
    IS(lxr_mutator_array_new(mutator, 0, 1), LXR_E_REGISTER);
    IS(lxr_mutator_array_load(mutator, 0, 0, 0), LXR_E_REGISTER);
    IS(lxr_mutator_array_swap(mutator, 0, 0, 0, 1), LXR_E_REGISTER);
    IS(lxr_mutator_words_new(mutator, 0, 1), LXR_E_REGISTER);
    IS(lxr_mutator_words_new(mutator, 2, LXR_MOST_WORDS + 1), LXR_E_SIZE);
    IS(lxr_mutator_words_new(mutator, 2, LAST), LXR_E_SIZE);
    refuse_words(mutator, 2, LXR_E_NIL);
    if (registers <= 254) {
        refuse_arrays(mutator, 2, 2, LXR_E_NIL);
        IS(lxr_mutator_array_new(mutator, 2, LXR_MOST_ELEMENTS + 1), LXR_E_SIZE);
        IS(lxr_mutator_array_new(mutator, 2, LAST), LXR_E_SIZE);
    } else {
        refuse_arrays(mutator, 0, 2, LXR_E_REGISTER);
        IS(lxr_mutator_array_new(mutator, 2, 1), LXR_E_REGISTER);
        make_words(mutator, 2, 5);
        IS(lxr_mutator_words_put(mutator, 2, 4, 1), LXR_OK);
    }
    IS(lxr_mutator_rest(mutator), LXR_OK);
    refuse_arrays(mutator, 0, LAST, LXR_E_RESTS);
    refuse_words(mutator, LAST, LXR_E_RESTS);
    IS(lxr_mutator_array_new(mutator, 0, LAST), LXR_E_RESTS);
    IS(lxr_mutator_wake(mutator), LXR_OK);
    close_heap(mutator);
    refuse_arrays(NULL, LAST, LAST, LXR_E_NO_HEAP);
    refuse_words(NULL, LAST, LXR_E_NO_HEAP);
}

/* The ends of an array of such a length. */
static void try_ends(uint32_t length) {
    static const uint32_t beyond[] = { 0, 1, PART, 1u << 20, 1u << 31 };
    lxr_mutator *mutator = open_heap(24, 16);
    uint32_t found = 7;
    make_array(mutator, 1, length);
    IS(lxr_mutator_array_length(mutator, 1, &found), LXR_OK);
    IS(found, length);
    for (size_t at = 0; at < sizeof beyond / sizeof *beyond; at++) {
        uint32_t index = length + beyond[at];
        IS(lxr_mutator_array_load(mutator, 2, 1, index), LXR_E_INDEX);
        IS(lxr_mutator_array_store(mutator, 1, index, 0), LXR_E_INDEX);
        IS(lxr_mutator_array_swap(mutator, 2, 1, index, 0), LXR_E_INDEX);
        IS(lxr_mutator_array_fill(mutator, 1, index, beyond[at] ? 0 : 1, 0), LXR_E_INDEX);
        IS(lxr_mutator_array_fill(mutator, 1, 0, index + 1, 0), LXR_E_INDEX);
        IS(lxr_mutator_array_fill(mutator, 1, index, LAST, 0), LXR_E_INDEX);
        IS(lxr_mutator_array_copy(mutator, 1, 0, 1, index, beyond[at] ? 0 : 1), LXR_E_INDEX);
        IS(lxr_mutator_array_copy(mutator, 1, index, 1, 0, beyond[at] ? 0 : 1), LXR_E_INDEX);
    }
    IS(lxr_mutator_array_fill(mutator, 1, length, 0, 0), LXR_OK);
    IS(lxr_mutator_array_copy(mutator, 1, length, 1, 0, 0), LXR_OK);
    for (uint32_t index = 0; index < length; index++) {
        IS(lxr_mutator_array_load(mutator, 2, 1, index), LXR_OK);
        IS(is_same(mutator, 2, 15), true);
    }
    if (length) IS(lxr_mutator_array_swap(mutator, 2, 1, length - 1, 0), LXR_OK);
    if (length) IS(lxr_mutator_array_swap(mutator, 2, 1, length - 1, 15), LXR_OK);
    if (length) IS(is_same(mutator, 2, 0), true);
    close_heap(mutator);
}

/* The ends of so many words. */
static void try_ends_of_words(uint32_t length) {
    static const uint32_t beyond[] = { 0, 1, PART, 1u << 20, 1u << 31 };
    lxr_mutator *mutator = open_heap(8, 256);
    uint64_t words[PART + 1] = { 7, 7 };
    uint32_t found = 7;
    make_words(mutator, 1, length);
    IS(lxr_mutator_words_length(mutator, 1, &found), LXR_OK);
    IS(found, length);
    for (size_t at = 0; at < sizeof beyond / sizeof *beyond; at++) {
        IS(lxr_mutator_words_get(mutator, 1, length + beyond[at], words), LXR_E_INDEX);
        IS(lxr_mutator_words_put(mutator, 1, length + beyond[at], 1), LXR_E_INDEX);
        IS(lxr_mutator_words_read(mutator, 1, length + beyond[at], words, beyond[at] ? 0 : 1), LXR_E_INDEX);
        IS(lxr_mutator_words_write(mutator, 1, 0, words, (size_t)length + 1 + beyond[at]), LXR_E_INDEX);
        IS(lxr_mutator_words_write(mutator, 1, length + beyond[at], words, SIZE_MAX), LXR_E_INDEX);
    }
    IS(words[0], 7);
    IS(lxr_mutator_words_read(mutator, 1, length, words, 0), LXR_OK);
    IS(lxr_mutator_words_read(mutator, 1, 0, words, length), LXR_OK);
    for (uint32_t at = 0; at < length; at++) IS(words[at], 0);
    close_heap(mutator);
}

/* Objects that were not made as arrays are taken by their shape. */
static void try_other_objects(void) {
    lxr_mutator *mutator = open_heap(8, 16);
    const uint32_t nils[3] = { 15, 15, 15 };
    uint32_t length = 0;
    uint64_t word = UINT64_MAX;
    lxr_code code = LXR_E_FULL;
    while (code == LXR_E_FULL) code = lxr_mutator_new_with(mutator, 1, nils, 3, &word, 1);
    IS(code, LXR_OK);
    IS(lxr_mutator_array_length(mutator, WORLD, &length), LXR_OK);
    IS(length, LXR_WORLD_REFS);
    IS(lxr_mutator_array_length(mutator, 1, &length), LXR_OK);
    IS(length, 3 * PART);
    IS(lxr_mutator_array_load(mutator, 9, 1, 3 * PART), LXR_E_INDEX);
    IS(lxr_mutator_array_fill(mutator, 1, 3 * PART, 1, 0), LXR_E_INDEX);
    IS(lxr_mutator_array_fill(mutator, 1, 0, 3 * PART + 1, 0), LXR_E_INDEX);
    IS(lxr_mutator_array_fill(mutator, 1, 0, 3 * PART, 0), LXR_E_NIL);
    IS(lxr_mutator_array_load(mutator, 9, 1, 3 * PART - 1), LXR_E_NIL);
    IS(lxr_mutator_array_store(mutator, 1, 0, 0), LXR_E_NIL);
    IS(lxr_mutator_array_fill(mutator, 1, PART, 1, 0), LXR_E_NIL);
    IS(lxr_mutator_array_fill(mutator, 1, PART, 0, 0), LXR_OK);
    make_array(mutator, 2, PART - 1);
    IS(lxr_mutator_store(mutator, 1, 1, 2), LXR_OK);
    IS(lxr_mutator_array_store(mutator, 1, 2 * PART - 2, 0), LXR_OK);
    IS(lxr_mutator_array_load(mutator, 9, 1, 2 * PART - 2), LXR_OK);
    IS(is_same(mutator, 0, 9), true);
    IS(lxr_mutator_array_load(mutator, 9, 1, 2 * PART - 1), LXR_E_INDEX);
    IS(is_same(mutator, 0, 9), true);
    IS(lxr_mutator_array_fill(mutator, 1, PART, PART, 0), LXR_E_INDEX);
    IS(lxr_mutator_array_copy(mutator, 0, 0, 1, 2 * PART - 2, 2), LXR_E_INDEX);
    IS(lxr_mutator_array_load(mutator, 9, 0, 0), LXR_OK);
    IS(is_same(mutator, 15, 9), true);
    make_array(mutator, 1, 3 * PART);
    IS(lxr_mutator_put(mutator, 1, 0, 1500), LXR_OK);
    IS(lxr_mutator_array_length(mutator, 1, &length), LXR_OK);
    IS(length, 1500);
    IS(lxr_mutator_array_store(mutator, 1, 1499, 0), LXR_OK);
    IS(lxr_mutator_array_store(mutator, 1, 1500, 0), LXR_E_INDEX);
    IS(lxr_mutator_array_fill(mutator, 1, 1400, 101, 0), LXR_E_INDEX);
    IS(lxr_mutator_array_copy(mutator, 1, 0, 1, 1400, 101), LXR_E_INDEX);
    close_heap(mutator);
}

/* Two arrays that share a part are copied one element after another; and lengths of both are looked at before parts of either. */
static void try_shared_part(void) {
    lxr_mutator *mutator = open_heap(8, 16);
    make_array(mutator, 1, 2 * PART);
    IS(lxr_mutator_load(mutator, 2, 1, 1), LXR_OK);
    IS(lxr_mutator_array_store(mutator, 2, 0, 0), LXR_OK);
    IS(lxr_mutator_array_copy(mutator, 2, 1, 1, PART, 3), LXR_OK);
    for (uint32_t index = 0; index < 5; index++) {
        IS(lxr_mutator_array_load(mutator, 3, 1, PART + index), LXR_OK);
        IS(is_same(mutator, 0, 3), index < 4);
    }
    IS(lxr_mutator_store(mutator, 1, 0, 15), LXR_OK);
    IS(lxr_mutator_array_copy(mutator, 1, 0, 2, 0, PART + 1), LXR_E_INDEX);
    IS(lxr_mutator_array_copy(mutator, 1, 0, 2, 0, 1), LXR_E_NIL);
    IS(lxr_mutator_array_copy(mutator, 2, 0, 1, 0, 1), LXR_E_NIL);
    close_heap(mutator);
}

/* One of the calls that go by the library's registers, whose arrays are in the registers 1 and 2. */
static lxr_code call_one(lxr_mutator *mutator, int which) {
    uint32_t length = 0;
    switch (which) {
    case 0: return lxr_mutator_array_load(mutator, 3, 1, 2 * PART);
    case 1: return lxr_mutator_array_store(mutator, 1, PART, 0);
    case 2: return lxr_mutator_array_swap(mutator, 3, 1, PART, 0);
    case 3: return lxr_mutator_array_fill(mutator, 1, 5, 2 * PART, 0);
    case 4: return lxr_mutator_array_copy(mutator, 1, 0, 1, PART - 3, PART);
    case 5: return lxr_mutator_array_copy(mutator, 2, 7, 1, PART - 3, PART);
    case 6: return lxr_mutator_array_length(mutator, 1, &length);
    case 7: return lxr_mutator_array_load(mutator, 3, 1, 5000);
    default: return lxr_mutator_array_copy(mutator, 2, 7, 1, PART - 3, 5 * PART);
    }
}

/* The mock of the archive reclaims nothing. */
#ifdef MOCK_PASSES
static const bool mocked = true;
#else
static const bool mocked = false;
#endif

/* The objects that the last pause reclaimed. */
static uint64_t reclaimed(void) {
    uint64_t dead = 0, swept = 0;
    IS(lxr_shared_heap_count(now.heap, LXR_COUNT_DEAD, &dead), LXR_OK);
    IS(lxr_shared_heap_count(now.heap, LXR_COUNT_SWEPT, &swept), LXR_OK);
    return dead + swept;
}

/* After each call nothing is kept but what the host's registers hold. */
static void try_what_is_kept(void) {
    for (int which = 0; which < 9; which++) {
        lxr_mutator *mutator = open_heap(32, 16);
        make_array(mutator, 1, 4 * PART);
        make_array(mutator, 2, 4 * PART);
        IS(lxr_mutator_collect(mutator), LXR_OK);
        IS(call_one(mutator, which), which >= 7 ? LXR_E_INDEX : LXR_OK);
        for (uint32_t arrays = 2; arrays--;) {
            IS(lxr_mutator_registers_in_use(mutator, arrays + 1), LXR_OK);
            IS(lxr_mutator_collect(mutator), LXR_OK);
            IS(mocked || reclaimed() == 5, true);
        }
        close_heap(mutator);
    }
}

/* ---- No room ---- */

/* Register 1 holds the world still, where an array found no room. */
static void is_as_before(lxr_mutator *mutator) {
    IS(is_same(mutator, 1, WORLD), true);
    for (uint32_t at = 4; at < LXR_REGISTERS; at++) IS(is_same(mutator, at, 15), true);
    IS(lxr_mutator_array_load(mutator, 4, 1, LXR_WORLD_REFS - 1), LXR_OK);
}

/*
 * Makes an array of eight parts beside so many objects as large as one: full comes at each of its parts. Once they are let go of there is room
 * for twelve, so nothing keeps those that were made.
 */
static bool make_beside(uint32_t held) {
    lxr_mutator *mutator = open_heap(4, 16);
    bool fits = true;
    IS(lxr_mutator_move(mutator, 1, WORLD), LXR_OK);
    for (uint32_t at = 0; fits && at < held; at++) {
        fits = lxr_mutator_new(mutator, 2, PART, 0) == LXR_OK;
        if (fits) IS(lxr_mutator_store(mutator, 2, 0, 3), LXR_OK);
        if (fits) IS(lxr_mutator_move(mutator, 3, 2), LXR_OK);
    }
    IS(lxr_mutator_nil(mutator, 2), LXR_OK);
    lxr_code code = lxr_mutator_array_new(mutator, 1, 7 * PART + 1000);
    if (code != LXR_OK) {
        IS(code, LXR_E_FULL);
        sums.fulls++;
        is_as_before(mutator);
    }
    IS(lxr_mutator_nil(mutator, 1), LXR_OK);
    IS(lxr_mutator_nil(mutator, 3), LXR_OK);
    make_array(mutator, 1, 12 * PART);
    close_heap(mutator);
    return fits && held < 20;
}

/* The request for memory of each object of an array is refused; or none is made. */
static void try_refused(void) {
    lxr_mutator *mutator = open_heap(32, 16);
    lxr_code code = LXR_E_FULL;
    IS(lxr_mutator_move(mutator, 1, WORLD), LXR_OK);
    for (size_t granted = 0; code != LXR_OK; granted++) {
        memory.granted = granted;
        memory.asked = 0;
        memory.watched = true;
        code = lxr_mutator_array_new(mutator, 1, 8 * PART);
        memory.watched = false;
        if (code == LXR_OK) continue;
        if (code == LXR_E_LOST) break;
        IS(code, LXR_E_FULL);
        sums.refused++;
        is_as_before(mutator);
    }
    close_heap(mutator);
}

/* ---- Numbers ---- */

static uint64_t draw(uint64_t *dice) {
    *dice = *dice * 6364136223846793005u + 1442695040888963407u;
    return *dice >> 33;
}

static uint32_t below(struct player *player, uint32_t end) { return (uint32_t)(draw(&player->dice) % end); }

static bool one_in(struct player *player, uint32_t times) { return below(player, times) == 0; }

static uint32_t some_length(struct player *player) {
    static const uint32_t borders[] = { 0, 1, 1022, 1023, 1024, 2046, 2047 };
    if (one_in(player, 3)) return borders[below(player, sizeof borders / sizeof *borders)];
    return one_in(player, 12) ? below(player, LONGEST) : below(player, 30);
}

/* An index of so many, or now and then one behind them. */
static uint32_t some_index(struct player *player, uint32_t length) {
    if (length == 0 || one_in(player, 40)) return one_in(player, 2) ? length + below(player, 3) : LAST - below(player, 3);
    uint32_t border = PART * below(player, 3) + below(player, 3);
    return one_in(player, 3) && border && border <= length ? border - 1 : below(player, length);
}

/* How many from an index on: mostly few, and now and then more than there are. */
static uint32_t some_count(struct player *player, uint32_t first, uint32_t length) {
    if (one_in(player, 40)) return one_in(player, 2) ? LAST - below(player, 3) : length + 1;
    if (first >= length) return below(player, 3);
    uint32_t rest = length - first;
    return one_in(player, 8) ? rest : below(player, (rest < 20 ? rest : 20) + 1);
}

static bool is_part(uint32_t first, uint32_t count, uint32_t length) { return first <= length && count <= length - first; }

/* ---- What is a thread's own ---- */

static struct thing *make_thing(struct player *player, enum sort sort, uint32_t length) {
    struct thing *made = calloc(1, sizeof *made);
    if (!made) differ(player, "no memory for the test");
    made->sort = sort;
    made->length = length;
    made->older = player->newest;
    made->element = calloc(sort == ARRAY ? length + 1 : 1, sizeof *made->element);
    made->word = calloc(sort == WORDS ? length + 1 : 1, sizeof *made->word);
    if (!made->element || !made->word) differ(player, "no memory for the test");
    return player->newest = made;
}

static void free_things(struct player *player) {
    while (player->newest) {
        struct thing *it = player->newest;
        player->newest = it->older;
        free(it->element);
        free(it->word);
        free(it);
    }
}

static uint32_t some_register(struct player *player) { return OWN + below(player, THINGS); }

static enum sort sort_of(const struct player *player, uint32_t base) { return player->of[base] ? player->of[base]->sort : NOTHING; }

/* A register of the thread's own, mostly one that holds such a thing, and none that holds one for calls of the other sort. */
static uint32_t some_base(struct player *player, enum sort sort) {
    uint32_t base = some_register(player);
    for (int tries = 0; tries < 12 && sort_of(player, base) != sort; tries++) base = some_register(player);
    if (sort_of(player, base) != (sort == ARRAY ? WORDS : ARRAY)) return base;
    done(player, "nil", lxr_mutator_nil(player->mutator, base));
    player->of[base] = NULL;
    return base;
}

static uint32_t length_of(const struct player *player, uint32_t base) { return player->of[base] ? player->of[base]->length : 0; }

static lxr_code expected(const struct player *player, uint32_t base, bool fits) {
    return !player->of[base] ? LXR_E_NIL : fits ? LXR_OK : LXR_E_INDEX;
}

/* A register holds what it does in the model: those that hold one thing are the same. */
static void agree_on(struct player *player, uint32_t left) {
    uint32_t right = some_register(player), same = 7;
    done(player, "same", lxr_mutator_same(player->mutator, left, right, &same));
    agree(player, "same", same, player->of[left] == player->of[right]);
    done(player, "same", lxr_mutator_same(player->mutator, left, now.registers - 1, &same));
    agree(player, "whether it is nil", same, player->of[left] == NULL);
}

/* Where there was no room all is as before, and some registers let go of what they hold. */
static void meet_full(struct player *player) {
    player->fulls++;
    agree_on(player, some_register(player));
    for (uint32_t at = OWN; at < OWN + THINGS; at++) {
        if (one_in(player, 3)) continue;
        done(player, "nil", lxr_mutator_nil(player->mutator, at));
        player->of[at] = NULL;
    }
}

static lxr_code make(struct player *player, enum sort sort, uint32_t dest, uint32_t length) {
    switch (sort) {
    case ARRAY: return lxr_mutator_array_new(player->mutator, dest, length);
    case WORDS: return lxr_mutator_words_new(player->mutator, dest, length);
    default: return lxr_mutator_new(player->mutator, dest, 0, 0);
    }
}

static void play_new(struct player *player) {
    enum sort sort = PLAIN + below(player, 3);
    uint32_t dest = some_register(player), length = sort == PLAIN ? 0 : some_length(player);
    lxr_code wanted = sort == WORDS && length > LXR_MOST_WORDS ? LXR_E_SIZE : LXR_OK, code = make(player, sort, dest, length);
    if (code == LXR_E_FULL && wanted == LXR_OK) {
        meet_full(player);
        return;
    }
    agree(player, "new", code, wanted);
    if (code == LXR_OK) player->of[dest] = make_thing(player, sort, length);
}

static void play_length(struct player *player) {
    bool words = one_in(player, 2);
    uint32_t base = some_base(player, words ? WORDS : ARRAY), length = 7;
    lxr_code code =
        words ? lxr_mutator_words_length(player->mutator, base, &length) : lxr_mutator_array_length(player->mutator, base, &length);
    agree(player, "the code of length", code, expected(player, base, true));
    agree(player, "a length", length, player->of[base] ? length_of(player, base) : 7);
}

static void play_element(struct player *player) {
    uint32_t base = some_base(player, ARRAY), other = some_register(player), dest = some_register(player);
    uint32_t index = some_index(player, length_of(player, base)), which = below(player, 4);
    struct thing *it = player->of[base], *source = player->of[other];
    bool fits = index < length_of(player, base);
    lxr_code code = which == 0   ? lxr_mutator_array_load(player->mutator, dest, base, index)
                    : which == 1 ? lxr_mutator_array_swap(player->mutator, dest, base, index, other)
                                 : lxr_mutator_array_store(player->mutator, base, index, other);
    agree(player, "load, swap or store", code, expected(player, base, fits));
    if (!fits) return;
    if (which < 2) player->of[dest] = it->element[index];
    if (which > 0) it->element[index] = source;
    agree_on(player, dest);
}

static void play_fill(struct player *player) {
    uint32_t base = some_base(player, ARRAY), source = some_register(player), length = length_of(player, base);
    uint32_t first = some_index(player, length), count = some_count(player, first, length);
    bool fits = is_part(first, count, length);
    agree(player, "fill", lxr_mutator_array_fill(player->mutator, base, first, count, source), expected(player, base, fits));
    for (uint32_t at = 0; player->of[base] && fits && at < count; at++) player->of[base]->element[first + at] = player->of[source];
}

static void play_copy(struct player *player) {
    uint32_t to = some_base(player, ARRAY), from = one_in(player, 2) ? to : some_base(player, ARRAY);
    struct thing *into = player->of[to], *out = player->of[from];
    uint32_t room = length_of(player, to), length = length_of(player, from), first = some_index(player, length);
    uint32_t at = one_in(player, 3) ? some_index(player, room) : first + 2 - below(player, 5);
    uint32_t count = some_count(player, first > at ? first : at, room < length ? room : length);
    lxr_code written = expected(player, to, is_part(at, count, room)), read = expected(player, from, is_part(first, count, length));
    lxr_code wanted = written == LXR_OK ? read : written;
    agree(player, "copy", lxr_mutator_array_copy(player->mutator, to, at, from, first, count), wanted);
    if (wanted == LXR_OK && count) memmove(&into->element[at], &out->element[first], count * sizeof *into->element);
}

static void play_words(struct player *player) {
    uint64_t buffer[PART] = { 0 };
    uint32_t base = some_base(player, WORDS), length = length_of(player, base), first = some_index(player, length);
    uint32_t count = some_count(player, first, length);
    struct thing *it = player->of[base];
    bool fits = is_part(first, count, length), writes = one_in(player, 2);
    for (uint32_t at = 0; writes && fits && at < count; at++) buffer[at] = draw(&player->dice);
    lxr_code code = writes ? lxr_mutator_words_write(player->mutator, base, first, buffer, count)
                           : lxr_mutator_words_read(player->mutator, base, first, buffer, count);
    agree(player, "words_read or words_write", code, expected(player, base, fits));
    if (!it || !fits || !count) return;
    if (writes) memcpy(&it->word[first], buffer, count * sizeof *buffer);
    if (memcmp(&it->word[first], buffer, count * sizeof *buffer) != 0) differ(player, "words_read: other words");
}

static void play_word(struct player *player) {
    uint32_t base = some_base(player, WORDS), index = some_index(player, length_of(player, base));
    uint64_t word = draw(&player->dice), before = word;
    bool fits = index < length_of(player, base), puts = one_in(player, 2);
    lxr_code code =
        puts ? lxr_mutator_words_put(player->mutator, base, index, word) : lxr_mutator_words_get(player->mutator, base, index, &word);
    agree(player, "words_get or words_put", code, expected(player, base, fits));
    if (fits && puts) player->of[base]->word[index] = word;
    agree(player, "a word", word, fits ? player->of[base]->word[index] : before);
}

static void play_registers(struct player *player) {
    uint32_t dest = some_register(player), source = some_register(player);
    bool lets_go = one_in(player, 3);
    done(player, "nil or move", lets_go ? lxr_mutator_nil(player->mutator, dest) : lxr_mutator_move(player->mutator, dest, source));
    player->of[dest] = lets_go ? NULL : player->of[source];
    agree_on(player, dest);
}

/* ---- What threads share ---- */

/* What an object on the board has in its second word, by what the first has. */
static uint64_t seal(uint64_t word) { return word * 0x9E3779B97F4A7C15u + 1; }

static void load_shared(struct player *player, uint32_t which) {
    done(player, "load", lxr_mutator_load(player->mutator, SHARED, WORLD, which));
}

/* Swaps the token that the thread holds, if it holds one, into an array; what it finds there it holds. */
static void play_token(struct player *player) {
    uint32_t index = PART - 3 + below(player, 6);
    load_shared(player, TOKENS);
    done(player, "array_swap", lxr_mutator_array_swap(player->mutator, TOKEN, SHARED, index, TOKEN));
    lxr_code code = lxr_mutator_words_get(player->mutator, TOKEN, 0, &player->token);
    if (code == LXR_E_NIL)
        player->token = 0;
    else
        done(player, "words_get of a token", code);
}

static void bring_token(struct player *player) {
    while (player->token) play_token(player);
}

/* What register FOUND holds is whole, if it isn't nil. */
static void is_whole(struct player *player) {
    uint64_t words[2] = { 0, 0 };
    lxr_code code = lxr_mutator_words_read(player->mutator, FOUND, 0, words, 2);
    if (code == LXR_E_NIL) return;
    done(player, "words_read of an object on the board", code);
    agree(player, "an object on the board", words[1], seal(words[0]));
}

/* Fills a part of the board, copies one, or looks at an element. */
static void play_board(struct player *player) {
    uint32_t first = below(player, BOARD_LENGTH - 30), at = below(player, BOARD_LENGTH - 30), count = below(player, 31);
    uint64_t words[2] = { ++player->made, seal(player->made) };
    load_shared(player, BOARD);
    switch (below(player, 3)) {
    case 0:
        if (lxr_mutator_words_new(player->mutator, FOUND, 2) == LXR_E_FULL) break;
        done(player, "words_write", lxr_mutator_words_write(player->mutator, FOUND, 0, words, 2));
        done(player, "array_fill", lxr_mutator_array_fill(player->mutator, SHARED, first, count, FOUND));
        break;
    case 1: done(player, "array_copy", lxr_mutator_array_copy(player->mutator, SHARED, at, SHARED, first, count)); break;
    default: done(player, "array_load", lxr_mutator_array_load(player->mutator, FOUND, SHARED, first)); is_whole(player);
    }
}

/* ---- Rounds ---- */

static void play_once(struct player *player) {
    player->calls++;
    switch (below(player, 14)) {
    case 0:
    case 1: play_new(player); break;
    case 2: play_length(player); break;
    case 3: play_fill(player); break;
    case 4:
    case 5: play_copy(player); break;
    case 6: play_words(player); break;
    case 7: play_word(player); break;
    case 8: play_registers(player); break;
    case 9: play_token(player); break;
    case 10: play_board(player); break;
    default: play_element(player);
    }
    if (one_in(player, 100))
        done(player, "pause", one_in(player, 3) ? lxr_mutator_collect(player->mutator) : lxr_mutator_pause(player->mutator));
}

static void *play(void *with) {
    struct player *player = with;
    done(player, "enter", lxr_mutator_enter(now.heap, &player->mutator));
    for (uint32_t left = CALLS; left--;) play_once(player);
    bring_token(player);
    done(player, "leave", lxr_mutator_leave(&player->mutator));
    free_things(player);
    return NULL;
}

/* What stands in the world as a round begins. */
static void set_out(struct player *keeper) {
    lxr_mutator *mutator = NULL;
    done(keeper, "enter", lxr_mutator_enter(now.heap, &mutator));
    make_array(mutator, SHARED, BOARD_LENGTH);
    done(keeper, "store", lxr_mutator_store(mutator, WORLD, BOARD, SHARED));
    make_array(mutator, SHARED, TOKEN_PLACES);
    done(keeper, "store", lxr_mutator_store(mutator, WORLD, TOKENS, SHARED));
    for (uint32_t at = 0; at < now.tokens; at++) {
        make_words(mutator, TOKEN, 1);
        done(keeper, "words_put", lxr_mutator_words_put(mutator, TOKEN, 0, at + 1));
        done(keeper, "array_store", lxr_mutator_array_store(mutator, SHARED, PART - 3 + at, TOKEN));
    }
    done(keeper, "leave", lxr_mutator_leave(&mutator));
}

/* What stands there as it ends: each token once, and whole objects. */
static void take_stock(struct player *keeper) {
    uint64_t word = 0, found = 0;
    done(keeper, "enter", lxr_mutator_enter(now.heap, &keeper->mutator));
    load_shared(keeper, TOKENS);
    for (uint32_t at = 0; at < TOKEN_PLACES; at++) {
        done(keeper, "array_load", lxr_mutator_array_load(keeper->mutator, TOKEN, SHARED, at));
        lxr_code code = lxr_mutator_words_get(keeper->mutator, TOKEN, 0, &word);
        if (code == LXR_E_NIL) continue;
        done(keeper, "words_get", code);
        if (found & (UINT64_C(1) << word)) differ(keeper, "token %" PRIu64 " is in two places", word);
        found |= UINT64_C(1) << word;
    }
    agree(keeper, "the tokens that are left", found, ((UINT64_C(1) << now.tokens) - 1) << 1);
    load_shared(keeper, BOARD);
    for (uint32_t at = 0; at < BOARD_LENGTH; at++) {
        done(keeper, "array_load", lxr_mutator_array_load(keeper->mutator, FOUND, SHARED, at));
        is_whole(keeper);
    }
    done(keeper, "leave", lxr_mutator_leave(&keeper->mutator));
}

static lxr_shared_heap_settings draw_settings(uint64_t *dice) {
    static const uint32_t registers[] = { 16, 17, 64, 254 };
    lxr_shared_heap_settings settings = LXR_SHARED_HEAP_SETTINGS(40 + (uint32_t)draw(dice) % 100, MOST_PLAYERS);
    settings.blocks = 24 + (uint32_t)draw(dice) % 100;
    settings.evacuate = (uint32_t)draw(dice) % (settings.blocks / 8 + 1);
    settings.helpers = (uint32_t)draw(dice) % 3;
    settings.log = draw(dice) % 2 ? 64 : 1024;
    settings.pace = draw(dice) % 2 ? LXR_PACE_ROOM : 20000 + draw(dice) % 20000;
    settings.trace = draw(dice) % 2 ? (uint32_t)draw(dice) % 9 : 0;
    settings.within = (uint32_t)draw(dice) % 5;
    settings.registers = registers[draw(dice) % 4];
    return settings;
}

static void play_round(uint64_t seed) {
    uint64_t dice = seed * 7919 + 17, pauses = 0;
    struct player keeper = { .number = MOST_PLAYERS };
    pthread_t threads[MOST_PLAYERS];
    memset(&now, 0, sizeof now);
    now.seed = seed;
    now.players = 1 + (uint32_t)draw(&dice) % MOST_PLAYERS;
    now.tokens = (uint32_t)draw(&dice) % 5;
    lxr_shared_heap_settings settings = draw_settings(&dice);
    now.registers = settings.registers;
    done(&keeper, "open", lxr_shared_heap_open(&now.heap, &settings));
    set_out(&keeper);
    for (uint32_t at = 0; at < now.players; at++) {
        now.player[at].number = at;
        now.player[at].dice = draw(&dice) * 31 + at;
        if (pthread_create(&threads[at], NULL, play, &now.player[at]) != 0) differ(&keeper, "no further thread");
    }
    for (uint32_t at = 0; at < now.players; at++) pthread_join(threads[at], NULL);
    take_stock(&keeper);
    done(&keeper, "count", lxr_shared_heap_count(now.heap, LXR_COUNT_PAUSES, &pauses));
    done(&keeper, "close", lxr_shared_heap_close(&now.heap));
    sums.rounds++;
    sums.pauses += pauses;
    for (uint32_t at = 0; at < now.players; at++) {
        sums.calls += now.player[at].calls;
        sums.fulls += now.player[at].fulls;
    }
}

int main(int count, char **words) {
    static const uint32_t lengths[] = { 0, 1, 2, 1022, 1023, 1024, 2045, 2046, 2047, 5000 };
    static const uint32_t registers[] = { 16, 17, 64, 253, 254, 255, 256 };
    uint64_t seconds = count > 1 ? strtoull(words[1], NULL, 10) : 10, seed = count > 2 ? strtoull(words[2], NULL, 10) : 1;
    for (size_t at = 0; at < sizeof registers / sizeof *registers; at++) try_numbers(registers[at]);
    for (size_t at = 0; at < sizeof lengths / sizeof *lengths; at++) try_ends(lengths[at]);
    for (size_t at = 0; at < 5; at++) try_ends_of_words(lengths[at]);
    try_other_objects();
    try_shared_part();
    try_what_is_kept();
    for (uint32_t held = 0; make_beside(held);) held++;
    try_refused();
    time_t end = time(NULL) + (time_t)seconds;
    do play_round(seed++);
    while (time(NULL) < end);
    printf("threads_arrays: %" PRIu64 " rounds, %" PRIu64 " calls, %" PRIu64 " pauses, ", sums.rounds, sums.calls, sums.pauses);
    printf("%" PRIu64 " times full, %" PRIu64 " times refused\n", sums.fulls, sums.refused);
    return 0;
}
