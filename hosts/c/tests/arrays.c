/*
 * arrays.c: arrays and words of lxr.h against plain C, on the archive or on plain_heap.c. SPDX: MIT OR Apache-2.0
 *
 * usage: arrays SECONDS [SEED]     random rounds for so long, each from a number of its own on; with 0 seconds one round, from SEED
 *
 * Linked with -Wl,--wrap=malloc,--wrap=calloc,--wrap=realloc, so that each request for memory comes through here. First come calls that a
 * careful host never makes; then arrays that find no room for one of their parts, because a heap is full or memory is refused. In a round a
 * host makes random calls, and holds each answer against a model: objects in plain C that are freed as the round ends.
 */
#include "../lxr.h"

#include <inttypes.h>
#include <stdarg.h>
#include <stdbool.h>
#include <stdio.h>
#include <stdlib.h>
#include <string.h>
#include <time.h>

#define CALLS   3000u
#define LONGEST 12000u
#define PART    LXR_MOST_REFS
#define LAST    UINT32_MAX

static struct { uint64_t rounds, calls, full, refused; } sums;

static uint64_t seed, calls;

static void differ(const char *form, ...) {
    va_list parts;
    va_start(parts, form);
    fprintf(stderr, "arrays: seed %" PRIu64 ", call %" PRIu64 ": ", seed, calls);
    vfprintf(stderr, form, parts);
    fputc('\n', stderr);
    va_end(parts);
    exit(1);
}

static void agree(const char *what, uint64_t found, uint64_t wanted) {
    if (found != wanted) differ("%s is %" PRIu64 ", not %" PRIu64, what, found, wanted);
}

#define IS(what, wanted) agree(#what, what, wanted)

/* ---- Memory ---- */

/* How many requests are granted while they are watched, and how many were made. */
static struct {
    size_t granted, asked;
    bool watched;
} memory;

void *__real_malloc(size_t bytes);
void *__real_calloc(size_t count, size_t bytes);
void *__real_realloc(void *old, size_t bytes);
void *__wrap_malloc(size_t bytes);
void *__wrap_calloc(size_t count, size_t bytes);
void *__wrap_realloc(void *old, size_t bytes);

static bool refuse(void) { return memory.watched && memory.asked++ >= memory.granted; }

void *__wrap_malloc(size_t bytes) { return refuse() ? NULL : __real_malloc(bytes); }

void *__wrap_calloc(size_t count, size_t bytes) { return refuse() ? NULL : __real_calloc(count, bytes); }

void *__wrap_realloc(void *old, size_t bytes) { return refuse() ? NULL : __real_realloc(old, bytes); }

/* ---- Numbers ---- */

static uint64_t state;

static uint64_t draw(void) {
    state = state * 6364136223846793005u + 1442695040888963407u;
    return state >> 33;
}

static uint32_t below(uint32_t end) { return (uint32_t)(draw() % end); }

static bool one_in(uint32_t times) { return below(times) == 0; }

static uint64_t some_word(void) { return (draw() << 33) ^ (draw() << 11) ^ draw(); }

/* ---- Calls that a careful host never makes ---- */

static lxr_code open_heap(lxr_heap *heap, uint32_t blocks, uint32_t body_blocks, uint32_t registers) {
    lxr_settings settings = LXR_SETTINGS(blocks, body_blocks);
    settings.registers = registers;
    return lxr_open(heap, &settings);
}

/* Each call with these numbers, which all refuse. */
static void refuse_all(lxr_heap *heap, uint32_t base, uint32_t other, lxr_code code) {
    uint64_t word = 7;
    uint32_t length = 7;
    IS(lxr_array_length(heap, base, &length), code);
    IS(lxr_array_load(heap, other, base, LAST), code);
    IS(lxr_array_store(heap, base, LAST, other), code);
    IS(lxr_array_fill(heap, base, LAST, LAST, other), code);
    IS(lxr_array_copy(heap, base, LAST, other, LAST, LAST), code);
    IS(lxr_array_copy(heap, other, LAST, base, LAST, LAST), code);
    IS(lxr_words_length(heap, base, &length), code);
    IS(lxr_words_get(heap, base, LAST, &word), code);
    IS(lxr_words_put(heap, base, LAST, 1), code);
    IS(lxr_words_read(heap, base, LAST, &word, SIZE_MAX), code);
    IS(lxr_words_write(heap, base, LAST, &word, SIZE_MAX), code);
    IS(length, 7);
    IS(word, 7);
}

/* Each call that looks at fields, where there are none from this index on. */
static void refuse_index(lxr_heap *heap, uint32_t base, uint32_t index) {
    uint64_t word = 7;
    IS(lxr_array_load(heap, 9, base, index), LXR_E_INDEX);
    IS(lxr_array_store(heap, base, index, 0), LXR_E_INDEX);
    IS(lxr_array_fill(heap, base, index, 1, 0), LXR_E_INDEX);
    IS(lxr_array_fill(heap, base, 0, index + 1, 0), index == LAST ? LXR_OK : LXR_E_INDEX);
    IS(lxr_array_fill(heap, base, index, LAST, 0), LXR_E_INDEX);
    IS(lxr_array_copy(heap, base, index, base, 0, 1), LXR_E_INDEX);
    IS(lxr_array_copy(heap, base, 0, base, index, 1), LXR_E_INDEX);
    IS(lxr_array_copy(heap, base, 0, base, index, LAST), LXR_E_INDEX);
    IS(lxr_words_get(heap, base, index, &word), LXR_E_INDEX);
    IS(lxr_words_put(heap, base, index, 1), LXR_E_INDEX);
    IS(lxr_words_read(heap, base, index, &word, 1), LXR_E_INDEX);
    IS(lxr_words_write(heap, base, index, &word, SIZE_MAX), LXR_E_INDEX);
    IS(word, 7);
}

static bool is_nil(const lxr_heap *heap, uint32_t source) {
    uint32_t is_nil = 0;
    IS(lxr_is_nil(heap, source, &is_nil), LXR_OK);
    return is_nil != 0;
}

static bool is_same(const lxr_heap *heap, uint32_t left, uint32_t right) {
    uint32_t same = 0;
    IS(lxr_same(heap, left, right, &same), LXR_OK);
    return same != 0;
}

/* Numbers of registers that there aren't, the library's own among them; sizes; and a nil base. */
static void try_numbers(uint32_t registers) {
    lxr_heap heap = LXR_HEAP_INIT;
    const uint32_t bad[] = { registers, registers + 1, registers + 2, 256, 257, LAST };
    refuse_all(&heap, 1, 2, LXR_E_NO_HEAP);
    IS(lxr_array_new(&heap, LAST, LAST), LXR_E_NO_HEAP);
    IS(lxr_words_new(&heap, LAST, LAST), LXR_E_NO_HEAP);
    IS(open_heap(&heap, 8, 2, registers), LXR_OK);
    for (size_t at = 0; at < sizeof bad / sizeof *bad; at++) {
        refuse_all(&heap, bad[at], 1, LXR_E_REGISTER);
        IS(lxr_array_load(&heap, bad[at], 0, 0), LXR_E_REGISTER);
        IS(lxr_array_store(&heap, 1, LAST, bad[at]), LXR_E_REGISTER);
        IS(lxr_array_fill(&heap, 1, 0, LAST, bad[at]), LXR_E_REGISTER);
        IS(lxr_array_copy(&heap, 1, 0, bad[at], 0, LAST), LXR_E_REGISTER);
        IS(lxr_array_new(&heap, bad[at], LAST), LXR_E_REGISTER);
        IS(lxr_words_new(&heap, bad[at], LAST), LXR_E_REGISTER);
        IS(lxr_nil(&heap, bad[at]), LXR_E_REGISTER);
    }
    IS(lxr_array_new(&heap, 2, LXR_MOST_ELEMENTS + 1), LXR_E_SIZE);
    IS(lxr_array_new(&heap, 2, LAST), LXR_E_SIZE);
    IS(lxr_words_new(&heap, 2, LXR_MOST_LENGTH + 1), LXR_E_SIZE);
    IS(lxr_words_new(&heap, 2, LAST), LXR_E_SIZE);
    if (registers <= 254) refuse_all(&heap, 2, 2, LXR_E_NIL);
    IS(is_nil(&heap, 2), true);
    IS(lxr_close(&heap), LXR_OK);
}

/* Where there is no place for the library's registers: arrays of one object alone. */
static void try_without_place(uint32_t registers) {
    lxr_heap heap = LXR_HEAP_INIT;
    uint32_t length = 0;
    const uint64_t word = 1;
    IS(open_heap(&heap, 8, 1, registers), LXR_OK);
    IS(lxr_array_new(&heap, 1, PART + 1), LXR_E_REGISTER);
    IS(lxr_array_new(&heap, 1, PART), LXR_OK);
    IS(lxr_array_store(&heap, 1, PART - 1, 0), LXR_OK);
    IS(lxr_array_fill(&heap, 1, 0, 7, 0), LXR_OK);
    IS(lxr_array_load(&heap, 2, 1, PART - 1), LXR_OK);
    IS(is_same(&heap, 0, 2), true);
    IS(lxr_array_load(&heap, 2, 1, 6), LXR_OK);
    IS(is_same(&heap, 0, 2), true);
    IS(lxr_new_with(&heap, 3, &(uint32_t){ 1 }, 1, &word, 1), LXR_OK);
    IS(lxr_array_length(&heap, 3, &length), LXR_OK);
    IS(length, 1);
    IS(lxr_array_load(&heap, 2, 3, 0), LXR_E_REGISTER);
    IS(lxr_array_store(&heap, 3, 0, 2), LXR_E_REGISTER);
    IS(lxr_array_fill(&heap, 3, 0, 0, 2), LXR_E_REGISTER);
    IS(lxr_array_copy(&heap, 1, 0, 1, 0, 0), LXR_E_REGISTER);
    IS(lxr_array_copy(&heap, 9, LAST, 1, LAST, LAST), LXR_E_REGISTER);
    IS(lxr_close(&heap), LXR_OK);
}

/* The ends of arrays and words of such a length. */
static void try_ends(uint32_t length) {
    static const uint32_t beyond[] = { 0, 1, PART, 1u << 20, 1u << 31 };
    lxr_heap heap = LXR_HEAP_INIT;
    uint32_t found = 0;
    uint64_t word = 1;
    IS(open_heap(&heap, 24, 8, 254), LXR_OK);
    IS(lxr_array_new(&heap, 1, length), LXR_OK);
    IS(lxr_words_new(&heap, 2, length), LXR_OK);
    for (uint32_t base = 1; base < 3; base++) {
        IS(base == 1 ? lxr_array_length(&heap, 1, &found) : lxr_words_length(&heap, 2, &found), LXR_OK);
        IS(found, length);
    }
    for (size_t at = 0; at < sizeof beyond / sizeof *beyond; at++) {
        IS(lxr_words_get(&heap, 2, length + beyond[at], &word), LXR_E_INDEX);
        IS(lxr_words_read(&heap, 2, length + beyond[at], &word, beyond[at] ? 0 : 1), LXR_E_INDEX);
        IS(lxr_words_write(&heap, 2, 0, &word, (size_t)length + 1 + beyond[at]), LXR_E_INDEX);
        IS(lxr_array_load(&heap, 3, 1, length + beyond[at]), LXR_E_INDEX);
        IS(lxr_array_store(&heap, 1, length + beyond[at], 0), LXR_E_INDEX);
        IS(lxr_array_fill(&heap, 1, length + beyond[at], beyond[at] ? 0 : 1, 0), LXR_E_INDEX);
        IS(lxr_array_fill(&heap, 1, 0, length + 1 + beyond[at], 0), LXR_E_INDEX);
        IS(lxr_array_copy(&heap, 1, 0, 1, length + beyond[at], beyond[at] ? 0 : 1), LXR_E_INDEX);
        IS(lxr_array_copy(&heap, 1, length + beyond[at], 1, 0, beyond[at] ? 0 : 1), LXR_E_INDEX);
    }
    refuse_index(&heap, 1, LAST - 1);
    refuse_index(&heap, 2, LAST - 1);
    IS(lxr_words_read(&heap, 2, length, &word, 0), LXR_OK);
    IS(lxr_words_write(&heap, 2, length, &word, 0), LXR_OK);
    IS(lxr_array_fill(&heap, 1, length, 0, 0), LXR_OK);
    IS(lxr_array_copy(&heap, 1, length, 1, 0, 0), LXR_OK);
    for (uint32_t index = 0; index < length; index++) {
        IS(lxr_array_load(&heap, 3, 1, index), LXR_OK);
        IS(is_nil(&heap, 3), true);
        IS(lxr_words_get(&heap, 2, index, &word), LXR_OK);
        IS(word, 0);
    }
    IS(lxr_close(&heap), LXR_OK);
}

/* What the first object of an array or of words is: a borderline of shapes. */
static void try_shapes(void) {
    static const uint32_t lengths[] = { 0, 1, PART, PART + 1, 2 * PART, 2 * PART + 1, 9 * PART };
    static const uint32_t blocks_of[] = { 0, 0, 0, 1, 1, 1, 3 };
    lxr_heap heap = LXR_HEAP_INIT;
    uint32_t refs = 0, words = 0, blocks = 0;
    IS(open_heap(&heap, 32, 16, 16), LXR_OK);
    for (size_t at = 0; at < sizeof lengths / sizeof *lengths; at++) {
        uint32_t length = lengths[at], parts = length > PART ? (length - 1) / PART + 1 : 0;
        uint64_t word = 0;
        IS(lxr_array_new(&heap, 1, length), LXR_OK);
        IS(lxr_shape(&heap, 1, &refs, &words, &blocks), LXR_OK);
        IS(refs, parts ? parts : length);
        IS(words, parts ? 1 : 0);
        IS(blocks, 0);
        if (parts) IS(lxr_get(&heap, 1, 0, &word), LXR_OK);
        IS(word, parts ? length : 0);
        for (uint32_t part = 0; part < parts; part++) {
            IS(lxr_load(&heap, 2, 1, part), LXR_OK);
            IS(lxr_shape(&heap, 2, &refs, &words, &blocks), LXR_OK);
            IS(refs, part + 1 < parts ? PART : length - part * PART);
            IS(words + blocks, 0);
        }
        IS(lxr_words_new(&heap, 1, length), LXR_OK);
        IS(lxr_shape(&heap, 1, &refs, &words, &blocks), LXR_OK);
        IS(refs, 0);
        IS(words, length > LXR_MOST_WORDS ? 0 : length);
        IS(blocks, blocks_of[at]);
        if (blocks) IS(lxr_large_get(&heap, 1, 0, &word), LXR_OK);
        if (blocks) IS(word, length);
    }
    IS(lxr_close(&heap), LXR_OK);
}

/* Objects that were not made as arrays are taken by their shape. Register 1 has a root of so many parts, which says such a length. */
static void make_root(lxr_heap *heap, uint32_t parts, uint64_t length) {
    IS(lxr_new(heap, 1, parts, 1), LXR_OK);
    IS(lxr_put(heap, 1, 0, length), LXR_OK);
}

static void try_other_objects(void) {
    lxr_heap heap = LXR_HEAP_INIT;
    uint32_t length = 0;
    IS(open_heap(&heap, 8, 4, 16), LXR_OK);
    IS(lxr_array_length(&heap, 0, &length), LXR_OK);
    IS(length, LXR_WORLD_REFS);
    make_root(&heap, 3, UINT64_MAX);
    IS(lxr_array_length(&heap, 1, &length), LXR_OK);
    IS(length, 3 * PART);
    IS(lxr_array_load(&heap, 9, 1, 3 * PART), LXR_E_INDEX);
    IS(lxr_array_store(&heap, 1, LXR_MOST_ELEMENTS - 1, 0), LXR_E_INDEX);
    IS(lxr_array_fill(&heap, 1, 3 * PART, 1, 0), LXR_E_INDEX);
    IS(lxr_array_fill(&heap, 1, 0, 3 * PART + 1, 0), LXR_E_INDEX);
    IS(lxr_array_fill(&heap, 1, 0, 3 * PART, 0), LXR_E_NIL);
    IS(lxr_array_load(&heap, 9, 1, 3 * PART - 1), LXR_E_NIL);
    IS(lxr_array_store(&heap, 1, 0, 0), LXR_E_NIL);
    IS(lxr_array_fill(&heap, 1, PART, 1, 0), LXR_E_NIL);
    IS(lxr_array_fill(&heap, 1, PART, 0, 0), LXR_OK);
    IS(lxr_new(&heap, 2, PART - 1, 1), LXR_OK);
    IS(lxr_store(&heap, 1, 1, 2), LXR_OK);
    IS(lxr_array_store(&heap, 1, 2 * PART - 2, 0), LXR_OK);
    IS(lxr_array_load(&heap, 9, 1, 2 * PART - 2), LXR_OK);
    IS(is_same(&heap, 0, 9), true);
    IS(lxr_array_load(&heap, 9, 1, 2 * PART - 1), LXR_E_INDEX);
    IS(lxr_array_fill(&heap, 1, PART, PART, 0), LXR_E_INDEX);
    IS(lxr_array_copy(&heap, 0, 0, 1, 2 * PART - 4, 4), LXR_E_INDEX);
    IS(lxr_array_load(&heap, 9, 2, 0), LXR_E_INDEX); /* it has a data word, which says 0 */
    IS(lxr_array_load(&heap, 9, 1, PART), LXR_OK);
    IS(is_nil(&heap, 9), true);
    IS(lxr_array_load(&heap, 9, 0, 0), LXR_OK);
    IS(is_nil(&heap, 9), true);
    IS(lxr_array_new(&heap, 1, 3 * PART), LXR_OK);
    IS(lxr_put(&heap, 1, 0, 1500), LXR_OK);
    IS(lxr_array_length(&heap, 1, &length), LXR_OK);
    IS(length, 1500);
    IS(lxr_array_store(&heap, 1, 1499, 0), LXR_OK);
    refuse_index(&heap, 1, 1500);
    IS(lxr_large_new(&heap, 3, 1), LXR_OK);
    IS(lxr_array_length(&heap, 3, &length), LXR_OK);
    IS(length, 0);
    IS(lxr_large_put(&heap, 3, 0, UINT64_MAX), LXR_OK);
    IS(lxr_words_length(&heap, 3, &length), LXR_OK);
    IS(length, LXR_BLOCK_WORDS - 1);
    IS(lxr_words_put(&heap, 3, LXR_BLOCK_WORDS - 2, 5), LXR_OK);
    IS(lxr_words_put(&heap, 3, LXR_BLOCK_WORDS - 1, 5), LXR_E_INDEX);
    IS(lxr_close(&heap), LXR_OK);
}

/* Two arrays that share a part are copied one element after another; and lengths of both are looked at before parts of either. */
static void try_shared_part(void) {
    lxr_heap heap = LXR_HEAP_INIT;
    IS(open_heap(&heap, 8, 1, 16), LXR_OK);
    IS(lxr_array_new(&heap, 1, 2 * PART), LXR_OK);
    IS(lxr_load(&heap, 2, 1, 1), LXR_OK);
    IS(lxr_array_store(&heap, 2, 0, 0), LXR_OK);
    IS(lxr_array_copy(&heap, 2, 1, 1, PART, 3), LXR_OK);
    for (uint32_t index = 0; index < 5; index++) {
        IS(lxr_array_load(&heap, 3, 1, PART + index), LXR_OK);
        IS(is_same(&heap, 0, 3), index < 4);
    }
    make_root(&heap, 3, 3 * PART);
    IS(lxr_array_copy(&heap, 1, 0, 2, 0, PART + 1), LXR_E_INDEX);
    IS(lxr_array_copy(&heap, 2, 0, 1, 3 * PART, 1), LXR_E_INDEX);
    IS(lxr_array_copy(&heap, 1, 0, 2, 0, 1), LXR_E_NIL);
    IS(lxr_array_copy(&heap, 2, 0, 1, 0, 1), LXR_E_NIL);
    IS(lxr_close(&heap), LXR_OK);
}

static uint64_t live(lxr_heap *heap) {
    uint64_t number = 0;
    IS(lxr_collect(heap), LXR_OK);
    IS(lxr_count(heap, LXR_COUNT_LIVE, &number), LXR_OK);
    return number;
}

/* One of the calls that go by the library's registers, whose arrays are in the registers 1 and 2. */
static lxr_code call_one(lxr_heap *heap, int which) {
    switch (which) {
    case 0: return lxr_array_load(heap, 3, 1, 2 * PART);
    case 1: return lxr_array_store(heap, 1, PART, 0);
    case 2: return lxr_array_fill(heap, 1, 5, 2 * PART, 0);
    case 3: return lxr_array_copy(heap, 1, 0, 1, PART - 3, PART);
    case 4: return lxr_array_copy(heap, 2, 7, 1, PART - 3, PART);
    case 5: return lxr_array_load(heap, 3, 1, 5000);
    case 6: return lxr_array_copy(heap, 2, 7, 1, PART - 3, 5 * PART);
    default: return lxr_array_new(heap, 3, 5 * PART);
    }
}

/* After each call nothing is kept but what the host's registers hold. */
static void try_what_is_kept(void) {
    for (int which = 0; which < 8; which++) {
        lxr_heap heap = LXR_HEAP_INIT;
        IS(open_heap(&heap, 32, 1, 16), LXR_OK);
        IS(lxr_array_new(&heap, 1, 4 * PART), LXR_OK);
        IS(lxr_array_new(&heap, 2, 4 * PART), LXR_OK);
        IS(call_one(&heap, which), which == 5 || which == 6 ? LXR_E_INDEX : LXR_OK);
        IS(lxr_registers_in_use(&heap, 2), LXR_OK);
        IS(live(&heap), 5);
        IS(lxr_registers_in_use(&heap, 1), LXR_OK);
        IS(live(&heap), 0);
        IS(lxr_close(&heap), LXR_OK);
    }
}

/* ---- No room ---- */

/* Holds so many objects of the size of a part in a list in register 3, or as many as there is room for; whether that are all. */
static bool hold(lxr_heap *heap, uint32_t count) {
    bool fits = true;
    for (uint32_t at = 0; fits && at < count; at++) {
        fits = lxr_new(heap, 4, PART, 0) == LXR_OK;
        if (fits) IS(lxr_store(heap, 4, 0, 3), LXR_OK);
        if (fits) IS(lxr_move(heap, 3, 4), LXR_OK);
    }
    IS(lxr_nil(heap, 4), LXR_OK);
    return fits;
}

/* Register 1 holds the world's first object, where an array found no room, and all else is as before. */
static void is_as_before(lxr_heap *heap, uint64_t lived) {
    IS(live(heap), lived);
    for (uint32_t at = 4; at < LXR_REGISTERS; at++) IS(is_nil(heap, at), true);
    IS(lxr_load(heap, 4, 0, 0), LXR_OK);
    IS(is_same(heap, 1, 4), true);
    IS(lxr_nil(heap, 4), LXR_OK);
}

/* Makes an array of eight parts beside so many objects as large as one: full comes at each of its parts. */
static bool make_beside(uint32_t held) {
    lxr_heap heap = LXR_HEAP_INIT;
    IS(open_heap(&heap, 4, 1, 16), LXR_OK);
    IS(lxr_new(&heap, 1, 0, 1), LXR_OK);
    IS(lxr_store(&heap, 0, 0, 1), LXR_OK);
    bool fits = hold(&heap, held);
    uint64_t lived = live(&heap);
    lxr_code code = lxr_array_new(&heap, 1, 7 * PART + 1000);
    if (code != LXR_OK) {
        IS(code, LXR_E_FULL);
        sums.full++;
        is_as_before(&heap, lived);
    } else {
        IS(live(&heap), lived + 9);
    }
    IS(lxr_nil(&heap, 3), LXR_OK);
    IS(lxr_array_new(&heap, 1, 4 * PART), LXR_OK);
    IS(live(&heap), 6);
    IS(lxr_close(&heap), LXR_OK);
    return fits && held < 20;
}

static void try_full(void) {
    for (uint32_t held = 0; make_beside(held);) held++;
    lxr_heap heap = LXR_HEAP_INIT;
    IS(open_heap(&heap, 2, 2, 16), LXR_OK);
    IS(lxr_words_new(&heap, 1, 2 * LXR_BLOCK_WORDS - 1), LXR_OK);
    lxr_code code = lxr_words_new(&heap, 2, PART + 1);
    if (code != LXR_OK) IS(code, LXR_E_FULL);
    IS(is_nil(&heap, 2), code != LXR_OK);
    IS(lxr_close(&heap), LXR_OK);
}

/* The request for memory of each object of an array is refused; or none is made. */
static void try_refused(void) {
    lxr_heap heap = LXR_HEAP_INIT;
    lxr_code code = LXR_E_FULL;
    IS(open_heap(&heap, 32, 8, 16), LXR_OK);
    IS(lxr_new(&heap, 1, 0, 1), LXR_OK);
    IS(lxr_store(&heap, 0, 0, 1), LXR_OK);
    for (size_t granted = 0; code != LXR_OK; granted++) {
        memory.granted = granted;
        memory.asked = 0;
        memory.watched = true;
        code = lxr_array_new(&heap, 1, 8 * PART);
        memory.watched = false;
        if (code == LXR_OK) continue;
        IS(code, LXR_E_FULL);
        sums.refused++;
        is_as_before(&heap, 1);
    }
    IS(memory.asked <= memory.granted, true);
    IS(live(&heap), 10);
    IS(lxr_close(&heap), LXR_OK);
}

/* ---- The model ---- */

enum sort { TOKEN, ARRAY, WORDS };

/* An object of the model: one without fields, an array, or words. */
struct thing {
    enum sort sort;
    uint32_t length;
    struct thing *older, **element;
    uint64_t *word;
};

/* A round: its heap, what its registers hold, and all things. */
static struct {
    lxr_heap heap;
    uint32_t registers;
    struct thing *of[LXR_MOST_REGISTERS], *newest;
} now;

static struct thing *make_thing(enum sort sort, uint32_t length) {
    struct thing *made = calloc(1, sizeof *made);
    if (!made) exit(5);
    made->sort = sort;
    made->length = length;
    made->older = now.newest;
    made->element = calloc(sort == ARRAY ? length + 1 : 1, sizeof *made->element);
    made->word = calloc(sort == WORDS ? length + 1 : 1, sizeof *made->word);
    if (!made->element || !made->word) exit(5);
    return now.newest = made;
}

static void free_things(void) {
    while (now.newest) {
        struct thing *it = now.newest;
        now.newest = it->older;
        free(it->element);
        free(it->word);
        free(it);
    }
}

/* A register but the first, which keeps the world. */
static uint32_t some_register(void) { return 1 + below(one_in(8) ? now.registers - 1 : 9); }

static bool holds(uint32_t base, enum sort sort) { return now.of[base] && now.of[base]->sort == sort; }

/* A register, mostly one that holds such a thing. Words aren't taken for an array, nor is an array for words: a root has a word. */
static uint32_t some_base(enum sort sort) {
    uint32_t base = some_register();
    for (int tries = 0; tries < 12 && !holds(base, sort); tries++) base = some_register();
    if (!holds(base, sort == ARRAY ? WORDS : ARRAY)) return base;
    IS(lxr_nil(&now.heap, base), LXR_OK);
    now.of[base] = NULL;
    return base;
}

static uint32_t some_length(void) {
    static const uint32_t borders[] = { 0, 1, 2, 1022, 1023, 1024, 1025, 2045, 2046, 2047, 3069, 4094, 4095, 4096, 10000 };
    return one_in(3) ? borders[below(sizeof borders / sizeof *borders)] : one_in(4) ? below(LONGEST) : below(40);
}

/* An index of so many, or now and then one behind them. */
static uint32_t some_index(uint32_t length) {
    static const uint32_t borders[] = { 0, 1, 1021, 1022, 1023, 1024, 2045, 2046, 2047 };
    if (length == 0 || one_in(40)) return one_in(2) ? length + below(3) : LAST - below(3);
    uint32_t border = borders[below(sizeof borders / sizeof *borders)];
    return one_in(3) && border < length ? border : one_in(4) ? length - 1 : below(length);
}

/* How many from an index on: mostly few, and now and then more than there are. */
static uint32_t some_count(uint32_t first, uint32_t length) {
    if (one_in(40)) return one_in(2) ? LAST - below(3) : length + 1;
    if (first >= length) return below(3);
    return one_in(3) ? length - first : below(one_in(2) ? 40 : length - first + 1);
}

static bool is_part(uint32_t first, uint32_t count, uint32_t length) { return first <= length && count <= length - first; }

/* What a call with this base answers for its numbers: those of a thing of the sort that fit. */
static lxr_code expected(uint32_t base, bool fits) { return !now.of[base] ? LXR_E_NIL : fits ? LXR_OK : LXR_E_INDEX; }

/* Each register holds what it does in the model: those that hold one thing are the same. */
static void agree_on(uint32_t left) {
    for (uint32_t right = 0; right < now.registers; right++)
        if (is_same(&now.heap, left, right) != (now.of[left] == now.of[right])) differ("registers %u and %u", left, right);
}

/* Where there was no room all is as before, and some registers let go of what they hold. */
static void meet_full(void) {
    sums.full++;
    agree_on(some_register());
    for (uint32_t at = 1; at < now.registers; at++) {
        if (one_in(3)) continue;
        IS(lxr_nil(&now.heap, at), LXR_OK);
        now.of[at] = NULL;
    }
}

static lxr_code make(enum sort sort, uint32_t dest, uint32_t length) {
    switch (sort) {
    case ARRAY: return lxr_array_new(&now.heap, dest, length);
    case WORDS: return lxr_words_new(&now.heap, dest, length);
    default: return lxr_new(&now.heap, dest, 0, 0);
    }
}

/* Now and then few requests for memory are granted, if some are made. */
static void play_new(void) {
    uint32_t dest = some_register(), length = some_length();
    enum sort sort = one_in(3) ? TOKEN : one_in(2) ? ARRAY : WORDS;
    memory.granted = below(6);
    memory.asked = 0;
    memory.watched = one_in(10);
    lxr_code code = make(sort, dest, length);
    memory.watched = false;
    if (code == LXR_E_FULL) {
        meet_full();
        return;
    }
    agree("a code of new", code, LXR_OK);
    now.of[dest] = make_thing(sort, sort == TOKEN ? 0 : length);
}

static void play_length(void) {
    uint32_t base = some_register(), length = 7;
    struct thing *it = now.of[base];
    bool words = it ? it->sort == WORDS : one_in(2);
    agree("the code of length", words ? lxr_words_length(&now.heap, base, &length) : lxr_array_length(&now.heap, base, &length),
          expected(base, true));
    agree("a length", length, it ? it->length : 7);
}

static void play_load(void) {
    uint32_t base = some_base(ARRAY), dest = some_register();
    struct thing *it = holds(base, ARRAY) ? now.of[base] : NULL;
    uint32_t index = some_index(it ? it->length : 0);
    bool fits = it && index < it->length;
    agree("the code of load", lxr_array_load(&now.heap, dest, base, index), expected(base, fits));
    if (fits) now.of[dest] = it->element[index];
    agree_on(dest);
}

static void play_store(void) {
    uint32_t base = some_base(ARRAY), source = some_register();
    struct thing *it = holds(base, ARRAY) ? now.of[base] : NULL;
    uint32_t index = some_index(it ? it->length : 0);
    bool fits = it && index < it->length;
    agree("the code of store", lxr_array_store(&now.heap, base, index, source), expected(base, fits));
    if (fits) it->element[index] = now.of[source];
}

static void play_fill(void) {
    uint32_t base = some_base(ARRAY), source = some_register();
    struct thing *it = holds(base, ARRAY) ? now.of[base] : NULL;
    uint32_t length = it ? it->length : 0, first = some_index(length), count = some_count(first, length);
    bool fits = is_part(first, count, length);
    agree("the code of fill", lxr_array_fill(&now.heap, base, first, count, source), expected(base, fits));
    for (uint32_t at = 0; it && fits && at < count; at++) it->element[first + at] = now.of[source];
}

/* Half of the copies are within one array, most of these to a place nearby. */
static void play_copy(void) {
    uint32_t to = some_base(ARRAY), from = one_in(2) ? to : some_base(ARRAY);
    struct thing *into = holds(to, ARRAY) ? now.of[to] : NULL, *out = holds(from, ARRAY) ? now.of[from] : NULL;
    uint32_t room = into ? into->length : 0, length = out ? out->length : 0;
    uint32_t first = some_index(length), at = one_in(2) ? some_index(room) : first + 3 - below(6);
    uint32_t count = some_count(first > at ? first : at, room < length ? room : length);
    lxr_code written = expected(to, is_part(at, count, room)), read = expected(from, is_part(first, count, length));
    lxr_code wanted = written == LXR_OK ? read : written;
    agree("the code of copy", lxr_array_copy(&now.heap, to, at, from, first, count), wanted);
    if (wanted == LXR_OK && into && out && count) memmove(&into->element[at], &out->element[first], count * sizeof *into->element);
}

static void play_word(void) {
    uint32_t base = some_base(WORDS);
    struct thing *it = holds(base, WORDS) ? now.of[base] : NULL;
    uint32_t index = some_index(it ? it->length : 0);
    uint64_t word = some_word(), before = word;
    bool fits = it && index < it->length, puts = one_in(2);
    agree("the code of a word", puts ? lxr_words_put(&now.heap, base, index, word) : lxr_words_get(&now.heap, base, index, &word),
          expected(base, fits));
    if (fits && puts) it->word[index] = word;
    agree("a word", word, fits ? it->word[index] : before);
}

static void play_words(void) {
    static uint64_t buffer[LONGEST];
    uint32_t base = some_base(WORDS);
    struct thing *it = holds(base, WORDS) ? now.of[base] : NULL;
    uint32_t length = it ? it->length : 0, first = some_index(length), count = some_count(first, length);
    bool fits = is_part(first, count, length);
    if (one_in(2)) {
        for (uint32_t at = 0; fits && at < count; at++) buffer[at] = some_word();
        agree("the code of write", lxr_words_write(&now.heap, base, first, buffer, count), expected(base, fits));
        if (it && fits && count) memcpy(&it->word[first], buffer, count * sizeof *buffer);
    } else {
        memset(buffer, 0, sizeof buffer);
        agree("the code of read", lxr_words_read(&now.heap, base, first, buffer, count), expected(base, fits));
        if (it && fits && count && memcmp(&it->word[first], buffer, count * sizeof *buffer) != 0) differ("read: other words");
    }
}

static void play_registers(void) {
    uint32_t dest = some_register(), source = some_register();
    bool lets_go = one_in(3);
    IS(lets_go ? lxr_nil(&now.heap, dest) : lxr_move(&now.heap, dest, source), LXR_OK);
    now.of[dest] = lets_go ? NULL : now.of[source];
    agree_on(dest);
}

static void play_pause(void) { IS(one_in(3) ? lxr_collect(&now.heap) : lxr_pause(&now.heap), LXR_OK); }

/* Each element of an array, and all words. */
static void agree_on_fields(uint32_t base) {
    struct thing *it = now.of[base];
    uint64_t word = 0;
    for (uint32_t index = 0; index < it->length; index++) {
        if (it->sort == WORDS) {
            IS(lxr_words_get(&now.heap, base, index, &word), LXR_OK);
            agree("a word at the end", word, it->word[index]);
        } else {
            IS(lxr_array_load(&now.heap, now.registers - 1, base, index), LXR_OK);
            now.of[now.registers - 1] = it->element[index];
            agree_on(now.registers - 1);
        }
    }
}

/* Each call with how often it is made, of all their sum. */
static const struct {
    void (*call)(void);
    uint32_t share;
} kinds[] = {
    { play_new, 30 },  { play_length, 20 }, { play_load, 80 },  { play_store, 100 },    { play_fill, 30 },
    { play_copy, 60 }, { play_word, 60 },   { play_words, 30 }, { play_registers, 40 }, { play_pause, 1 },
};

static void make_call(void) {
    uint32_t all = 0, at = 0;
    for (size_t kind = 0; kind < sizeof kinds / sizeof *kinds; kind++) all += kinds[kind].share;
    for (uint32_t drawn = below(all); drawn >= kinds[at].share; at++) drawn -= kinds[at].share;
    kinds[at].call();
    calls++;
}

static void play_round(void) {
    static const uint32_t registers[] = { 16, 17, 64, 254 };
    calls = 0;
    state = seed;
    memset(&now, 0, sizeof now);
    now.registers = registers[below(4)];
    lxr_settings settings = LXR_SETTINGS(one_in(2) ? 4 + below(12) : 64 + below(200), 1 + below(64));
    settings.registers = now.registers;
    settings.pace = one_in(2) ? LXR_PACE_ROOM : one_in(2) ? LXR_PACE_NEVER : below(20000);
    IS(lxr_open(&now.heap, &settings), LXR_OK);
    now.of[0] = make_thing(TOKEN, 0);
    while (calls < CALLS) make_call();
    for (uint32_t base = 1; base < 10; base++)
        if (now.of[base]) agree_on_fields(base);
    IS(lxr_close(&now.heap), LXR_OK);
    free_things();
    sums.rounds++;
    sums.calls += calls;
}

int main(int count, char **words) {
    static const uint32_t lengths[] = { 0, 1, 2, 1022, 1023, 1024, 1025, 2045, 2046, 2047, 4095, 4096, 10000 };
    static const uint32_t registers[] = { 16, 17, 64, 253, 254, 255, 256 };
    if (count < 2 || count > 3) {
        fputs("usage: arrays SECONDS [SEED]\n", stderr);
        return 2;
    }
    for (size_t at = 0; at < sizeof registers / sizeof *registers; at++) try_numbers(registers[at]);
    try_without_place(255);
    try_without_place(256);
    for (size_t at = 0; at < sizeof lengths / sizeof *lengths; at++) try_ends(lengths[at]);
    try_shapes();
    try_other_objects();
    try_shared_part();
    try_what_is_kept();
    try_full();
    try_refused();
    time_t end = time(NULL) + strtol(words[1], NULL, 10);
    seed = count == 3 ? strtoull(words[2], NULL, 10) : 1;
    do {
        play_round();
        seed++;
    } while (time(NULL) < end);
    printf("arrays: %" PRIu64 " rounds, %" PRIu64 " calls, %" PRIu64 " times full, ", sums.rounds, sums.calls, sums.full);
    printf("%" PRIu64 " times refused\n", sums.refused);
    return 0;
}
