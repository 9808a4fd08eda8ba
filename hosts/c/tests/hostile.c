/*
 * hostile.c: calls that a careful host never makes, each with the code that it is answered. SPDX: MIT OR Apache-2.0
 *
 * Every code, in every state of a handle: zeros, open, opened twice, closed, closed twice, used after closing, opened again, two heaps at
 * once. Whatever is refused changes nothing: not the handle, no register, no object, and no out parameter.
 */
#include "../lxr.h"

#include <inttypes.h>
#include <stdio.h>
#include <stdlib.h>
#include <string.h>

#define UNTOUCHED 0xA5A5A5A5u
#define LAST      UINT32_MAX

/* The bytes of settings of version 0.2, which end before the registers. */
#define FIRST 24

/* Of those that end before the room. */
#define SECOND 32

/* Of those that end before the work. */
#define THIRD 40

static unsigned long checks;

static void check(uint64_t found, uint64_t wanted, const char *what, int line) {
    checks++;
    if (found == wanted) return;
    fprintf(stderr, "hostile.c:%d: %s is %" PRIu64 ", not %" PRIu64 "\n", line, what, found, wanted);
    exit(1);
}

#define IS(what, wanted) check(what, wanted, #what, __LINE__)

/* The out parameters of all calls. A refused call leaves them as `wipe` made them. */
static uint32_t narrow, refs, words, blocks;
static uint64_t wide, many[8];
static const uint64_t *first_word;

static void wipe(void) {
    first_word = NULL;
    narrow = refs = words = blocks = UNTOUCHED;
    wide = UNTOUCHED;
    for (size_t at = 0; at < 8; at++) many[at] = UNTOUCHED;
}

static void is_untouched(int line) {
    check(narrow, UNTOUCHED, "the out parameter of a refused call", line);
    check(refs, UNTOUCHED, "the references of a refused call", line);
    check(words, UNTOUCHED, "the words of a refused call", line);
    check(blocks, UNTOUCHED, "the blocks of a refused call", line);
    check(wide, UNTOUCHED, "the word of a refused call", line);
    check(first_word == NULL, 1, "the place of a refused call", line);
    for (size_t at = 0; at < 8; at++) check(many[at], UNTOUCHED, "a word of the buffer of a refused call", line);
}

/* A refused call. */
#define REFUSED(call, code) (wipe(), check(call, code, #call, __LINE__), is_untouched(__LINE__))

/* Operations: the call's code, and how many are done, which is told at any code. */
#define APPLIES(heap, operations, count, code, are_done) \
    (done = UNTOUCHED, check(lxr_apply(heap, operations, count, &done), code, "lxr_apply", __LINE__), \
     check(done, are_done, "the operations that are done", __LINE__))

static size_t done;

/* Registers and words of more fields than an object has. */
static uint32_t long_registers[LXR_MOST_REFS + 2];
static uint64_t long_words[LXR_MOST_WORDS + 2];

/* How many registers heaps are opened with. */
static uint32_t many_registers = LXR_REGISTERS;

/* ---- Handles ---- */

static void refuses_several(lxr_heap *heap, uint32_t n) {
    const uint32_t some[2] = { n, n };
    lxr_operation operations[2] = { { n, n, n, n, UNTOUCHED }, { LXR_OP_GET, 1, 0, 0, UNTOUCHED } };
    REFUSED(lxr_new_with(heap, n, some, 2, many, 8), LXR_E_NO_HEAP);
    REFUSED(lxr_get_many(heap, n, n, many, 8), LXR_E_NO_HEAP);
    REFUSED(lxr_put_many(heap, n, n, many, 8), LXR_E_NO_HEAP);
    REFUSED(lxr_load_many(heap, n, n, some, 2), LXR_E_NO_HEAP);
    REFUSED(lxr_store_many(heap, n, n, some, 2), LXR_E_NO_HEAP);
    REFUSED(lxr_get_many(heap, n, n, many, 0), LXR_E_NO_HEAP);
    APPLIES(heap, operations, 2, LXR_E_NO_HEAP, 0);
    APPLIES(heap, operations, 0, LXR_E_NO_HEAP, 0);
    for (int at = 0; at < 2; at++) IS(operations[at].word, UNTOUCHED);
}

/* Each call on an empty handle, with numbers that would be right and with ones that never are. */
static void refuses_all(lxr_heap *heap) {
    static const uint32_t numbers[] = { 0, 1, 16, LAST };
    for (size_t at = 0; at < sizeof numbers / sizeof *numbers; at++) {
        uint32_t n = numbers[at];
        REFUSED(lxr_close(heap), LXR_E_NO_HEAP);
        REFUSED(lxr_new(heap, n, n, n), LXR_E_NO_HEAP);
        REFUSED(lxr_load(heap, n, n, n), LXR_E_NO_HEAP);
        REFUSED(lxr_store(heap, n, n, n), LXR_E_NO_HEAP);
        REFUSED(lxr_get(heap, n, n, &wide), LXR_E_NO_HEAP);
        REFUSED(lxr_put(heap, n, n, 7), LXR_E_NO_HEAP);
        REFUSED(lxr_same(heap, n, n, &narrow), LXR_E_NO_HEAP);
        REFUSED(lxr_move(heap, n, n), LXR_E_NO_HEAP);
        REFUSED(lxr_nil(heap, n), LXR_E_NO_HEAP);
        REFUSED(lxr_is_nil(heap, n, &narrow), LXR_E_NO_HEAP);
        REFUSED(lxr_registers_in_use(heap, n), LXR_E_NO_HEAP);
        REFUSED(lxr_shape(heap, n, &refs, &words, &blocks), LXR_E_NO_HEAP);
        REFUSED(lxr_large_new(heap, n, n), LXR_E_NO_HEAP);
        REFUSED(lxr_large_get(heap, n, n, &wide), LXR_E_NO_HEAP);
        REFUSED(lxr_large_put(heap, n, n, 7), LXR_E_NO_HEAP);
        REFUSED(lxr_large_read(heap, n, n, many, 8), LXR_E_NO_HEAP);
        REFUSED(lxr_large_write(heap, n, n, many, 8), LXR_E_NO_HEAP);
        refuses_several(heap, n);
        REFUSED(lxr_pause(heap), LXR_E_NO_HEAP);
        REFUSED(lxr_collect(heap), LXR_E_NO_HEAP);
        REFUSED(lxr_set_pace(heap, n), LXR_E_NO_HEAP);
        REFUSED(lxr_set_room(heap, n), LXR_E_NO_HEAP);
        REFUSED(lxr_set_grow(heap, n), LXR_E_NO_HEAP);
        REFUSED(lxr_trim(heap), LXR_E_NO_HEAP);
        REFUSED(lxr_trim_next(heap, n, &narrow), LXR_E_NO_HEAP);
        REFUSED(lxr_first_word(heap, &first_word), LXR_E_NO_HEAP);
        REFUSED(lxr_set_work(heap, n), LXR_E_NO_HEAP);
        REFUSED(lxr_work(heap, n, &narrow), LXR_E_NO_HEAP);
        REFUSED(lxr_count(heap, n, &wide), LXR_E_NO_HEAP);
    }
}

/* Opens a heap without pauses but those that are asked for or needed, whose room stays all. */
static lxr_code open_heap(lxr_heap *heap, uint32_t of_blocks, uint32_t of_bodies) {
    lxr_settings settings = LXR_SETTINGS(of_blocks, of_bodies);
    settings.pace = LXR_PACE_NEVER;
    settings.grow = 0;
    settings.registers = many_registers;
    return lxr_open(heap, &settings);
}

/* Settings of another size than there is are refused, whatever else they have. */
static void refuses_sizes_of_settings(lxr_heap *heap) {
    static const uint64_t wrong[] = { 0,
                                      1,
                                      8,
                                      FIRST - 8,
                                      FIRST - 1,
                                      FIRST + 1,
                                      SECOND - 1,
                                      SECOND + 1,
                                      THIRD - 1,
                                      THIRD + 1,
                                      sizeof(lxr_settings) - 1,
                                      sizeof(lxr_settings) + 1,
                                      1u << 31,
                                      UINT64_MAX };
    for (size_t at = 0; at < sizeof wrong / sizeof *wrong; at++) {
        lxr_settings settings = LXR_SETTINGS(1, 1);
        settings.size = wrong[at];
        REFUSED(lxr_open(heap, &settings), LXR_E_SIZE);
        REFUSED(lxr_close(heap), LXR_E_NO_HEAP);
    }
}

/* An opening with sizes that there aren't leaves the handle empty; each of the two numbers is looked at. */
static void refuses_sizes_of_heaps(lxr_heap *heap) {
    static const uint32_t wrong[] = { 0, LXR_MOST_BLOCKS + 1, 1u << 31, LAST };
    for (size_t at = 0; at < sizeof wrong / sizeof *wrong; at++) {
        REFUSED(open_heap(heap, wrong[at], 1), LXR_E_SIZE);
        REFUSED(open_heap(heap, 1, wrong[at]), LXR_E_SIZE);
        REFUSED(open_heap(heap, wrong[at], wrong[at]), LXR_E_SIZE);
        REFUSED(lxr_close(heap), LXR_E_NO_HEAP);
    }
}

/* So is one with a number of registers that there isn't. */
static void refuses_numbers_of_registers(lxr_heap *heap) {
    static const uint32_t wrong[] = { 1, 15, 257, 1u << 16, 65536 + 16, 1u << 31, LAST };
    for (size_t at = 0; at < sizeof wrong / sizeof *wrong; at++) {
        lxr_settings settings = LXR_SETTINGS(1, 1);
        settings.registers = wrong[at];
        REFUSED(lxr_open(heap, &settings), LXR_E_SIZE);
        REFUSED(lxr_close(heap), LXR_E_NO_HEAP);
    }
}

/* So is one with room for more than it has, or with a growth that there isn't; settings that end before both say neither. */
static void refuses_rooms(lxr_heap *heap) {
    static const uint32_t wrong[] = { 10, 1u << 16, 1u << 31, LAST }, growths[] = { LXR_MOST_GROW + 1, 1u << 16, 1u << 31, LAST };
    for (size_t at = 0; at < sizeof wrong / sizeof *wrong; at++) {
        lxr_settings settings = LXR_SETTINGS(9, 1);
        settings.room = wrong[at];
        REFUSED(lxr_open(heap, &settings), LXR_E_SIZE);
        settings.room = 9;
        settings.grow = growths[at];
        REFUSED(lxr_open(heap, &settings), LXR_E_SIZE);
        REFUSED(lxr_close(heap), LXR_E_NO_HEAP);
    }
}

/* So is one with more work than there may be; settings that end before it say none. */
static void refuses_work(lxr_heap *heap) {
    static const uint32_t wrong[] = { LXR_MOST_WORK + 1, 1u << 31, LAST };
    for (size_t at = 0; at < sizeof wrong / sizeof *wrong; at++) {
        lxr_settings settings = LXR_SETTINGS(9, 1);
        settings.work = wrong[at];
        REFUSED(lxr_open(heap, &settings), LXR_E_SIZE);
        REFUSED(lxr_close(heap), LXR_E_NO_HEAP);
    }
}

/* A heap of these settings has so many registers: the last one is nil, and there is none behind it. */
static void opens_with_registers(const lxr_settings *settings, uint32_t wanted) {
    lxr_heap heap = LXR_HEAP_INIT;
    IS(lxr_open(&heap, settings), LXR_OK);
    IS(lxr_is_nil(&heap, wanted - 1, &narrow), LXR_OK);
    IS(narrow, 1);
    REFUSED(lxr_is_nil(&heap, wanted, &narrow), LXR_E_REGISTER);
    IS(lxr_new(&heap, wanted - 1, 1, 1), LXR_OK);
    REFUSED(lxr_new(&heap, wanted, 1, 1), LXR_E_REGISTER);
    IS(lxr_collect(&heap), LXR_OK);
    IS(lxr_is_nil(&heap, wanted - 1, &narrow), LXR_OK);
    IS(narrow, 0);
    IS(lxr_close(&heap), LXR_OK);
}

/* Each number of registers that there is, 16 where 0 is said, and 16 by settings of version 0.2, behind which nothing is read. */
static void numbers_of_registers(void) {
    static const uint32_t right[] = { 16, 17, 31, 32, 64, 255, 256 };
    lxr_settings settings = LXR_SETTINGS(1, 1);
    opens_with_registers(&settings, LXR_REGISTERS);
    for (size_t at = 0; at < sizeof right / sizeof *right; at++) {
        settings.registers = right[at];
        opens_with_registers(&settings, right[at]);
    }
    settings.registers = 0;
    opens_with_registers(&settings, LXR_REGISTERS);
    void *first = malloc(FIRST);
    if (!first) exit(5);
    settings.size = FIRST;
    memcpy(first, &settings, FIRST);
    opens_with_registers(first, LXR_REGISTERS);
    free(first);
    void *second = malloc(SECOND);
    if (!second) exit(5);
    settings.size = SECOND;
    settings.registers = 64;
    memcpy(second, &settings, SECOND);
    opens_with_registers(second, 64);
    free(second);
    void *third = malloc(THIRD);
    if (!third) exit(5);
    settings.size = THIRD;
    memcpy(third, &settings, THIRD);
    opens_with_registers(third, 64);
    free(third);
}

/* Whether a heap is as it is opened. */
static void is_opened(lxr_heap *heap) {
    IS(lxr_shape(heap, 0, &refs, &words, &blocks), LXR_OK);
    IS(refs, LXR_WORLD_REFS);
    IS(words, 0);
    IS(blocks, 0);
    for (uint32_t at = 0; at < many_registers; at++) {
        IS(lxr_is_nil(heap, at, &narrow), LXR_OK);
        IS(narrow, at != 0);
    }
    for (uint32_t index = 0; index < LXR_WORLD_REFS; index++) {
        IS(lxr_load(heap, 1, 0, index), LXR_OK);
        IS(lxr_is_nil(heap, 1, &narrow), LXR_OK);
        IS(narrow, 1);
    }
    for (uint32_t what = LXR_COUNT_PAUSES; what <= LXR_COUNT_LIVE; what++) {
        IS(lxr_count(heap, what, &wide), LXR_OK);
        IS(wide, 0);
    }
}

static void handles(void) {
    static lxr_heap zeros;
    lxr_heap heap = LXR_HEAP_INIT, *on_heap = calloc(1, sizeof *on_heap);
    if (!on_heap) exit(5);
    refuses_all(&zeros);
    refuses_all(&heap);
    refuses_all(on_heap);
    refuses_sizes_of_settings(&heap);
    refuses_sizes_of_heaps(&heap);
    refuses_numbers_of_registers(&heap);
    refuses_rooms(&heap);
    refuses_work(&heap);
    IS(open_heap(&heap, 4, 2), LXR_OK);
    is_opened(&heap);
    REFUSED(open_heap(&heap, 4, 2), LXR_E_IN_USE);
    REFUSED(open_heap(&heap, 0, LAST), LXR_E_IN_USE);
    is_opened(&heap);
    IS(lxr_close(&heap), LXR_OK);
    refuses_all(&heap);
    for (int again = 0; again < 3; again++) {
        IS(open_heap(&heap, 1, 1), LXR_OK);
        is_opened(&heap);
        IS(lxr_new(&heap, 3, 2, 2), LXR_OK);
        IS(lxr_store(&heap, 0, 63, 3), LXR_OK);
        IS(lxr_close(&heap), LXR_OK);
        refuses_all(&heap);
    }
    free(on_heap);
}

/* What is done on one of two heaps shows on that one alone, also where the other is closed. */
static void two_heaps(void) {
    lxr_heap left = LXR_HEAP_INIT, right = LXR_HEAP_INIT;
    IS(open_heap(&left, 2, 2), LXR_OK);
    IS(open_heap(&right, 3, 3), LXR_OK);
    IS(lxr_new(&left, 1, 1, 1), LXR_OK);
    IS(lxr_new(&right, 1, 1, 1), LXR_OK);
    IS(lxr_put(&left, 1, 0, 5), LXR_OK);
    IS(lxr_put(&right, 1, 0, 6), LXR_OK);
    IS(lxr_store(&left, 0, 0, 1), LXR_OK);
    IS(lxr_nil(&left, 1), LXR_OK);
    IS(lxr_collect(&left), LXR_OK);
    IS(lxr_get(&right, 1, 0, &wide), LXR_OK);
    IS(wide, 6);
    IS(lxr_count(&right, LXR_COUNT_PAUSES, &wide), LXR_OK);
    IS(wide, 0);
    IS(lxr_load(&right, 2, 0, 0), LXR_OK);
    IS(lxr_is_nil(&right, 2, &narrow), LXR_OK);
    IS(narrow, 1);
    IS(lxr_close(&right), LXR_OK);
    IS(lxr_load(&left, 2, 0, 0), LXR_OK);
    IS(lxr_get(&left, 2, 0, &wide), LXR_OK);
    IS(wide, 5);
    IS(lxr_close(&left), LXR_OK);
}

/* ---- Operations ---- */

/* One operation that is refused, after one that would change register 1's object: that isn't done either. */
static void refuses_operation(lxr_heap *heap, lxr_operation it, lxr_code code, int line) {
    lxr_operation operations[3] = { { LXR_OP_PUT, 1, 0, LAST, 99 }, it, { LXR_OP_NIL, 1, LAST, LAST, 0 } };
    done = UNTOUCHED;
    check(lxr_apply(heap, operations, 3, &done), code, "lxr_apply", line);
    check(done, 0, "the operations that are done", line);
    check(operations[1].word, it.word, "the word of a refused operation", line);
    check(lxr_get(heap, 1, 0, &wide), LXR_OK, "lxr_get", line);
    check(wide, 10, "a word after refused operations", line);
}

#define REFUSES(heap, op, a, b, c, code) refuses_operation(heap, (lxr_operation){ op, a, b, c, UNTOUCHED }, code, __LINE__)

static void registers_of_operations(lxr_heap *heap, uint32_t n) {
    REFUSES(heap, LXR_OP_NEW, n, 1, 1, LXR_E_REGISTER);
    REFUSES(heap, LXR_OP_NEW, n, LAST, 1024, LXR_E_REGISTER);
    REFUSES(heap, LXR_OP_LOAD, n, 1, 0, LXR_E_REGISTER);
    REFUSES(heap, LXR_OP_LOAD, 3, n, LAST, LXR_E_REGISTER);
    REFUSES(heap, LXR_OP_STORE, n, 0, 3, LXR_E_REGISTER);
    REFUSES(heap, LXR_OP_STORE, 1, LAST, n, LXR_E_REGISTER);
    REFUSES(heap, LXR_OP_GET, n, 0, 0, LXR_E_REGISTER);
    REFUSES(heap, LXR_OP_PUT, n, 0, 0, LXR_E_REGISTER);
    REFUSES(heap, LXR_OP_SAME, n, 1, 0, LXR_E_REGISTER);
    REFUSES(heap, LXR_OP_SAME, 1, n, 0, LXR_E_REGISTER);
    REFUSES(heap, LXR_OP_MOVE, n, 1, 0, LXR_E_REGISTER);
    REFUSES(heap, LXR_OP_MOVE, 3, n, 0, LXR_E_REGISTER);
    REFUSES(heap, LXR_OP_NIL, n, 0, 0, LXR_E_REGISTER);
    REFUSES(heap, LXR_OP_IS_NIL, n, 0, 0, LXR_E_REGISTER);
}

/* Operations that there aren't, whatever their numbers; sizes; and which of several is told: the first. */
static void operations_that_are_none(lxr_heap *heap) {
    static const uint32_t wrong[] = { 9, 10, 11, 255, 256, 1u << 31, LAST };
    for (size_t at = 0; at < sizeof wrong / sizeof *wrong; at++) {
        REFUSES(heap, wrong[at], 1, 1, 1, LXR_E_WHAT);
        REFUSES(heap, wrong[at], LAST, LAST, LAST, LXR_E_WHAT);
        lxr_operation two[2] = { { LXR_OP_NIL, many_registers, 0, 0, 0 }, { wrong[at], 0, 0, 0, 0 } };
        APPLIES(heap, two, 2, LXR_E_REGISTER, 0);
        two[0] = (lxr_operation){ wrong[at], many_registers, 0, 0, 0 };
        two[1] = (lxr_operation){ LXR_OP_NEW, 3, 1024, 0, 0 };
        APPLIES(heap, two, 2, LXR_E_WHAT, 0);
    }
    REFUSES(heap, LXR_OP_NEW, 3, 1024, 0, LXR_E_SIZE);
    REFUSES(heap, LXR_OP_NEW, 3, 0, 1024, LXR_E_SIZE);
    REFUSES(heap, LXR_OP_NEW, 3, LAST, LAST, LXR_E_SIZE);
    lxr_operation two[2] = { { LXR_OP_NEW, 3, 0, 1024, 0 }, { LXR_OP_NIL, many_registers, 0, 0, 0 } };
    APPLIES(heap, two, 2, LXR_E_SIZE, 0);
    APPLIES(heap, two, 0, LXR_OK, 0);
}

/* What an operation finds as it comes: those before it are done, and none after it. */
static void operations_that_stop(lxr_heap *heap, lxr_operation it, lxr_code code) {
    lxr_operation operations[4] = {
        { LXR_OP_PUT, 1, 0, LAST, 99 }, { LXR_OP_GET, 1, 1, LAST, UNTOUCHED }, it, { LXR_OP_PUT, 1, 0, 0, 98 }
    };
    APPLIES(heap, operations, 4, code, 2);
    IS(operations[1].word, 11);
    IS(operations[2].word, UNTOUCHED);
    IS(lxr_get(heap, 1, 0, &wide), LXR_OK);
    IS(wide, 99);
    IS(lxr_put(heap, 1, 0, 10), LXR_OK);
}

#define STOPS(heap, op, a, b, c, code) operations_that_stop(heap, (lxr_operation){ op, a, b, c, UNTOUCHED }, code)

static void stops(lxr_heap *heap) {
    STOPS(heap, LXR_OP_LOAD, 3, 15, LAST, LXR_E_NIL);
    STOPS(heap, LXR_OP_STORE, 15, LAST, 1, LXR_E_NIL);
    STOPS(heap, LXR_OP_GET, 15, 0, 0, LXR_E_NIL);
    STOPS(heap, LXR_OP_PUT, 15, 0, 0, LXR_E_NIL);
    STOPS(heap, LXR_OP_LOAD, 3, 1, 2, LXR_E_INDEX);
    STOPS(heap, LXR_OP_STORE, 1, 2, 1, LXR_E_INDEX);
    STOPS(heap, LXR_OP_GET, 1, 3, 0, LXR_E_INDEX);
    STOPS(heap, LXR_OP_PUT, 1, LAST, 0, LXR_E_INDEX);
    STOPS(heap, LXR_OP_GET, 2, 0, 0, LXR_E_INDEX);
}

/* ---- Numbers ---- */

/* A register that there isn't, in each place of several, also where much else is wrong. */
static void registers_of_several(lxr_heap *heap, uint32_t n) {
    REFUSED(lxr_new_with(heap, n, long_registers, 2, many, 8), LXR_E_REGISTER);
    REFUSED(lxr_new_with(heap, n, long_registers, 1024, long_words, 1024), LXR_E_REGISTER);
    REFUSED(lxr_get_many(heap, n, 0, many, 8), LXR_E_REGISTER);
    REFUSED(lxr_put_many(heap, n, LAST, many, 8), LXR_E_REGISTER);
    REFUSED(lxr_load_many(heap, n, 0, long_registers, 2), LXR_E_REGISTER);
    REFUSED(lxr_store_many(heap, n, LAST, long_registers, 2), LXR_E_REGISTER);
    REFUSED(lxr_get_many(heap, n, 0, many, 0), LXR_E_REGISTER);
    for (size_t at = 0; at < 4; at++) {
        uint32_t some[4] = { 3, 4, 5, 6 };
        some[at] = n;
        REFUSED(lxr_new_with(heap, 7, some, 4, many, 8), LXR_E_REGISTER);
        REFUSED(lxr_new_with(heap, 7, some, 4, many, 1024), LXR_E_REGISTER);
        REFUSED(lxr_load_many(heap, 1, 0, some, 4), LXR_E_REGISTER);
        REFUSED(lxr_load_many(heap, 15, LAST, some, 4), LXR_E_REGISTER);
        REFUSED(lxr_store_many(heap, 1, 0, some, 4), LXR_E_REGISTER);
        REFUSED(lxr_store_many(heap, 15, LAST, some, 4), LXR_E_REGISTER);
    }
    long_registers[1023] = n;
    REFUSED(lxr_new_with(heap, 7, long_registers, 1024, many, 8), LXR_E_REGISTER);
    REFUSED(lxr_load_many(heap, 1, 0, long_registers, 1024), LXR_E_REGISTER);
    REFUSED(lxr_store_many(heap, 1, 0, long_registers, 1024), LXR_E_REGISTER);
    long_registers[1023] = 3;
}

/* A register that is written to, among those that are read. */
static void registers_among_others(lxr_heap *heap) {
    for (size_t at = 0; at < 4; at++) {
        uint32_t some[4] = { 3, 4, 5, 6 };
        some[at] = 1;
        REFUSED(lxr_new_with(heap, 1, some, 4, many, 8), LXR_E_REGISTER);
        REFUSED(lxr_new_with(heap, 1, some, 4, many, 1024), LXR_E_REGISTER);
        REFUSED(lxr_load_many(heap, 1, 0, some, 4), at < 3 ? LXR_E_REGISTER : LXR_E_INDEX);
        REFUSED(lxr_store_many(heap, 1, 0, some, 4), LXR_E_INDEX);
        some[3] = 1;
        REFUSED(lxr_load_many(heap, 1, LAST, some, 4), at < 3 ? LXR_E_REGISTER : LXR_E_INDEX);
    }
}

/* A register that there isn't, in each place that has one. */
static void registers(lxr_heap *heap) {
    const uint32_t wrong[] = { many_registers, many_registers + 1, 256, 257, 65536 + 3, 1u << 31, LAST };
    for (size_t at = 0; at < sizeof wrong / sizeof *wrong; at++) {
        uint32_t n = wrong[at];
        REFUSED(lxr_new(heap, n, 1, 1), LXR_E_REGISTER);
        REFUSED(lxr_new(heap, n, LAST, LAST), LXR_E_REGISTER);
        REFUSED(lxr_load(heap, n, 0, 0), LXR_E_REGISTER);
        REFUSED(lxr_load(heap, 0, n, 0), LXR_E_REGISTER);
        REFUSED(lxr_load(heap, n, 15, LAST), LXR_E_REGISTER);
        REFUSED(lxr_store(heap, n, 0, 0), LXR_E_REGISTER);
        REFUSED(lxr_store(heap, 0, 0, n), LXR_E_REGISTER);
        REFUSED(lxr_store(heap, 15, LAST, n), LXR_E_REGISTER);
        REFUSED(lxr_get(heap, n, 0, &wide), LXR_E_REGISTER);
        REFUSED(lxr_put(heap, n, 0, 7), LXR_E_REGISTER);
        REFUSED(lxr_same(heap, n, 0, &narrow), LXR_E_REGISTER);
        REFUSED(lxr_same(heap, 0, n, &narrow), LXR_E_REGISTER);
        REFUSED(lxr_move(heap, n, 0), LXR_E_REGISTER);
        REFUSED(lxr_move(heap, 0, n), LXR_E_REGISTER);
        REFUSED(lxr_nil(heap, n), LXR_E_REGISTER);
        REFUSED(lxr_is_nil(heap, n, &narrow), LXR_E_REGISTER);
        if (n != many_registers) REFUSED(lxr_registers_in_use(heap, n), LXR_E_REGISTER);
        REFUSED(lxr_shape(heap, n, &refs, &words, &blocks), LXR_E_REGISTER);
        REFUSED(lxr_large_new(heap, n, 1), LXR_E_REGISTER);
        REFUSED(lxr_large_new(heap, n, 0), LXR_E_REGISTER);
        REFUSED(lxr_large_get(heap, n, 0, &wide), LXR_E_REGISTER);
        REFUSED(lxr_large_put(heap, n, 0, 7), LXR_E_REGISTER);
        REFUSED(lxr_large_read(heap, n, 0, many, 8), LXR_E_REGISTER);
        REFUSED(lxr_large_write(heap, n, 0, many, 8), LXR_E_REGISTER);
        registers_of_several(heap, n);
        registers_of_operations(heap, n);
    }
    REFUSED(lxr_registers_in_use(heap, 0), LXR_E_REGISTER);
    registers_among_others(heap);
}

static void sizes_of_several(lxr_heap *heap) {
    static const size_t wrong[] = {
        1024,         1025,          65535,         65536,        SIZE_MAX >> 32, (SIZE_MAX >> 32) + 1, (SIZE_MAX >> 32) + 2,
        SIZE_MAX / 8, SIZE_MAX >> 2, SIZE_MAX >> 1, SIZE_MAX - 1, SIZE_MAX
    };
    for (size_t at = 0; at < sizeof wrong / sizeof *wrong; at++) {
        REFUSED(lxr_new_with(heap, 5, long_registers, 0, many, wrong[at]), LXR_E_SIZE);
        REFUSED(lxr_new_with(heap, 5, long_registers, 1024, many, wrong[at]), LXR_E_SIZE);
        REFUSED(lxr_get_many(heap, 1, 0, many, wrong[at]), LXR_E_INDEX);
        REFUSED(lxr_put_many(heap, 1, 0, many, wrong[at]), LXR_E_INDEX);
        REFUSED(lxr_get_many(heap, 1, 2, many, wrong[at]), LXR_E_INDEX);
        REFUSED(lxr_put_many(heap, 1, LAST, many, wrong[at]), LXR_E_INDEX);
    }
    REFUSED(lxr_new_with(heap, 5, long_registers, 1024, many, 0), LXR_E_SIZE);
    REFUSED(lxr_new_with(heap, 5, long_registers, 1025, long_words, 1025), LXR_E_SIZE);
    REFUSED(lxr_new_with(heap, 5, long_registers, 1024, long_words, 1023), LXR_E_SIZE);
}

static void sizes(lxr_heap *heap) {
    static const uint32_t wrong[] = { 1024, 65535, 65536, 1u << 31, LAST };
    for (size_t at = 0; at < sizeof wrong / sizeof *wrong; at++) {
        REFUSED(lxr_new(heap, 5, wrong[at], 0), LXR_E_SIZE);
        REFUSED(lxr_new(heap, 5, 0, wrong[at]), LXR_E_SIZE);
        REFUSED(lxr_new(heap, 5, wrong[at], wrong[at]), LXR_E_SIZE);
        REFUSED(lxr_large_new(heap, 5, wrong[at]), LXR_E_SIZE);
    }
    REFUSED(lxr_large_new(heap, 5, 0), LXR_E_SIZE);
    REFUSED(lxr_large_new(heap, 5, 129), LXR_E_SIZE);
    sizes_of_several(heap);
}

static void nils(lxr_heap *heap) {
    static const uint32_t indices[] = { 0, 1023, LAST };
    for (size_t at = 0; at < sizeof indices / sizeof *indices; at++) {
        uint32_t index = indices[at];
        REFUSED(lxr_load(heap, 0, 15, index), LXR_E_NIL);
        REFUSED(lxr_store(heap, 15, index, 0), LXR_E_NIL);
        REFUSED(lxr_get(heap, 15, index, &wide), LXR_E_NIL);
        REFUSED(lxr_put(heap, 15, index, 7), LXR_E_NIL);
        REFUSED(lxr_large_get(heap, 15, index, &wide), LXR_E_NIL);
        REFUSED(lxr_large_put(heap, 15, index, 7), LXR_E_NIL);
        REFUSED(lxr_large_read(heap, 15, index, many, 8), LXR_E_NIL);
        REFUSED(lxr_large_write(heap, 15, index, many, 8), LXR_E_NIL);
        for (size_t count = 0; count < 3; count++) {
            REFUSED(lxr_get_many(heap, 15, index, many, count), LXR_E_NIL);
            REFUSED(lxr_put_many(heap, 15, index, many, count), LXR_E_NIL);
            REFUSED(lxr_load_many(heap, 15, index, long_registers, count), LXR_E_NIL);
            REFUSED(lxr_store_many(heap, 15, index, long_registers, count), LXR_E_NIL);
        }
    }
    REFUSED(lxr_shape(heap, 15, &refs, &words, &blocks), LXR_E_NIL);
}

/* Register 1 has an object with 2 references and 3 words, register 2 a large one of 2 blocks. */
static void indices(lxr_heap *heap) {
    static const uint32_t wrong[] = { 3, 1022, 1023, 1024, 65536, 65537, 1u << 31, LAST - 1, LAST };
    for (size_t at = 0; at < sizeof wrong / sizeof *wrong; at++) {
        uint32_t index = wrong[at];
        REFUSED(lxr_load(heap, 4, 1, index), LXR_E_INDEX);
        REFUSED(lxr_store(heap, 1, index, 0), LXR_E_INDEX);
        REFUSED(lxr_get(heap, 1, index, &wide), LXR_E_INDEX);
        REFUSED(lxr_put(heap, 1, index, 7), LXR_E_INDEX);
        REFUSED(lxr_large_get(heap, 1, index, &wide), LXR_E_INDEX);
        REFUSED(lxr_large_put(heap, 1, index, 7), LXR_E_INDEX);
        REFUSED(lxr_load(heap, 4, 2, index), LXR_E_INDEX);
        REFUSED(lxr_store(heap, 2, index, 0), LXR_E_INDEX);
        REFUSED(lxr_get(heap, 2, index, &wide), LXR_E_INDEX);
        REFUSED(lxr_put(heap, 2, index, 7), LXR_E_INDEX);
    }
    REFUSED(lxr_load(heap, 4, 1, 2), LXR_E_INDEX);
    REFUSED(lxr_store(heap, 1, 2, 1), LXR_E_INDEX);
    REFUSED(lxr_load(heap, 4, 0, LXR_WORLD_REFS), LXR_E_INDEX);
    REFUSED(lxr_store(heap, 0, LXR_WORLD_REFS, 0), LXR_E_INDEX);
    REFUSED(lxr_get(heap, 0, 0, &wide), LXR_E_INDEX);
    REFUSED(lxr_put(heap, 0, 0, 7), LXR_E_INDEX);
}

/* Fields that aren't all there, from `first` on: the object has `refs_there` references and `words_there` words. */
static void fields_of_several(lxr_heap *heap, uint32_t base, uint32_t first, uint32_t refs_there, uint32_t words_there) {
    for (size_t count = 0; count < 5; count++) {
        if (first + count > words_there) {
            REFUSED(lxr_get_many(heap, base, first, many, count), LXR_E_INDEX);
            REFUSED(lxr_put_many(heap, base, first, many, count), LXR_E_INDEX);
        }
        if (first + count > refs_there) {
            REFUSED(lxr_load_many(heap, base, first, long_registers, count), LXR_E_INDEX);
            REFUSED(lxr_store_many(heap, base, first, long_registers, count), LXR_E_INDEX);
        }
    }
}

static void indices_of_several(lxr_heap *heap) {
    static const uint32_t firsts[] = { 0, 1, 2, 3, 4, 1022, 1023, 1024, 65536, 1u << 31, LAST - 1, LAST };
    for (size_t at = 0; at < sizeof firsts / sizeof *firsts; at++) {
        fields_of_several(heap, 0, firsts[at], LXR_WORLD_REFS, 0);
        fields_of_several(heap, 1, firsts[at], 2, 3);
        fields_of_several(heap, 2, firsts[at], 0, 0);
    }
    fields_of_several(heap, 0, LXR_WORLD_REFS - 1, LXR_WORLD_REFS, 0);
    fields_of_several(heap, 0, LXR_WORLD_REFS, LXR_WORLD_REFS, 0);
    REFUSED(lxr_load_many(heap, 1, 0, long_registers, 1025), LXR_E_INDEX);
    REFUSED(lxr_store_many(heap, 0, 0, long_registers, 65), LXR_E_INDEX);
    REFUSED(lxr_get_many(heap, 1, 3, many, 0), LXR_OK);
    REFUSED(lxr_put_many(heap, 1, 3, many, 0), LXR_OK);
    REFUSED(lxr_load_many(heap, 1, 2, long_registers, 0), LXR_OK);
    REFUSED(lxr_store_many(heap, 1, 2, long_registers, 0), LXR_OK);
    REFUSED(lxr_get_many(heap, 2, 0, many, 0), LXR_OK);
    REFUSED(lxr_store_many(heap, 2, 0, long_registers, 0), LXR_OK);
}

static void indices_of_bodies(lxr_heap *heap) {
    static const uint32_t wrong[] = { 8192, 8193, 1u << 20, 1u << 31, LAST - 1, LAST };
    uint32_t last = 2 * LXR_BLOCK_WORDS - 1;
    for (size_t at = 0; at < sizeof wrong / sizeof *wrong; at++) {
        REFUSED(lxr_large_get(heap, 2, wrong[at], &wide), LXR_E_INDEX);
        REFUSED(lxr_large_put(heap, 2, wrong[at], 7), LXR_E_INDEX);
        REFUSED(lxr_large_read(heap, 2, wrong[at], many, 1), LXR_E_INDEX);
        REFUSED(lxr_large_write(heap, 2, wrong[at], many, 1), LXR_E_INDEX);
    }
    REFUSED(lxr_large_read(heap, 2, last, many, 2), LXR_E_INDEX);
    REFUSED(lxr_large_write(heap, 2, last, many, 2), LXR_E_INDEX);
    REFUSED(lxr_large_read(heap, 2, last - 6, many, 8), LXR_E_INDEX);
    REFUSED(lxr_large_write(heap, 2, last - 6, many, 8), LXR_E_INDEX);
    REFUSED(lxr_large_read(heap, 1, 0, many, 0), LXR_E_INDEX);
    REFUSED(lxr_large_write(heap, 1, 0, many, 0), LXR_E_INDEX);
    REFUSED(lxr_large_read(heap, 0, 0, many, 1), LXR_E_INDEX);
    REFUSED(lxr_large_write(heap, 0, 0, many, 1), LXR_E_INDEX);
    REFUSED(lxr_large_read(heap, 2, last + 2, many, 0), LXR_E_INDEX);
    REFUSED(lxr_large_read(heap, 2, last + 1, many, 0), LXR_OK);
    REFUSED(lxr_large_write(heap, 2, last + 1, many, 0), LXR_OK);
    IS(lxr_large_put(heap, 2, last, 9), LXR_OK);
    IS(lxr_large_read(heap, 2, last, many, 1), LXR_OK);
    IS(many[0], 9);
    IS(lxr_large_put(heap, 2, last, 0), LXR_OK);
}

static void whats(lxr_heap *heap) {
    static const uint32_t wrong[] = { 8, 9, 1u << 31, LAST };
    for (size_t at = 0; at < sizeof wrong / sizeof *wrong; at++) REFUSED(lxr_count(heap, wrong[at], &wide), LXR_E_WHAT);
    operations_that_are_none(heap);
}

/* What the refused calls were made on is as it was. */
static void is_as_made(lxr_heap *heap) {
    for (uint32_t index = 0; index < 3; index++) {
        IS(lxr_get(heap, 1, index, &wide), LXR_OK);
        IS(wide, 10 + index);
    }
    for (uint32_t index = 0; index < 2; index++) {
        IS(lxr_load(heap, 4, 1, index), LXR_OK);
        IS(lxr_same(heap, 4, index ? 2 : 1, &narrow), LXR_OK);
        IS(narrow, 1);
    }
    for (uint32_t index = 0; index < 2 * LXR_BLOCK_WORDS; index++) {
        IS(lxr_large_get(heap, 2, index, &wide), LXR_OK);
        IS(wide, 0);
    }
    IS(lxr_is_nil(heap, 15, &narrow), LXR_OK);
    IS(narrow, 1);
    IS(lxr_shape(heap, 1, &refs, &words, &blocks), LXR_OK);
    IS(refs, 2);
    IS(words, 3);
    IS(blocks, 0);
    IS(lxr_shape(heap, 2, &refs, &words, &blocks), LXR_OK);
    IS(refs, 0);
    IS(words, 0);
    IS(blocks, 2);
}

/* The same, whatever the number of registers: those that stand behind the first sixteen are nil all along. */
static void numbers(uint32_t registers_there) {
    lxr_heap heap = LXR_HEAP_INIT;
    many_registers = registers_there;
    IS(open_heap(&heap, 4, 4), LXR_OK);
    IS(lxr_new(&heap, 1, 2, 3), LXR_OK);
    IS(lxr_large_new(&heap, 2, 2), LXR_OK);
    IS(lxr_store(&heap, 1, 0, 1), LXR_OK);
    IS(lxr_store(&heap, 1, 1, 2), LXR_OK);
    for (uint32_t index = 0; index < 3; index++) IS(lxr_put(&heap, 1, index, 10 + index), LXR_OK);
    for (int pauses = 0; pauses < 4; pauses++) {
        registers(&heap);
        sizes(&heap);
        nils(&heap);
        indices(&heap);
        indices_of_several(&heap);
        indices_of_bodies(&heap);
        stops(&heap);
        whats(&heap);
        is_as_made(&heap);
        IS(pauses % 2 ? lxr_collect(&heap) : lxr_pause(&heap), LXR_OK);
    }
    IS(lxr_close(&heap), LXR_OK);
    many_registers = LXR_REGISTERS;
}

/* ---- Registers in use ---- */

/* Whether each register but that of the world holds an object with its own number, up to `count`, and the others none. */
static void holds_up_to(lxr_heap *heap, uint32_t count) {
    for (uint32_t at = 1; at < many_registers; at++) {
        IS(lxr_is_nil(heap, at, &narrow), LXR_OK);
        IS(narrow, at >= count);
        IS(lxr_get(heap, at, 0, &wide), at < count ? LXR_OK : LXR_E_NIL);
        if (at < count) IS(wide, at);
    }
    IS(lxr_shape(heap, 0, &refs, &words, &blocks), LXR_OK);
    IS(refs, LXR_WORLD_REFS);
}

static void fill_registers(lxr_heap *heap) {
    for (uint32_t at = 1; at < many_registers; at++) {
        IS(lxr_new(heap, at, 0, 1), LXR_OK);
        IS(lxr_put(heap, at, 0, at), LXR_OK);
    }
}

/* What registers behind the first so many held goes, over pauses of each kind, and what the first ones hold stays. */
static void keeps_in_use(lxr_heap *heap, uint32_t count) {
    for (int pauses = 0; pauses < 4; pauses++) {
        fill_registers(heap);
        if (pauses & 1) IS(lxr_pause(heap), LXR_OK);
        IS(lxr_registers_in_use(heap, many_registers), LXR_OK);
        holds_up_to(heap, many_registers);
        IS(lxr_registers_in_use(heap, count), LXR_OK);
        holds_up_to(heap, count);
        if (pauses & 2) IS(lxr_pause(heap), LXR_OK);
        holds_up_to(heap, count);
        IS(lxr_collect(heap), LXR_OK);
        holds_up_to(heap, count);
        IS(lxr_count(heap, LXR_COUNT_LIVE, &wide), LXR_OK);
        IS(wide, count - 1);
    }
    IS(lxr_registers_in_use(heap, 1), LXR_OK);
    holds_up_to(heap, 1);
}

/* A register behind those in use is written to: from then on it is in use too. */
static void uses_again(lxr_heap *heap) {
    const uint32_t last = many_registers - 1;
    IS(lxr_registers_in_use(heap, 1), LXR_OK);
    IS(lxr_new(heap, 1, 0, 1), LXR_OK);
    IS(lxr_put(heap, 1, 0, 77), LXR_OK);
    IS(lxr_move(heap, last, 1), LXR_OK);
    IS(lxr_nil(heap, 1), LXR_OK);
    for (int pauses = 0; pauses < 3; pauses++) {
        IS(pauses ? lxr_pause(heap) : lxr_collect(heap), LXR_OK);
        IS(lxr_get(heap, last, 0, &wide), LXR_OK);
        IS(wide, 77);
    }
    IS(lxr_registers_in_use(heap, last), LXR_OK);
    IS(lxr_is_nil(heap, last, &narrow), LXR_OK);
    IS(narrow, 1);
    IS(lxr_collect(heap), LXR_OK);
    IS(lxr_count(heap, LXR_COUNT_LIVE, &wide), LXR_OK);
    IS(wide, 0);
}

static void registers_in_use(uint32_t registers_there) {
    const uint32_t counts[] = { 1, 2, 15, 16, registers_there / 2, registers_there - 1, registers_there };
    lxr_heap heap = LXR_HEAP_INIT;
    many_registers = registers_there;
    IS(open_heap(&heap, 2, 1), LXR_OK);
    for (size_t at = 0; at < sizeof counts / sizeof *counts; at++) keeps_in_use(&heap, counts[at]);
    uses_again(&heap);
    IS(lxr_close(&heap), LXR_OK);
    many_registers = LXR_REGISTERS;
}

/* ---- Several at once ---- */

/* Register 1 has an object of four references, to the objects in registers 2 to 4 and to nothing, and of three words. */
static void makes_with(lxr_heap *heap) {
    static const uint32_t sources[4] = { 2, 3, 4, 15 };
    static const uint64_t data[3] = { 10, UINT64_MAX, 12 };
    for (uint32_t at = 2; at <= 4; at++) {
        const uint64_t number = at;
        IS(lxr_new_with(heap, at, sources, 0, &number, 1), LXR_OK);
    }
    IS(lxr_new_with(heap, 1, sources, 4, data, 3), LXR_OK);
    IS(lxr_shape(heap, 1, &refs, &words, &blocks), LXR_OK);
    IS(refs, 4);
    IS(words, 3);
    IS(blocks, 0);
    wipe();
    IS(lxr_get_many(heap, 1, 0, many, 3), LXR_OK);
    for (size_t at = 0; at < 8; at++) IS(many[at], at < 3 ? data[at] : UNTOUCHED);
    IS(lxr_new_with(heap, 9, sources, 0, data, 0), LXR_OK);
    IS(lxr_shape(heap, 9, &refs, &words, &blocks), LXR_OK);
    IS(refs + words + blocks, 0);
}

/* A register holds the object whose word 0 is this number, or none where it is 0. */
static void holds(lxr_heap *heap, uint32_t at, uint64_t number) {
    IS(lxr_get(heap, at, 0, &wide), number ? LXR_OK : LXR_E_NIL);
    if (number) IS(wide, number);
}

/* Registers are read and written in order; the base's own comes last. */
static void loads_and_stores(lxr_heap *heap) {
    static const uint32_t apart[4] = { 5, 6, 7, 8 }, one[4] = { 5, 5, 5, 5 }, back[4] = { 15, 2, 2, 3 }, last[3] = { 6, 5, 1 };
    IS(lxr_load_many(heap, 1, 0, apart, 4), LXR_OK);
    for (uint32_t at = 5; at <= 8; at++) holds(heap, at, at < 8 ? at - 3 : 0);
    IS(lxr_load_many(heap, 1, 0, one, 3), LXR_OK);
    holds(heap, 5, 4);
    IS(lxr_store_many(heap, 1, 0, back, 4), LXR_OK);
    IS(lxr_load_many(heap, 1, 0, apart, 4), LXR_OK);
    for (uint32_t at = 5; at <= 8; at++) holds(heap, at, at == 5 ? 0 : at < 8 ? 2 : 3);
    IS(lxr_store_many(heap, 1, 1, one, 2), LXR_OK);
    IS(lxr_load_many(heap, 1, 1, last, 3), LXR_OK);
    holds(heap, 6, 0);
    holds(heap, 5, 0);
    holds(heap, 1, 3);
}

/* A word of an object that is put in part leaves the others. */
static void gets_and_puts(lxr_heap *heap) {
    for (uint64_t at = 0; at < LXR_MOST_WORDS; at++) long_words[at] = at * at;
    IS(lxr_new_with(heap, 10, long_registers, 1023, long_words, 1023), LXR_OK);
    IS(lxr_put_many(heap, 10, 1020, long_words, 3), LXR_OK);
    IS(lxr_put_many(heap, 10, 3, long_words, 1), LXR_OK);
    for (size_t at = 0; at < LXR_MOST_WORDS; at++) long_words[at] = UNTOUCHED;
    IS(lxr_get_many(heap, 10, 0, long_words, 1023), LXR_OK);
    for (uint64_t at = 0; at < LXR_MOST_WORDS; at++) {
        const uint64_t from = at == 3 ? 0 : at >= 1020 ? at - 1020 : at;
        IS(long_words[at], from * from);
    }
}

/* Each operation, as its call does it. */
static void applies_each(lxr_heap *heap) {
    lxr_operation all[] = {
        { LXR_OP_NEW, 11, 2, 1, UNTOUCHED },   { LXR_OP_PUT, 11, 0, LAST, 77 },    { LXR_OP_STORE, 11, 1, 11, 5 },
        { LXR_OP_LOAD, 12, 11, 1, 6 },         { LXR_OP_SAME, 11, 12, LAST, 7 },   { LXR_OP_GET, 12, 0, LAST, 8 },
        { LXR_OP_MOVE, 13, 12, LAST, 9 },      { LXR_OP_NIL, 12, LAST, LAST, 10 }, { LXR_OP_IS_NIL, 12, LAST, LAST, 11 },
        { LXR_OP_IS_NIL, 13, LAST, LAST, 12 }, { LXR_OP_SAME, 12, 13, LAST, 13 },
    };
    static const uint64_t told[] = { UNTOUCHED, 77, 5, 6, 1, 77, 9, 10, 1, 0, 0 };
    const size_t count = sizeof all / sizeof *all;
    IS(sizeof(lxr_operation), 24);
    APPLIES(heap, all, count, LXR_OK, count);
    for (size_t at = 0; at < count; at++) IS(all[at].word, told[at]);
    holds(heap, 13, 77);
    holds(heap, 12, 0);
}

static void several(void) {
    lxr_heap heap = LXR_HEAP_INIT;
    IS(open_heap(&heap, 8, 1), LXR_OK);
    for (int pauses = 0; pauses < 4; pauses++) {
        makes_with(&heap);
        if (pauses & 1) IS(lxr_pause(&heap), LXR_OK);
        loads_and_stores(&heap);
        gets_and_puts(&heap);
        if (pauses & 2) IS(lxr_collect(&heap), LXR_OK);
        applies_each(&heap);
    }
    IS(lxr_close(&heap), LXR_OK);
}

/* ---- Full ---- */

/* Where an object finds no room, what comes before it is done. Register 2 has the last of so many objects. */
static void full_for_several(lxr_heap *heap, uint64_t kept) {
    static const uint32_t sources[1] = { 2 };
    lxr_operation operations[3] = { { LXR_OP_GET, 2, 0, 0, UNTOUCHED }, { LXR_OP_NEW, 1, 1, 30, 0 }, { LXR_OP_NIL, 2, 0, 0, 0 } };
    REFUSED(lxr_new_with(heap, 1, sources, 1, long_words, 30), LXR_E_FULL);
    REFUSED(lxr_new_with(heap, 1, sources, 0, long_words, 1023), LXR_E_FULL);
    APPLIES(heap, operations, 3, LXR_E_FULL, 1);
    IS(operations[0].word, kept);
}

/* A heap that is full says so as often as it is asked, keeps what it has, and has room again once a register lets go. */
static void full(void) {
    lxr_heap heap = LXR_HEAP_INIT;
    uint64_t kept = 0;
    lxr_code code = LXR_OK;
    IS(open_heap(&heap, 1, 3), LXR_OK);
    while ((code = lxr_new(&heap, 1, 1, 30)) == LXR_OK) {
        IS(lxr_put(&heap, 1, 0, ++kept), LXR_OK);
        IS(lxr_store(&heap, 1, 0, 2), LXR_OK);
        IS(lxr_move(&heap, 2, 1), LXR_OK);
        IS(kept <= 125, 1);
    }
    IS(code, LXR_E_FULL);
    IS(kept, 125);
    for (int again = 0; again < 3; again++) REFUSED(lxr_new(&heap, 1, 1, 30), LXR_E_FULL);
    REFUSED(lxr_new(&heap, 1, 1023, 1023), LXR_E_FULL);
    REFUSED(lxr_large_new(&heap, 1, 1), LXR_E_FULL);
    full_for_several(&heap, kept);
    for (; kept; kept--) {
        IS(lxr_get(&heap, 2, 0, &wide), LXR_OK);
        IS(wide, kept);
        IS(lxr_load(&heap, 2, 2, 0), LXR_OK);
    }
    IS(lxr_same(&heap, 2, 3, &narrow), LXR_OK);
    IS(narrow, 1);
    IS(lxr_nil(&heap, 1), LXR_OK);
    IS(lxr_new(&heap, 1, 1023, 1023), LXR_OK);
    IS(lxr_count(&heap, LXR_COUNT_LIVE, &wide), LXR_OK);
    IS(wide, 1);
    IS(lxr_close(&heap), LXR_OK);
}

static void full_of_bodies(void) {
    lxr_heap heap = LXR_HEAP_INIT;
    IS(open_heap(&heap, 1, 3), LXR_OK);
    REFUSED(lxr_large_new(&heap, 1, 4), LXR_E_FULL);
    REFUSED(lxr_large_new(&heap, 1, 128), LXR_E_FULL);
    IS(lxr_large_new(&heap, 1, 2), LXR_OK);
    IS(lxr_large_put(&heap, 1, 8191, 4), LXR_OK);
    REFUSED(lxr_large_new(&heap, 2, 2), LXR_E_FULL);
    IS(lxr_large_new(&heap, 2, 1), LXR_OK);
    IS(lxr_count(&heap, LXR_COUNT_FREE_BODY_BYTES, &wide), LXR_OK);
    IS(wide, 0);
    IS(lxr_large_get(&heap, 1, 8191, &wide), LXR_OK);
    IS(wide, 4);
    IS(lxr_nil(&heap, 1), LXR_OK);
    IS(lxr_large_new(&heap, 1, 2), LXR_OK);
    IS(lxr_large_get(&heap, 1, 8191, &wide), LXR_OK);
    IS(wide, 0);
    IS(lxr_close(&heap), LXR_OK);
}

/* ---- Pace ---- */

static uint64_t count_of(const lxr_heap *heap, uint32_t what) {
    IS(lxr_count(heap, what, &wide), LXR_OK);
    return wide;
}

/* Makes so many objects of 64 bytes, and answers how many pauses that made. */
static uint64_t pauses_by_news(lxr_heap *heap, uint32_t news) {
    uint64_t before = count_of(heap, LXR_COUNT_PAUSES);
    while (news--) IS(lxr_new(heap, 1, 3, 4), LXR_OK);
    return count_of(heap, LXR_COUNT_PAUSES) - before;
}

/* A pause comes before the first object that is made once so many bytes were, and the bytes begin anew after each pause. */
static void paces(void) {
    lxr_heap heap = LXR_HEAP_INIT;
    IS(open_heap(&heap, 64, 4), LXR_OK);
    IS(pauses_by_news(&heap, 1000), 0);
    IS(lxr_pause(&heap), LXR_OK);
    IS(lxr_set_pace(&heap, 640), LXR_OK);
    IS(pauses_by_news(&heap, 10), 0);
    IS(pauses_by_news(&heap, 1), 1);
    IS(pauses_by_news(&heap, 9), 0);
    IS(pauses_by_news(&heap, 100), 10);
    IS(lxr_set_pace(&heap, 641), LXR_OK);
    IS(lxr_pause(&heap), LXR_OK);
    IS(pauses_by_news(&heap, 11), 0);
    IS(pauses_by_news(&heap, 1), 1);
    IS(lxr_set_pace(&heap, 32768 + 16), LXR_OK);
    IS(lxr_pause(&heap), LXR_OK);
    IS(lxr_large_new(&heap, 2, 1), LXR_OK);
    IS(pauses_by_news(&heap, 1), 1);
    IS(lxr_set_pace(&heap, UINT64_MAX - 1), LXR_OK);
    IS(pauses_by_news(&heap, 10000), 0);
    IS(lxr_set_pace(&heap, 1), LXR_OK);
    IS(pauses_by_news(&heap, 100), 100);
    IS(lxr_set_pace(&heap, LXR_PACE_NEVER), LXR_OK);
    IS(pauses_by_news(&heap, 10000), 0);
    IS(lxr_close(&heap), LXR_OK);
}

/* A ring of so many objects of 1 KB, which nothing keeps: only a collecting pause reclaims it. */
static void drop_ring(lxr_heap *heap, uint32_t count) {
    IS(lxr_new(heap, 1, 2, 126), LXR_OK);
    IS(lxr_move(heap, 2, 1), LXR_OK);
    while (--count) {
        IS(lxr_new(heap, 3, 2, 126), LXR_OK);
        IS(lxr_store(heap, 3, 0, 2), LXR_OK);
        IS(lxr_move(heap, 2, 3), LXR_OK);
    }
    IS(lxr_store(heap, 1, 0, 2), LXR_OK);
    for (uint32_t at = 1; at < 4; at++) IS(lxr_nil(heap, at), LXR_OK);
}

/* The most blocks in use right after each of so many rings of 4 MB. */
static uint64_t most_by_rings(lxr_heap *heap, uint32_t all, uint32_t rings) {
    uint64_t most = 0;
    while (rings--) {
        drop_ring(heap, 4096);
        uint64_t used = all - count_of(heap, LXR_COUNT_FREE_BLOCKS);
        if (used > most) most = used;
    }
    return most;
}

/* What settings and calls say of the room, and what is refused. */
static void says_of_rooms(void) {
    lxr_heap heap = LXR_HEAP_INIT;
    lxr_settings settings = LXR_SETTINGS(900, 1);
    IS(settings.room, 0);
    IS(settings.grow, 100);
    IS(lxr_open(&heap, &settings), LXR_OK);
    IS(count_of(&heap, LXR_COUNT_ROOM), 900);
    REFUSED(lxr_set_room(&heap, 901), LXR_E_SIZE);
    REFUSED(lxr_set_room(&heap, LAST), LXR_E_SIZE);
    REFUSED(lxr_set_grow(&heap, LXR_MOST_GROW + 1), LXR_E_SIZE);
    REFUSED(lxr_set_grow(&heap, LAST), LXR_E_SIZE);
    IS(count_of(&heap, LXR_COUNT_ROOM), 900);
    IS(lxr_set_room(&heap, 1), LXR_OK);
    IS(count_of(&heap, LXR_COUNT_ROOM), 1);
    IS(lxr_set_room(&heap, 900), LXR_OK);
    IS(lxr_set_room(&heap, 899), LXR_OK);
    IS(lxr_pause(&heap), LXR_OK);
    IS(count_of(&heap, LXR_COUNT_ROOM), 899); /* a plain pause leaves it */
    IS(lxr_collect(&heap), LXR_OK);
    IS(count_of(&heap, LXR_COUNT_ROOM), 64);
    IS(lxr_set_room(&heap, 0), LXR_OK);
    IS(count_of(&heap, LXR_COUNT_ROOM), 900);
    IS(lxr_set_grow(&heap, 0), LXR_OK);
    IS(lxr_set_room(&heap, 3), LXR_OK);
    IS(lxr_collect(&heap), LXR_OK);
    IS(count_of(&heap, LXR_COUNT_ROOM), 3); /* nothing sets it but the host */
    IS(lxr_set_grow(&heap, LXR_MOST_GROW), LXR_OK);
    IS(lxr_close(&heap), LXR_OK);
    settings.size = SECOND;
    settings.room = settings.grow = LAST;
    IS(lxr_open(&heap, &settings), LXR_OK);
    IS(lxr_collect(&heap), LXR_OK);
    IS(count_of(&heap, LXR_COUNT_ROOM), 900);
    IS(lxr_close(&heap), LXR_OK);
}

/* Rings that are let go of stay within the room: as it is set, up and down, and as it grows by itself. By no room they take all that there is. */
static void rooms(void) {
    lxr_heap heap = LXR_HEAP_INIT;
    lxr_settings settings = LXR_SETTINGS(3000, 1);
    settings.room = 400;
    settings.grow = 0;
    IS(lxr_open(&heap, &settings), LXR_OK);
    IS(most_by_rings(&heap, 3000, 40) <= 440, 1);
    IS(lxr_set_room(&heap, 1200), LXR_OK);
    uint64_t most = most_by_rings(&heap, 3000, 40);
    IS(most > 1000 && most <= 1240, 1);
    IS(lxr_set_room(&heap, 400), LXR_OK);
    drop_ring(&heap, 4096);
    IS(most_by_rings(&heap, 3000, 40) <= 440, 1);
    IS(lxr_set_grow(&heap, 100), LXR_OK);
    IS(lxr_collect(&heap), LXR_OK);
    IS(count_of(&heap, LXR_COUNT_ROOM), 64);
    IS(most_by_rings(&heap, 3000, 40) <= 500, 1);
    IS(lxr_close(&heap), LXR_OK);
    IS(lxr_open(&heap, &settings), LXR_OK);
    IS(lxr_set_room(&heap, 0), LXR_OK);
    IS(most_by_rings(&heap, 3000, 40) > 2800, 1);
    IS(lxr_close(&heap), LXR_OK);
}

/* How many words that aren't 0 a block has. */
static uint64_t words_in(lxr_heap *heap, uint32_t block) {
    uint64_t some = 0;
    IS(lxr_first_word(heap, &first_word), LXR_OK);
    for (size_t at = 0; at < LXR_BLOCK_WORDS; at++) some += first_word[(size_t)block * LXR_BLOCK_WORDS + at] != 0;
    return some;
}

/* Each free block is told once, in order, with zeros for words; and no other one is. A heap of 200 blocks, in the first
 * `used` of which objects lay. Of another one the memory is what malloc gave, and the heap doesn't read it either. */
static void free_blocks_are_told(lxr_heap *heap, uint32_t used) {
    uint64_t told = 0;
    uint32_t from = 0;
    for (uint32_t block = 0; lxr_trim_next(heap, from, &block) == LXR_OK; from = block + 1) {
        IS(block >= from && block < 200, 1);
        if (block < used) IS(words_in(heap, block), 0);
        told++;
    }
    IS(told, count_of(heap, LXR_COUNT_FREE_BLOCKS));
    REFUSED(lxr_trim_next(heap, from, &narrow), LXR_E_NOTHING);
    REFUSED(lxr_trim_next(heap, LAST, &narrow), LXR_E_NOTHING);
}

/* A list of so many objects of 1 KB, whose words count down from its length, in register 1. */
static void keep_list(lxr_heap *heap, uint32_t length) {
    IS(lxr_nil(heap, 1), LXR_OK);
    for (uint32_t made = 0; made < length; made++) {
        IS(lxr_new(heap, 2, 1, 126), LXR_OK);
        for (uint32_t word = 0; word < 126; word++) IS(lxr_put(heap, 2, word, made + 1), LXR_OK);
        IS(lxr_store(heap, 2, 0, 1), LXR_OK);
        IS(lxr_move(heap, 1, 2), LXR_OK);
    }
    IS(lxr_nil(heap, 2), LXR_OK);
}

static void is_list(lxr_heap *heap, uint32_t length) {
    IS(lxr_move(heap, 2, 1), LXR_OK);
    for (uint32_t left = length; left > 0; left--) {
        for (uint32_t word = 0; word < 126; word++) {
            IS(lxr_get(heap, 2, word, &wide), LXR_OK);
            IS(wide, left);
        }
        IS(lxr_load(heap, 2, 2, 0), LXR_OK);
    }
    IS(lxr_is_nil(heap, 2, &narrow), LXR_OK);
    IS(narrow, 1);
}

/* Free blocks' words become 0, and their memory goes; what is kept stays, and new objects have nil references and zeros where others lay. */
static void trims(void) {
    lxr_heap heap = LXR_HEAP_INIT;
    const lxr_settings settings = LXR_SETTINGS(200, 1);
    IS(lxr_open(&heap, &settings), LXR_OK);
    IS(lxr_trim(&heap), LXR_OK);
    free_blocks_are_told(&heap, 0);
    for (int times = 0; times < 3; times++) {
        drop_ring(&heap, 3000);
        keep_list(&heap, 1500);
        IS(lxr_collect(&heap), LXR_OK);
        uint64_t live = count_of(&heap, LXR_COUNT_LIVE), free_blocks = count_of(&heap, LXR_COUNT_FREE_BLOCKS);
        IS(words_in(&heap, 0) > 0, 1);
        if (times != 1) free_blocks_are_told(&heap, 60);
        IS(lxr_trim(&heap), LXR_OK);
        free_blocks_are_told(&heap, 60);
        IS(count_of(&heap, LXR_COUNT_LIVE), live);
        IS(count_of(&heap, LXR_COUNT_FREE_BLOCKS), free_blocks);
        is_list(&heap, 1500);
    }
    IS(lxr_close(&heap), LXR_OK);
    REFUSED(lxr_trim(&heap), LXR_E_NO_HEAP);
}

/* Pauses that the host asks for, one while each small ring is held, put off no collecting one: the room holds beside them. */
static void rooms_beside_asked_pauses(void) {
    lxr_heap heap = LXR_HEAP_INIT;
    lxr_settings settings = LXR_SETTINGS(3000, 1);
    settings.room = 400;
    settings.grow = 0;
    IS(lxr_open(&heap, &settings), LXR_OK);
    uint64_t most = 0;
    for (uint32_t rings = 20000; rings--;) {
        IS(lxr_new(&heap, 1, 1, 126), LXR_OK);
        IS(lxr_new(&heap, 2, 1, 126), LXR_OK);
        IS(lxr_store(&heap, 1, 0, 2), LXR_OK);
        IS(lxr_store(&heap, 2, 0, 1), LXR_OK);
        IS(lxr_pause(&heap), LXR_OK);
        IS(lxr_nil(&heap, 1), LXR_OK);
        IS(lxr_nil(&heap, 2), LXR_OK);
        uint64_t used = settings.blocks - count_of(&heap, LXR_COUNT_FREE_BLOCKS);
        if (used > most) most = used;
    }
    IS(most > 400 && most <= 410, 1);
    IS(lxr_close(&heap), LXR_OK);
}

/* Where more lives than there is room for nothing is refused before all that is reserved is full, and most pauses don't collect. */
static void room_that_is_too_small(void) {
    lxr_heap heap = LXR_HEAP_INIT;
    lxr_settings settings = LXR_SETTINGS(300, 1);
    settings.room = 1;
    settings.grow = 0;
    IS(lxr_open(&heap, &settings), LXR_OK);
    lxr_code code = LXR_OK;
    uint64_t made = 0, pauses = 0;
    for (; (code = lxr_new(&heap, 2, 1, 126)) == LXR_OK; made++) {
        IS(lxr_store(&heap, 2, 0, 1), LXR_OK);
        IS(lxr_move(&heap, 1, 2), LXR_OK);
    }
    IS(code, LXR_E_FULL);
    IS(made > 299 * 31, 1);
    IS(count_of(&heap, LXR_COUNT_FREE_BLOCKS), 0);
    pauses = count_of(&heap, LXR_COUNT_PAUSES);
    IS(pauses < 200, 1);
    IS(lxr_nil(&heap, 1), LXR_OK);
    IS(lxr_nil(&heap, 2), LXR_OK);
    IS(lxr_collect(&heap), LXR_OK);
    IS(count_of(&heap, LXR_COUNT_LIVE), 0);
    IS(lxr_close(&heap), LXR_OK);
}

/* The levels of a tree below its root, and how many objects it has. */
#define LEVELS    17u
#define TREE_SIZE ((1u << (LEVELS + 1)) - 1)

/* Register `level` + 1 leads to a tree of so many levels below its root, each object of which has two references. */
static void grow_tree(lxr_heap *heap, uint32_t level) {
    IS(lxr_new(heap, level + 1, 2, 1), LXR_OK);
    for (uint32_t side = 0; side < 2 && level; side++) {
        grow_tree(heap, level - 1);
        IS(lxr_store(heap, level + 1, side, level), LXR_OK);
    }
    if (level) IS(lxr_nil(heap, level), LXR_OK);
}

/* A heap of so much work, with a tree that nothing keeps any more: its death waits for the next pause. */
static void open_with_dying_tree(lxr_heap *heap, uint32_t work) {
    lxr_settings settings = LXR_SETTINGS(4000, 1);
    settings.registers = 32;
    settings.work = work;
    settings.grow = 0;
    IS(lxr_open(heap, &settings), LXR_OK);
    IS(lxr_set_pace(heap, LXR_PACE_NEVER), LXR_OK);
    grow_tree(heap, LEVELS);
    IS(lxr_pause(heap), LXR_OK);
    IS(lxr_pause(heap), LXR_OK);
    IS(count_of(heap, LXR_COUNT_LIVE), TREE_SIZE);
    IS(lxr_nil(heap, LEVELS + 1), LXR_OK);
    IS(lxr_set_pace(heap, 65536), LXR_OK);
    IS(lxr_pause(heap), LXR_OK);
}

/* Makes an object of 64 bytes that nothing keeps; what is counted as dead, where a pause came before it. */
static uint64_t dead_before_one(lxr_heap *heap) {
    uint64_t pauses = count_of(heap, LXR_COUNT_PAUSES);
    IS(lxr_new(heap, 1, 0, 7), LXR_OK);
    IS(lxr_nil(heap, 1), LXR_OK);
    return count_of(heap, LXR_COUNT_PAUSES) == pauses ? 0 : count_of(heap, LXR_COUNT_DEAD);
}

/* With work no pause comes before all is done in slices, and the one that comes then counts all that died. */
static void tree_in_slices(void) {
    lxr_heap heap = LXR_HEAP_INIT;
    open_with_dying_tree(&heap, 8);
    uint64_t dead = 0, most = 0, free_blocks = 0, news = 0;
    IS(count_of(&heap, LXR_COUNT_WAITING) > 0, 1);
    while (!dead) {
        uint64_t waiting = count_of(&heap, LXR_COUNT_WAITING);
        if (waiting > most) most = waiting;
        free_blocks = count_of(&heap, LXR_COUNT_FREE_BLOCKS);
        dead = dead_before_one(&heap);
        news++;
    }
    IS(dead, TREE_SIZE);
    IS(news > TREE_SIZE / 8 && news < TREE_SIZE / 8 + 200, 1);         /* eight units for each of them */
    IS(most < 64, 1);                                                  /* what was queued last is done first */
    IS(free_blocks + 100 > count_of(&heap, LXR_COUNT_FREE_BLOCKS), 1); /* the tree had 250; the pause frees what was made meanwhile */
    for (news = 10000; news--;) IS(dead_before_one(&heap), 0);
    IS(lxr_close(&heap), LXR_OK);
}

/* Without work the first pause by the pace does it all. */
static void tree_at_once(void) {
    lxr_heap heap = LXR_HEAP_INIT;
    open_with_dying_tree(&heap, 0);
    uint64_t free_blocks = count_of(&heap, LXR_COUNT_FREE_BLOCKS);
    for (uint32_t news = 1024; news--;) IS(dead_before_one(&heap), 0);
    IS(dead_before_one(&heap), TREE_SIZE);
    IS(free_blocks + 200 < count_of(&heap, LXR_COUNT_FREE_BLOCKS), 1);
    IS(lxr_close(&heap), LXR_OK);
}

/* The host does it itself, in parts, and a pause counts what died since the one before it. Nothing is done where nothing waits. */
static void work_in_idle_time(void) {
    lxr_heap heap = LXR_HEAP_INIT;
    open_with_dying_tree(&heap, 0);
    uint64_t live = count_of(&heap, LXR_COUNT_LIVE), before = count_of(&heap, LXR_COUNT_FREE_BLOCKS);
    uint32_t more = 0, calls = 0;
    IS(lxr_work(&heap, 0, &more), LXR_OK);
    IS(more, 1);
    IS(count_of(&heap, LXR_COUNT_FREE_BLOCKS), before);
    for (; more; calls++) IS(lxr_work(&heap, 1000, &more), LXR_OK);
    IS(calls, TREE_SIZE / 1000 + 1);
    IS(count_of(&heap, LXR_COUNT_WAITING), 0);
    IS(count_of(&heap, LXR_COUNT_FREE_BLOCKS) > before + 200, 1);
    IS(count_of(&heap, LXR_COUNT_LIVE), live);
    IS(lxr_work(&heap, LAST, &more), LXR_OK);
    IS(more, 0);
    IS(lxr_pause(&heap), LXR_OK);
    IS(count_of(&heap, LXR_COUNT_DEAD), TREE_SIZE);
    IS(count_of(&heap, LXR_COUNT_LIVE), 0);
    REFUSED(lxr_set_work(&heap, LXR_MOST_WORK + 1), LXR_E_SIZE);
    REFUSED(lxr_set_work(&heap, LAST), LXR_E_SIZE);
    IS(lxr_set_work(&heap, LXR_MOST_WORK), LXR_OK);
    IS(lxr_close(&heap), LXR_OK);
}

/* A pause by the room comes at once, though slices have more to do. */
static void room_waits_for_no_slice(void) {
    lxr_heap heap = LXR_HEAP_INIT;
    open_with_dying_tree(&heap, 1);
    uint32_t used = 4000 - (uint32_t)count_of(&heap, LXR_COUNT_FREE_BLOCKS);
    IS(lxr_set_room(&heap, used + 10), LXR_OK);
    for (uint32_t news = 10 * 32768 / 64; news--;) IS(dead_before_one(&heap), 0);
    IS(count_of(&heap, LXR_COUNT_WAITING) > 0, 1);
    IS(dead_before_one(&heap), TREE_SIZE);
    IS(lxr_close(&heap), LXR_OK);
}

/* All parts of an array are taken apart by slices. */
static void array_ends_in_slices(void) {
    lxr_heap heap = LXR_HEAP_INIT;
    lxr_settings settings = LXR_SETTINGS(4000, 1);
    IS(lxr_open(&heap, &settings), LXR_OK);
    IS(lxr_set_pace(&heap, LXR_PACE_NEVER), LXR_OK);
    IS(lxr_array_new(&heap, 1, 98 * 1023), LXR_OK);
    IS(lxr_pause(&heap), LXR_OK);
    IS(lxr_pause(&heap), LXR_OK);
    IS(lxr_nil(&heap, 1), LXR_OK);
    IS(lxr_pause(&heap), LXR_OK);
    IS(count_of(&heap, LXR_COUNT_WAITING), 1);
    uint32_t more = 7;
    IS(lxr_work(&heap, 1, &more), LXR_OK);
    IS(more, 1);
    IS(count_of(&heap, LXR_COUNT_WAITING), 98);
    IS(lxr_work(&heap, LAST, &more), LXR_OK);
    IS(more, 0);
    IS(count_of(&heap, LXR_COUNT_WAITING), 0);
    IS(lxr_pause(&heap), LXR_OK);
    IS(count_of(&heap, LXR_COUNT_DEAD), 99);
    IS(lxr_close(&heap), LXR_OK);
}

/* Slices end before an object whose references don't fit into what is left of 4,096 places and one for each register: here the last of a list of five
 * that have 1,023 each. It waits for the pause, and there is nothing further to do. */
static void list_held_back(void) {
    lxr_heap heap = LXR_HEAP_INIT;
    lxr_settings settings = LXR_SETTINGS(4000, 1);
    IS(lxr_open(&heap, &settings), LXR_OK);
    IS(lxr_set_pace(&heap, LXR_PACE_NEVER), LXR_OK);
    IS(lxr_new(&heap, 3, 0, 1), LXR_OK);
    uint32_t leaves[1022];
    for (uint32_t at = 0; at < 1022; at++) leaves[at] = 3;
    for (uint32_t made = 0; made < 5; made++) {
        IS(lxr_new(&heap, 2, 1023, 0), LXR_OK);
        IS(lxr_store_many(&heap, 2, 0, leaves, 1022), LXR_OK);
        if (made) IS(lxr_store(&heap, 2, 1022, 1), LXR_OK);
        IS(lxr_move(&heap, 1, 2), LXR_OK);
    }
    IS(lxr_nil(&heap, 2), LXR_OK);
    IS(lxr_pause(&heap), LXR_OK);
    IS(lxr_pause(&heap), LXR_OK);
    IS(lxr_nil(&heap, 1), LXR_OK);
    IS(lxr_pause(&heap), LXR_OK);
    uint32_t more = 7;
    IS(lxr_work(&heap, LAST, &more), LXR_OK);
    IS(more, 0);
    IS(count_of(&heap, LXR_COUNT_WAITING), 4 * 1022 + 1);
    IS(lxr_pause(&heap), LXR_OK);
    IS(count_of(&heap, LXR_COUNT_DEAD), 5);
    IS(lxr_close(&heap), LXR_OK);
}

/* The same by objects that are made with their fields, or by operations. */
static void paces_of_several(void) {
    static const uint32_t sources[3] = { 1, 0, 15 };
    lxr_heap heap = LXR_HEAP_INIT;
    IS(open_heap(&heap, 64, 4), LXR_OK);
    IS(lxr_set_pace(&heap, 640), LXR_OK);
    for (uint64_t news = 0; news < 101; news++) {
        lxr_operation two[2] = { { LXR_OP_NEW, 1, 3, 4, 0 }, { LXR_OP_PUT, 1, 0, 0, news } };
        IS(count_of(&heap, LXR_COUNT_PAUSES), news ? (news - 1) / 10 : 0);
        if (news % 3) {
            APPLIES(&heap, two, 2, LXR_OK, 2);
        } else {
            IS(lxr_new_with(&heap, 2, sources, 3, long_words, 4), LXR_OK);
        }
    }
    IS(count_of(&heap, LXR_COUNT_PAUSES), 10);
    IS(lxr_close(&heap), LXR_OK);
}

/* The pauses that a store of so many references makes, of the object in register `base` from `first` on. */
static uint64_t pauses_by_store(lxr_heap *heap, uint32_t base, uint32_t first, size_t count, lxr_code code) {
    uint64_t before = count_of(heap, LXR_COUNT_PAUSES);
    IS(lxr_store_many(heap, base, first, long_registers, count), code);
    return count_of(heap, LXR_COUNT_PAUSES) - before;
}

/* The pauses that stores of all references of the objects in so many registers make, from register 1 on. */
static uint64_t pauses_by_stores(lxr_heap *heap, uint32_t bases) {
    uint64_t pauses = 0;
    for (uint32_t base = 1; base <= bases; base++) pauses += pauses_by_store(heap, base, 0, 1023, LXR_OK);
    return pauses;
}

/* A pause comes where what is recorded doesn't fit into the log of 4,096, and before all of it; a store that is refused makes none. */
static void logs(void) {
    lxr_heap heap = LXR_HEAP_INIT;
    IS(open_heap(&heap, 16, 1), LXR_OK);
    for (uint32_t base = 1; base <= 5; base++) IS(lxr_new(&heap, base, 1023, 0), LXR_OK);
    IS(lxr_new(&heap, 6, 0, 1), LXR_OK);
    IS(pauses_by_stores(&heap, 5), 0); /* new objects record nothing */
    IS(lxr_pause(&heap), LXR_OK);
    IS(pauses_by_stores(&heap, 4), 0);
    IS(pauses_by_store(&heap, 5, 0, 4, LXR_OK), 0); /* the log is full */
    IS(pauses_by_stores(&heap, 4), 0);
    IS(pauses_by_store(&heap, 5, 1, 1023, LXR_E_INDEX) + pauses_by_store(&heap, 15, 1, 2, LXR_E_NIL), 0);
    IS(pauses_by_store(&heap, 5, 4, 0, LXR_OK), 0);
    IS(pauses_by_store(&heap, 5, 3, 2, LXR_OK), 1); /* and has two records then */
    IS(pauses_by_stores(&heap, 4), 0);
    IS(pauses_by_store(&heap, 5, 0, 2, LXR_OK), 0); /* it is full again */
    IS(pauses_by_store(&heap, 5, 0, 2, LXR_OK), 0);
    IS(pauses_by_store(&heap, 5, 1, 2, LXR_OK), 1);
    IS(pauses_by_stores(&heap, 4), 0);
    IS(pauses_by_store(&heap, 5, 0, 1023, LXR_OK), 1); /* 4,094 and 1,021 don't fit, and none of them is recorded before the pause */
    IS(pauses_by_stores(&heap, 3), 0);
    IS(pauses_by_store(&heap, 4, 0, 4, LXR_OK), 0);
    IS(lxr_store(&heap, 4, 4, 6), LXR_OK);
    IS(pauses_by_store(&heap, 4, 3, 2, LXR_OK), 0);
    IS(lxr_collect(&heap), LXR_OK);
    IS(count_of(&heap, LXR_COUNT_LIVE), 6);
    IS(lxr_close(&heap), LXR_OK);
}

/* A newcomer's heap makes plain pauses and no collecting one, however much garbage there is. */
static void pace_of_a_newcomer(void) {
    const lxr_settings settings = LXR_SETTINGS(8, 1);
    lxr_heap heap = LXR_HEAP_INIT;
    IS(lxr_open(&heap, &settings), LXR_OK);
    IS(pauses_by_news(&heap, 1 + 7 * 32768 / 2 / 64), 1);
    for (uint32_t at = 0; at < 100000; at++) IS(lxr_new(&heap, 1, 3, 4), LXR_OK);
    IS(count_of(&heap, LXR_COUNT_PAUSES) > 50, 1);
    IS(count_of(&heap, LXR_COUNT_SWEPT), 0);
    IS(lxr_close(&heap), LXR_OK);
}

int main(void) {
    for (size_t at = 0; at < sizeof long_registers / sizeof *long_registers; at++) long_registers[at] = 3;
    IS(lxr_version(), LXR_VERSION);
    handles();
    numbers_of_registers();
    paces();
    paces_of_several();
    logs();
    pace_of_a_newcomer();
    says_of_rooms();
    rooms();
    rooms_beside_asked_pauses();
    room_that_is_too_small();
    trims();
    tree_in_slices();
    array_ends_in_slices();
    list_held_back();
    room_waits_for_no_slice();
    tree_at_once();
    work_in_idle_time();
    two_heaps();
    static const uint32_t numbers_there[] = { 16, 17, 64, 255, 256 };
    for (size_t at = 0; at < sizeof numbers_there / sizeof *numbers_there; at++) {
        numbers(numbers_there[at]);
        registers_in_use(numbers_there[at]);
    }
    several();
    full();
    full_of_bodies();
    printf("hostile: %lu checks\n", checks);
    return 0;
}
