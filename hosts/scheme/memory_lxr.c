/*
 * The heap on the proved collector. SPDX: MIT OR Apache-2.0
 *
 * Each call is one of the collector's, whose registers are the machine's. The plain pauses, which go by counts of references, are asked for
 * here, and not by the heap's own pace: so registers let go before each, and each pause that is timed is known by its kind. What they
 * leave, cycles for instance, goes at the collecting pause that the collector makes by itself where a new object finds no room.
 *
 * A plain pause takes as long as what it keeps of the new objects, and as what dies by it. It is due once so many bytes were made that it
 * is expected to keep KEPT objects of them, by what the last ones kept, or once half of what the last one left free is used, but after
 * LEAST_BETWEEN bytes at least. What dies is taken apart before it, in slices; until these have nothing left to do, it is put off.
 */
#include "memory.h"
#include "pauses.h"
#include <lxr.h>
#include <stdlib.h>

enum { HEADER_BYTES = 8, FIELD_BYTES = 8, LEAST_BETWEEN = 2 * BLOCK_BYTES, SLICE_BYTES = 4096 };

/* A new object that is kept takes a pause 0.12 us (docs/SPEED.md), so that one which keeps twice as many as is expected takes 1.5 ms. */
enum { KEPT = 6250 };

/* Units of slices for each 64 bytes of new objects: a tree of 131,071 nodes dies while 256 KB are made, and a slice takes 0.1 ms. */
#ifndef UNITS_OF_WORK
#define UNITS_OF_WORK 32u
#endif

static lxr_heap heap = LXR_HEAP_INIT;
static uint64_t chosen_bytes; /* of new objects between two plain pauses; 0: by what is free, and by what pauses keep */
static uint32_t work;         /* units of slices for each 64 bytes of new objects */
int64_t memory_left;          /* until the next plain pause */
static int64_t planned;       /* this many, right after the last one */

/* How many objects a pause is expected to keep for each byte that was made before it: at first all, of 48 bytes each, as pairs have. */
static double kept_of_a_byte = 1.0 / 48;

static uint64_t pauses_known; /* that there had been right after the last one that was asked for, or that was timed */
static uint64_t pauses_asked; /* that there had been right after the last one that was asked for */
static bool is_timed;

/* A code that tells a mistake of the interpreter. */
__attribute__((noreturn, cold)) static void refuse(lxr_code code) {
    fprintf(stderr, "scheme: the heap refused a call, with code %u\n", (unsigned)code);
    abort();
}

static inline void want(lxr_code code) {
    if (code != LXR_OK) refuse(code);
}

static uint64_t count(uint32_t what) {
    uint64_t number = 0;
    want(lxr_count(&heap, what, &number));
    return number;
}

/* The bytes of which a pause is expected to keep KEPT objects, but at most half of what is free, and at least LEAST_BETWEEN. */
static int64_t bytes_to_make(void) {
    const int64_t half = (int64_t)count(LXR_COUNT_FREE_BLOCKS) * BLOCK_BYTES / 2;
    const int64_t bytes = kept_of_a_byte * (double)half > KEPT ? (int64_t)(KEPT / kept_of_a_byte) : half;
    return bytes > LEAST_BETWEEN ? bytes : LEAST_BETWEEN;
}

static void plan_pause(void) {
    planned = chosen_bytes ? (int64_t)chosen_bytes : bytes_to_make();
    memory_left = planned;
    pauses_asked = pauses_known = count(LXR_COUNT_PAUSES);
}

/* What a pause has kept has a quarter of the weight in what is expected of the next one, and three quarters where it was more than
 * expected. */
static void learn_from_pause(int64_t made) {
    const double kept = (double)count(LXR_COUNT_PROMOTED) / (double)made;
    const double weight = kept > kept_of_a_byte ? 0.75 : 0.25;
    kept_of_a_byte += weight * (kept - kept_of_a_byte);
}

/* Whether slices have more to do before a pause. It is found out by one unit of it. */
static bool has_slices(void) {
    uint32_t more = 0;
    if (work) want(lxr_work(&heap, 1, &more));
    return more;
}

/* The pause comes one slice later. */
static void put_off(void) {
    planned += SLICE_BYTES - memory_left;
    memory_left = SLICE_BYTES;
}

void memory_pause(void) {
    if (has_slices()) {
        put_off();
        return;
    }
    const bool is_next = count(LXR_COUNT_PAUSES) == pauses_asked; /* the library has made none since */
    const uint64_t began = is_timed ? pauses_clock() : 0;
    want(lxr_pause(&heap));
    if (is_timed) pauses_add(PAUSE_PLAIN, pauses_clock() - began);
    if (is_next) learn_from_pause(planned - memory_left);
    plan_pause();
}

/* A call may have paused by itself: a new object that found no room has collected, and a store that found its log full has not. */
static void note_pauses(PauseKind kind, uint64_t began) {
    const uint64_t pauses = count(LXR_COUNT_PAUSES);
    if (pauses == pauses_known) return;
    pauses_add(kind, pauses_clock() - began);
    pauses_known = pauses;
}

bool memory_open(const MemoryOptions *options) {
    chosen_bytes = options->every;
    is_timed = options->pauses;
    lxr_settings settings = LXR_SETTINGS(options->blocks, options->body_blocks);
    settings.pace = LXR_PACE_NEVER;
    settings.grow = 0;
    settings.work = work = UNITS_OF_WORK;
    settings.registers = options->registers;
    if (lxr_open(&heap, &settings) != LXR_OK) return false;
    plan_pause();
    return true;
}

void memory_close(void) { want(lxr_close(&heap)); }

static bool is_done(lxr_code code) {
    if (code == LXR_E_FULL) return false;
    want(code);
    return true;
}

/* A new object comes. */
static inline void count_new(size_t fields) { memory_left -= HEADER_BYTES + FIELD_BYTES * (int64_t)fields; }

bool memory_new(unsigned dest, unsigned references, unsigned words) {
    count_new((size_t)references + words);
    if (!is_timed) return is_done(lxr_new(&heap, dest, references, words));
    const uint64_t began = pauses_clock();
    const lxr_code code = lxr_new(&heap, dest, references, words);
    note_pauses(PAUSE_COLLECTING, began);
    return is_done(code);
}

bool memory_new_with(unsigned dest, const uint32_t *sources, size_t references, const Word *data, size_t words) {
    count_new(references + words);
    if (!is_timed) return is_done(lxr_new_with(&heap, dest, sources, references, data, words));
    const uint64_t began = pauses_clock();
    const lxr_code code = lxr_new_with(&heap, dest, sources, references, data, words);
    note_pauses(PAUSE_COLLECTING, began);
    return is_done(code);
}

void memory_load(unsigned dest, unsigned base, unsigned index) { want(lxr_load(&heap, dest, base, index)); }

void memory_store(unsigned base, unsigned index, unsigned source) {
    const uint64_t began = is_timed ? pauses_clock() : 0;
    want(lxr_store(&heap, base, index, source));
    if (is_timed) note_pauses(PAUSE_PLAIN, began);
}

Word memory_get(unsigned base, unsigned index) {
    Word word;
    want(lxr_get(&heap, base, index, &word));
    return word;
}

void memory_put(unsigned base, unsigned index, Word word) { want(lxr_put(&heap, base, index, word)); }

void memory_get_many(unsigned base, unsigned first, Word *into, size_t count_of_words) {
    want(lxr_get_many(&heap, base, first, into, count_of_words));
}

void memory_put_many(unsigned base, unsigned first, const Word *from, size_t count_of_words) {
    want(lxr_put_many(&heap, base, first, from, count_of_words));
}

void memory_load_many(unsigned base, unsigned first, const uint32_t *registers, size_t count_of_references) {
    want(lxr_load_many(&heap, base, first, registers, count_of_references));
}

void memory_move(unsigned dest, unsigned source) { want(lxr_move(&heap, dest, source)); }

void memory_nil(unsigned dest) { want(lxr_nil(&heap, dest)); }

bool memory_same(unsigned left, unsigned right) {
    uint32_t same;
    want(lxr_same(&heap, left, right, &same));
    return same;
}

void memory_registers_in_use(unsigned count_of_registers) { want(lxr_registers_in_use(&heap, count_of_registers)); }

bool memory_words(unsigned dest, size_t count_of_words) {
    const uint64_t began = is_timed ? pauses_clock() : 0;
    if (count_of_words <= OBJECT_MOST) count_new(count_of_words);
    const lxr_code code = lxr_words_new(&heap, dest, (uint32_t)count_of_words);
    if (is_timed) note_pauses(PAUSE_COLLECTING, began);
    return is_done(code);
}

/*
 * Few words are those of an object, and many ones of a large object, whose body has them after their number (lxr.h). How many there are is
 * known here, so which of the two they are needn't be asked.
 */

static inline bool are_few(size_t all) { return all <= LXR_MOST_WORDS; }

void memory_read(unsigned base, size_t all, size_t index, Word *into, size_t count_of_words) {
    want(are_few(all) ? lxr_get_many(&heap, base, (uint32_t)index, into, count_of_words)
                      : lxr_words_read(&heap, base, (uint32_t)index, into, count_of_words));
}

void memory_write(unsigned base, size_t all, size_t index, const Word *from, size_t count_of_words) {
    want(are_few(all) ? lxr_put_many(&heap, base, (uint32_t)index, from, count_of_words)
                      : lxr_words_write(&heap, base, (uint32_t)index, from, count_of_words));
}

Word memory_word(unsigned base, size_t all, size_t index) {
    Word word;
    want(are_few(all) ? lxr_get(&heap, base, (uint32_t)index, &word) : lxr_large_get(&heap, base, (uint32_t)index + 1, &word));
    return word;
}

void memory_set_word(unsigned base, size_t all, size_t index, Word word) {
    want(are_few(all) ? lxr_put(&heap, base, (uint32_t)index, word) : lxr_large_put(&heap, base, (uint32_t)index + 1, word));
}

bool memory_array(unsigned dest, size_t length) {
    const uint64_t began = is_timed ? pauses_clock() : 0;
    count_new(length);
    const lxr_code code = lxr_array_new(&heap, dest, (uint32_t)length);
    if (is_timed) note_pauses(PAUSE_COLLECTING, began);
    return is_done(code);
}

/* Of more elements than an object has references, each so many are those of a part, to which the array refers (lxr.h). How many there are
 * is known here, and the array is none of another shape: so it takes one lxr_load. */
unsigned memory_element(unsigned base, size_t length, size_t index) {
    if (length <= LXR_MOST_REFS) return (unsigned)index;
    memory_load(base, base, (unsigned)(index / LXR_MOST_REFS));
    return (unsigned)(index % LXR_MOST_REFS);
}

void memory_array_fill(unsigned base, size_t first, size_t count_of_references, unsigned source) {
    const uint64_t began = is_timed ? pauses_clock() : 0;
    want(lxr_array_fill(&heap, base, (uint32_t)first, (uint32_t)count_of_references, source));
    if (is_timed) note_pauses(PAUSE_PLAIN, began);
}

void memory_array_copy(unsigned to, size_t at, unsigned from, size_t first, size_t count_of_references) {
    const uint64_t began = is_timed ? pauses_clock() : 0;
    want(lxr_array_copy(&heap, to, (uint32_t)at, from, (uint32_t)first, (uint32_t)count_of_references));
    if (is_timed) note_pauses(PAUSE_PLAIN, began);
}

void memory_collect(void) {
    const uint64_t began = is_timed ? pauses_clock() : 0;
    want(lxr_collect(&heap));
    if (is_timed) pauses_add(PAUSE_COLLECTING, pauses_clock() - began);
    plan_pause();
}

void memory_report(FILE *to) { pauses_report(to); }
