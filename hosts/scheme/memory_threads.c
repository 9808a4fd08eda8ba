/*
 * The heap on the proved collector, as threads share it. SPDX: MIT OR Apache-2.0
 *
 * Each thread of the program has a mutator, whose registers are its machine's; a call here is one of that mutator's operations, or several.
 * Pauses come by the heap's own pace, at any call, and so registers let go of what isn't needed several times between two of them.
 */
#include "fault.h"
#include "memory.h"
#include "pauses.h"
#include <lxr_threads.h>
#include <stdlib.h>

enum { LOG = 16384, LEAST_PACE = 2 * BLOCK_BYTES, FIELD_BYTES = 8 };

static lxr_shared_heap *heap;
static __thread lxr_mutator *mutator;
static int64_t between; /* bytes between two times that a thread's registers let go of what isn't needed */
__thread int64_t memory_left;

/* A code that tells a mistake of the interpreter, or a heap that can't go on. */
__attribute__((noreturn, cold)) static void refuse(lxr_code code) {
    if (code == LXR_E_LOST) fault_at_once("the machine has no memory left");
    if (code == LXR_E_USED_UP) fault_at_once("the heap is full");
    fprintf(stderr, "scheme: the heap refused a call, with code %u\n", (unsigned)code);
    abort();
}

static inline void want(lxr_code code) {
    if (code != LXR_OK) refuse(code);
}

/* By the thread that made the pause, while no other goes on. */
static void note_pause(void *with, const lxr_pause_times *times) {
    (void)with;
    pauses_add(times->kind == LXR_KIND_COLLECT ? PAUSE_COLLECTING : PAUSE_PLAIN, times->gathering + times->pausing);
}

bool memory_open(const MemoryOptions *options) {
    lxr_shared_heap_settings settings = LXR_SHARED_HEAP_SETTINGS(options->blocks, options->threads + 1);
    const uint64_t quarter = (uint64_t)options->blocks * BLOCK_BYTES / 4;
    if (options->helpers) settings.helpers = options->helpers;
    settings.every = LXR_MOST_EVERY; /* pauses come by what is made */
    settings.log = LOG;
    settings.pace = options->every ? options->every : quarter > LEAST_PACE ? quarter : LEAST_PACE;
    settings.registers = options->registers;
    settings.within = 0; /* most of what a program drops is no cycle, so traces may take their time */
    settings.grow = 0;   /* so the figures are those of the heap that is told */
    between = (int64_t)(settings.pace / 4 > LEAST_PACE ? settings.pace / 4 : LEAST_PACE);
    memory_left = between;
    if (options->pauses) settings.paused = note_pause;
    return lxr_shared_heap_open(&heap, &settings) == LXR_OK && lxr_mutator_enter(heap, &mutator) == LXR_OK;
}

void memory_close(void) {
    memory_leave();
    want(lxr_shared_heap_close(&heap));
}

MemoryPlace *memory_place(void) {
    lxr_mutator *other = NULL;
    const lxr_code code = lxr_mutator_enter(heap, &other);
    if (code != LXR_E_MEMORY) want(code);
    return (MemoryPlace *)other;
}

void memory_forget(MemoryPlace *place) {
    lxr_mutator *other = (lxr_mutator *)place;
    want(lxr_mutator_leave(&other));
}

void memory_enter(MemoryPlace *place) {
    mutator = (lxr_mutator *)place;
    memory_left = between;
}

void memory_leave(void) { want(lxr_mutator_leave(&mutator)); }

void memory_rest(void) { want(lxr_mutator_rest(mutator)); }

void memory_wake(void) { want(lxr_mutator_wake(mutator)); }

void memory_poll(void) { want(lxr_mutator_poll(mutator)); }

/* Whether there was room for so many fields. */
static inline bool is_made(lxr_code code, size_t fields) {
    if (code == LXR_E_FULL || code == LXR_E_USED_UP) return false;
    want(code);
    memory_left -= FIELD_BYTES * (1 + (int64_t)fields);
    return true;
}

bool memory_new(unsigned dest, unsigned references, unsigned words) {
    return is_made(lxr_mutator_new(mutator, dest, references, words), (size_t)references + words);
}

/* A new object's words are 0. */
bool memory_new_with(unsigned dest, const uint32_t *sources, size_t references, const Word *data, size_t words) {
    if (!memory_new(dest, (unsigned)references, (unsigned)words)) return false;
    for (size_t i = 0; i < references; i++) want(lxr_mutator_store(mutator, dest, (uint32_t)i, sources[i]));
    for (size_t i = 0; i < words; i++) {
        if (data[i]) want(lxr_mutator_put(mutator, dest, (uint32_t)i, data[i]));
    }
    return true;
}

void memory_load(unsigned dest, unsigned base, unsigned index) { want(lxr_mutator_load(mutator, dest, base, index)); }

void memory_store(unsigned base, unsigned index, unsigned source) { want(lxr_mutator_store(mutator, base, index, source)); }

Word memory_get(unsigned base, unsigned index) {
    Word word;
    want(lxr_mutator_get(mutator, base, index, &word));
    return word;
}

bool memory_first(unsigned base, Word *word) {
    const lxr_code code = lxr_mutator_get(mutator, base, 0, word);
    if (code == LXR_E_NIL) return false;
    want(code);
    return true;
}

void memory_put(unsigned base, unsigned index, Word word) { want(lxr_mutator_put(mutator, base, index, word)); }

void memory_get_many(unsigned base, unsigned first, Word *into, size_t count) {
    want(lxr_mutator_get_many(mutator, base, first, into, count));
}

void memory_put_many(unsigned base, unsigned first, const Word *from, size_t count) {
    want(lxr_mutator_put_many(mutator, base, first, from, count));
}

void memory_load_many(unsigned base, unsigned first, const uint32_t *registers, size_t count) {
    want(lxr_mutator_load_many(mutator, base, first, registers, count));
}

void memory_move(unsigned dest, unsigned source) { want(lxr_mutator_move(mutator, dest, source)); }

void memory_nil(unsigned dest) { want(lxr_mutator_nil(mutator, dest)); }

void memory_registers_in_use(unsigned count) { want(lxr_mutator_registers_in_use(mutator, count)); }

void memory_pause(void) { memory_left = between; }

bool memory_same(unsigned left, unsigned right) {
    uint32_t same;
    want(lxr_mutator_same(mutator, left, right, &same));
    return same;
}

bool memory_words(unsigned dest, size_t count) { return is_made(lxr_mutator_words_new(mutator, dest, (uint32_t)count), count); }

void memory_read(unsigned base, size_t all, size_t index, Word *into, size_t count) {
    (void)all;
    want(lxr_mutator_get_many(mutator, base, (uint32_t)index, into, count));
}

void memory_write(unsigned base, size_t all, size_t index, const Word *from, size_t count) {
    (void)all;
    want(lxr_mutator_put_many(mutator, base, (uint32_t)index, from, count));
}

Word memory_word(unsigned base, size_t all, size_t index) {
    Word word;
    (void)all;
    want(lxr_mutator_words_get(mutator, base, (uint32_t)index, &word));
    return word;
}

void memory_set_word(unsigned base, size_t all, size_t index, Word word) {
    (void)all;
    want(lxr_mutator_words_put(mutator, base, (uint32_t)index, word));
}

bool memory_array(unsigned dest, size_t length) { return is_made(lxr_mutator_array_new(mutator, dest, (uint32_t)length), length); }

/* Of more elements than an object has references, each so many are those of a part, to which the array refers (lxr.h). */
unsigned memory_element(unsigned base, size_t length, size_t index) {
    if (length <= LXR_MOST_REFS) return (unsigned)index;
    memory_load(base, base, (unsigned)(index / LXR_MOST_REFS));
    return (unsigned)(index % LXR_MOST_REFS);
}

void memory_array_fill(unsigned base, size_t first, size_t count, unsigned source) {
    want(lxr_mutator_array_fill(mutator, base, (uint32_t)first, (uint32_t)count, source));
}

void memory_array_copy(unsigned to, size_t at, unsigned from, size_t first, size_t count) {
    want(lxr_mutator_array_copy(mutator, to, (uint32_t)at, from, (uint32_t)first, (uint32_t)count));
}

void memory_collect(void) { want(lxr_mutator_collect(mutator)); }

void memory_report(FILE *to) { pauses_report(to); }
