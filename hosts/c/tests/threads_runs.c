/*
 * threads_runs.c: a large heap in pieces of which few are listed after a pause. SPDX: MIT OR Apache-2.0
 *
 * An array is filled with objects of 1 KB until the heap is full, and some are let go of, so that each block has free lines in many pieces. Threads
 * fill the gaps again: all that was let go of finds a place, though after each pause so few pieces are listed, and whatever is kept has its words.
 */
#include "../lxr_threads.h"

#include <inttypes.h>
#include <pthread.h>
#include <stdbool.h>
#include <stdio.h>
#include <stdlib.h>

/* Blocks, objects of 1 KB that fit into one, and words of such an object; registers; where the world has the array. The mock is never full. */
enum { BLOCKS = 1100, IN_BLOCK = 32, WORDS = 127 };
#ifdef MOCK_PASSES
enum { SLOTS = 100 * IN_BLOCK };
#else
enum { SLOTS = BLOCKS * IN_BLOCK };
#endif
enum { WORLD, ARRAY, OBJECT, NIL, PLACE = 0, THREADS = 4 };

/* Where a heap is said to be full, so many hundredths of it are at least. */
enum { FULL = 97 };

static lxr_shared_heap *heap;
static unsigned long checks;
static uint32_t filled, apart;

static void check(uint64_t found, uint64_t wanted, const char *what, int line) {
    checks++;
    if (found == wanted) return;
    fprintf(stderr, "threads_runs.c:%d: %s is %" PRIu64 ", not %" PRIu64 "\n", line, what, found, wanted);
    _Exit(1);
}

#define IS(what, wanted) check(what, wanted, #what, __LINE__)

static void must(lxr_code code) {
    if (code == LXR_OK) return;
    fprintf(stderr, "threads_runs: %s\n", lxr_message(code));
    _Exit(1);
}

static uint64_t count(uint32_t what) {
    uint64_t number = 0;
    must(lxr_shared_heap_count(heap, what, &number));
    return number;
}

static void open_heap(uint32_t runs) {
    lxr_shared_heap_settings settings = LXR_SHARED_HEAP_SETTINGS(BLOCKS, THREADS);
    settings.grow = 0;
    settings.runs = runs;
    must(lxr_shared_heap_open(&heap, &settings));
}

/* A slot has an object that says its number at both ends; whether there was room. */
static bool fill(lxr_mutator *mutator, uint32_t slot) {
    lxr_code code = lxr_mutator_new(mutator, OBJECT, 0, WORDS);
    if (code == LXR_E_FULL) return false;
    must(code);
    must(lxr_mutator_put(mutator, OBJECT, 0, slot));
    must(lxr_mutator_put(mutator, OBJECT, WORDS - 1, ~(uint64_t)slot));
    must(lxr_mutator_array_store(mutator, ARRAY, slot, OBJECT));
    return true;
}

static void has(lxr_mutator *mutator, uint32_t slot) {
    uint64_t first = 0, last = 0;
    must(lxr_mutator_array_load(mutator, OBJECT, ARRAY, slot));
    must(lxr_mutator_get(mutator, OBJECT, 0, &first));
    must(lxr_mutator_get(mutator, OBJECT, WORDS - 1, &last));
    IS(first, slot);
    IS(~last, slot);
}

/* Fills all slots there is room for, and empties the last hundredth of them again; the world has the array. */
static void fill_all(lxr_mutator *mutator) {
    must(lxr_mutator_array_new(mutator, ARRAY, SLOTS));
    must(lxr_mutator_store(mutator, WORLD, PLACE, ARRAY));
    filled = 0;
    while (filled < SLOTS && fill(mutator, filled)) filled++;
    IS(filled >= SLOTS / 100 * FULL, 1);
    for (uint32_t left = filled / 100; left--;) must(lxr_mutator_array_store(mutator, ARRAY, --filled, NIL));
}

/* Of so many slots that stand apart by the same distance, lets go of all but the first. */
static void let_go(lxr_mutator *mutator) {
    for (uint32_t slot = 0; slot < filled; slot++) {
        if (slot % apart) must(lxr_mutator_array_store(mutator, ARRAY, slot, NIL));
    }
    must(lxr_mutator_nil(mutator, OBJECT));
    must(lxr_mutator_collect(mutator));
}

/* A thread fills gaps, each fourth. */
static void *fill_gaps(void *number) {
    lxr_mutator *mutator = NULL;
    must(lxr_mutator_enter(heap, &mutator));
    must(lxr_mutator_load(mutator, ARRAY, WORLD, PLACE));
    for (uint32_t slot = *(uint32_t *)number; slot < filled; slot += THREADS) {
        if (slot % apart && !fill(mutator, slot)) must(LXR_E_FULL);
    }
    must(lxr_mutator_leave(&mutator));
    return NULL;
}

static void fill_by_threads(void) {
    pthread_t threads[THREADS];
    uint32_t numbers[THREADS];
    for (uint32_t at = 0; at < THREADS; at++) {
        numbers[at] = at;
        IS((uint64_t)pthread_create(&threads[at], NULL, fill_gaps, &numbers[at]), 0);
    }
    for (uint32_t at = 0; at < THREADS; at++) pthread_join(threads[at], NULL);
}

/* What was filled again has its words, and so has what was kept. */
static void has_all(lxr_mutator *mutator) {
    must(lxr_mutator_load(mutator, ARRAY, WORLD, PLACE));
    for (uint32_t slot = 0; slot < filled; slot++) has(mutator, slot);
}

static void try_runs(uint32_t runs, uint32_t rounds) {
    lxr_mutator *mutator = NULL;
    open_heap(runs);
    must(lxr_mutator_enter(heap, &mutator));
    fill_all(mutator);
    for (apart = 2; apart < 2 + rounds; apart++) {
        let_go(mutator);
        must(lxr_mutator_leave(&mutator));
        fill_by_threads();
        must(lxr_mutator_enter(heap, &mutator));
        has_all(mutator);
    }
    must(lxr_mutator_store(mutator, WORLD, PLACE, NIL));
    must(lxr_mutator_nil(mutator, ARRAY));
    must(lxr_mutator_nil(mutator, OBJECT));
    must(lxr_mutator_collect(mutator));
    IS(count(LXR_COUNT_FREE_BLOCKS) >= BLOCKS - 4, 1);
    must(lxr_mutator_leave(&mutator));
    must(lxr_shared_heap_close(&heap));
}

int main(void) {
    static const uint32_t runs[] = { LXR_LEAST_RUNS, 1000, 0 };
    for (size_t at = 0; at < sizeof runs / sizeof runs[0]; at++) try_runs(runs[at], runs[at] == LXR_LEAST_RUNS ? 1 : 3);
    printf("threads_runs: %lu checks, and %d threads at once\n", checks, THREADS);
    return 0;
}
