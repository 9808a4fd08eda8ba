/* blocks_lxr.c: the pause that ends a trace, by how many blocks it evacuates at most. SPDX: MIT OR Apache-2.0
 *
 * usage: blocks_lxr EVACUATE      blocks that a trace evacuates at most, as of the settings; `heading` prints the heading
 *
 * In a heap of 8,192 blocks that one mutator is in, without helpers, 600 are filled one by one: each with a list of 512 of the smallest
 * objects, which take 32 of its 128 lines, and with two large ones, which are let go of when all are old. So each of them is one that costs a
 * trace the most: all of the list is moved, and each reference within it is remembered. Prints milliseconds of the processor's time of the plain
 * pause before the trace, of the one that begins it, and of the one that ends it, and the free blocks before and after the last.
 *
 *     cc -O2 -Ihosts/c -I"$PREFIX/include" -o blocks bench/evacuate/blocks_lxr.c -L"$PREFIX/lib" -llxr -lpthread
 *     for evacuate in heading 0 8 64 512; do ./blocks $evacuate; done
 */
#include "../c/bench.h"

#include <lxr_threads.h>

enum { BLOCKS = 8192, FILLED = 600, IN_LIST = 512, TRACE = 1000 };

enum { WORLD, LISTS, FILLINGS, LIST, MADE, FILLING };

static lxr_shared_heap *heap;
static lxr_mutator *mutator;

static void must(lxr_code code) {
    if (code == LXR_OK) return;
    fprintf(stderr, "blocks_lxr: %s\n", lxr_message(code));
    exit(1);
}

static uint64_t told(uint32_t what) {
    uint64_t number = 0;
    must(lxr_shared_heap_count(heap, what, &number));
    return number;
}

static void open_heap(uint32_t evacuate) {
    lxr_shared_heap_settings settings = LXR_SHARED_HEAP_SETTINGS(BLOCKS, 1);
    settings.helpers = 0;
    settings.log = LXR_MOST_LOG;
    settings.remember = 1048576;
    settings.every = LXR_MOST_EVERY;
    settings.trace = TRACE;
    settings.within = 1;
    settings.pace = LXR_PACE_NEVER;
    settings.grow = 0;
    settings.evacuate = evacuate;
    must(lxr_shared_heap_open(&heap, &settings));
    must(lxr_mutator_enter(heap, &mutator));
}

/* Fills a block, which the pause copies all of it to. */
static void fill_block(uint32_t number) {
    for (uint32_t at = 0; at < IN_LIST; at++) {
        must(lxr_mutator_new(mutator, MADE, 1, 0));
        must(lxr_mutator_store(mutator, MADE, 0, LIST));
        must(lxr_mutator_move(mutator, LIST, MADE));
    }
    must(lxr_mutator_store(mutator, LISTS, number, LIST));
    must(lxr_mutator_new(mutator, FILLING, 1023, 1023));
    must(lxr_mutator_new(mutator, MADE, 0, 1023));
    must(lxr_mutator_store(mutator, FILLING, 0, MADE));
    must(lxr_mutator_store(mutator, FILLINGS, number, FILLING));
    must(lxr_mutator_registers_in_use(mutator, LIST));
    must(lxr_mutator_pause(mutator));
}

static double timed_pause(void) {
    double begun = now();
    must(lxr_mutator_pause(mutator));
    return (now() - begun) / 1e6;
}

static void expect_kind(uint64_t kind) {
    if (told(LXR_COUNT_LAST_KIND) == kind) return;
    fprintf(stderr, "blocks_lxr: the pause is of another kind\n");
    exit(1);
}

int main(int count, char **words) {
    if (count != 2) return 2;
    if (strcmp(words[1], "heading") == 0) {
        puts("evacuate\tplain\tbegins\tends\tfree before\tfree after");
        return 0;
    }
    open_heap((uint32_t)strtoul(words[1], NULL, 10));
    must(lxr_mutator_new(mutator, LISTS, FILLED, 0));
    must(lxr_mutator_new(mutator, FILLINGS, FILLED, 0));
    must(lxr_mutator_pause(mutator));
    for (uint32_t number = 0; number < FILLED; number++) fill_block(number);
    must(lxr_mutator_nil(mutator, FILLINGS));
    double plain = 0;
    while (told(LXR_COUNT_PAUSES) < TRACE - 1) plain = timed_pause();
    double begins = timed_pause();
    expect_kind(LXR_KIND_BEGIN);
    uint64_t before = told(LXR_COUNT_FREE_BLOCKS);
    double ends = timed_pause();
    expect_kind(LXR_KIND_END);
    printf("%s\t%.3f\t%.3f\t%.3f\t%llu\t%llu\n", words[1], plain, begins, ends, (unsigned long long)before,
           (unsigned long long)told(LXR_COUNT_FREE_BLOCKS));
    must(lxr_mutator_leave(&mutator));
    must(lxr_shared_heap_close(&heap));
    return 0;
}
