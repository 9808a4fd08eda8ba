/*
 * threads_traces.c: traces of heaps that threads share, which begin by the room. SPDX: MIT OR Apache-2.0
 *
 * A thread makes rings that nothing keeps, which counts don't reclaim, or objects that counts do reclaim; each pause is told of.
 */
#include "../lxr_threads.h"

#include <inttypes.h>
#include <stdio.h>
#include <stdlib.h>

enum { BLOCKS = 1000, RING = 1500, RINGS = 40, OBJECTS = 200000, ROOM = 400, SMALL = 64, KINDS = LXR_KIND_COLLECT + 1 };

static lxr_shared_heap *heap;
static unsigned long checks;

/* What was told: pauses of each kind, and at which number the first trace began. */
static uint64_t kinds[KINDS], first;

static void check(uint64_t found, uint64_t wanted, const char *what, int line) {
    checks++;
    if (found == wanted) return;
    fprintf(stderr, "threads_traces.c:%d: %s is %" PRIu64 ", not %" PRIu64 "\n", line, what, found, wanted);
    _Exit(1);
}

#define IS(what, wanted) check(what, wanted, #what, __LINE__)

static void must(lxr_code code) {
    if (code == LXR_OK) return;
    fprintf(stderr, "threads_traces: %s\n", lxr_message(code));
    _Exit(1);
}

static void note(void *with, const lxr_pause_times *times) {
    (void)with;
    if (times->kind == LXR_KIND_BEGIN && kinds[LXR_KIND_BEGIN] == 0) first = times->number;
    kinds[times->kind]++;
}

static lxr_mutator *open_heap(uint32_t trace, uint32_t room, uint32_t grow, uint32_t helpers) {
    lxr_shared_heap_settings settings = LXR_SHARED_HEAP_SETTINGS(BLOCKS, 1);
    lxr_mutator *mutator = NULL;
    IS(settings.trace, 0);
    settings.trace = trace;
    settings.room = room;
    settings.grow = grow;
    settings.helpers = helpers;
    settings.paused = note;
    for (size_t at = 0; at < KINDS; at++) kinds[at] = 0;
    must(lxr_shared_heap_open(&heap, &settings));
    must(lxr_mutator_enter(heap, &mutator));
    return mutator;
}

static void close_heap(lxr_mutator *mutator) {
    must(lxr_mutator_leave(&mutator));
    must(lxr_shared_heap_close(&heap));
}

static uint64_t used(void) {
    uint64_t free_blocks = 0;
    must(lxr_shared_heap_count(heap, LXR_COUNT_FREE_BLOCKS, &free_blocks));
    return BLOCKS - free_blocks;
}

/* A ring of so many objects of 1 KB. */
static void drop_ring(lxr_mutator *mutator, uint32_t length) {
    must(lxr_mutator_new(mutator, 1, 2, 126));
    must(lxr_mutator_move(mutator, 2, 1));
    while (--length) {
        must(lxr_mutator_new(mutator, 3, 2, 126));
        must(lxr_mutator_store(mutator, 3, 0, 2));
        must(lxr_mutator_move(mutator, 2, 3));
    }
    must(lxr_mutator_store(mutator, 1, 0, 2));
    for (uint32_t at = 1; at < 4; at++) must(lxr_mutator_nil(mutator, at));
}

/*
 * Rings fill the room, which is told as the heap is opened, or by a call after it; a trace begins once half of it is used, and each that ends has
 * another begin once half of what it left is.
 */
static void by_room(uint32_t opened, uint32_t room) {
    lxr_mutator *mutator = open_heap(0, opened, 0, 1);
    uint32_t whole = room ? room : BLOCKS;
    must(lxr_shared_heap_set_room(heap, room));
    while (kinds[LXR_KIND_BEGIN] == 0) {
        uint64_t before = used();
        IS(before <= whole / 2 + 96, 1); /* a ring is 48 blocks, and a pause comes twice within one */
        drop_ring(mutator, RING);
    }
    IS(first > 1, 1);
    for (int left = RINGS; left--;) drop_ring(mutator, RING);
    IS(kinds[LXR_KIND_END] + kinds[LXR_KIND_COLLECT] >= 1, 1);
    IS(kinds[LXR_KIND_BEGIN] <= kinds[LXR_KIND_END] + kinds[LXR_KIND_COLLECT] + 1, 1);
    close_heap(mutator);
}

/* Where the room grows, the first trace doesn't wait for half of all blocks. */
static void begins_small(void) {
    lxr_mutator *mutator = open_heap(0, 0, LXR_GROW, 1);
    while (kinds[LXR_KIND_BEGIN] == 0) {
        IS(used() <= SMALL / 2 + 96, 1);
        drop_ring(mutator, RING);
    }
    close_heap(mutator);
}

/* Without helpers the pause after the one that begins a trace ends it, or one that collects. */
static void ends_alone(void) {
    lxr_mutator *mutator = open_heap(0, ROOM, 0, 0);
    for (int left = RINGS; left--;) drop_ring(mutator, RING);
    IS(kinds[LXR_KIND_BEGIN] > 0, 1);
    IS(kinds[LXR_KIND_BEGIN] <= kinds[LXR_KIND_END] + kinds[LXR_KIND_COLLECT] + 1, 1);
    IS(kinds[LXR_KIND_END] > 0, 1);
    close_heap(mutator);
}

/* Nothing stays in use, so no trace begins. */
static void none_begins(void) {
    lxr_mutator *mutator = open_heap(0, 0, 0, 1);
    for (int left = OBJECTS; left--;) must(lxr_mutator_new(mutator, 1, 2, 30));
    if (used() < BLOCKS / 4) IS(kinds[LXR_KIND_BEGIN], 0);
    IS(kinds[LXR_KIND_PLAIN] > 0, 1);
    close_heap(mutator);
}

/* By a number the room says nothing. */
static void by_number(void) {
    lxr_mutator *mutator = open_heap(LXR_MOST_TRACE, ROOM, 0, 1);
    for (int left = RINGS; left--;) drop_ring(mutator, RING);
    IS(kinds[LXR_KIND_BEGIN], 0);
    IS(kinds[LXR_KIND_COLLECT] > 0, 1);
    close_heap(mutator);
}

int main(void) {
    by_room(ROOM, ROOM);
    by_room(0, 0);
    by_room(0, ROOM);
    by_room(ROOM, 0);
    begins_small();
    ends_alone();
    none_begins();
    by_number();
    printf("threads_traces: %lu checks\n", checks);
    return 0;
}
