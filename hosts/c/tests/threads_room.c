/*
 * threads_room.c: the room of heaps that threads share, up and down and as it grows. SPDX: MIT OR Apache-2.0
 *
 * Threads make rings that nothing keeps, which counts don't reclaim: so what is in use stays near the room by collecting pauses alone.
 */
#include "../lxr_threads.h"

#include <inttypes.h>
#include <pthread.h>
#include <stdio.h>
#include <stdlib.h>

enum { BLOCKS = 1000, SLACK = 64, RING = 1500, RINGS = 24, THREADS = 4, CHANGES = 200 };

static lxr_shared_heap *heap;
static unsigned long checks;

static void check(uint64_t found, uint64_t wanted, const char *what, int line) {
    checks++;
    if (found == wanted) return;
    fprintf(stderr, "threads_room.c:%d: %s is %" PRIu64 ", not %" PRIu64 "\n", line, what, found, wanted);
    _Exit(1);
}

#define IS(what, wanted) check(what, wanted, #what, __LINE__)

static void must(lxr_code code) {
    if (code == LXR_OK) return;
    fprintf(stderr, "threads_room: %s\n", lxr_message(code));
    _Exit(1);
}

/* A heap whose traces begin late, so that collecting pauses alone reclaim rings. */
static void open_heap(uint32_t room, uint32_t grow) {
    lxr_shared_heap_settings settings = LXR_SHARED_HEAP_SETTINGS(BLOCKS, THREADS);
    IS(settings.room, 0);
    IS(settings.grow, LXR_GROW);
    settings.trace = LXR_MOST_TRACE;
    settings.room = room;
    settings.grow = grow;
    must(lxr_shared_heap_open(&heap, &settings));
}

static uint64_t count(uint32_t what) {
    uint64_t number = 0;
    must(lxr_shared_heap_count(heap, what, &number));
    return number;
}

static uint64_t used(void) { return BLOCKS - count(LXR_COUNT_FREE_BLOCKS); }

/* A ring of so many objects of 1 KB. */
static void drop_ring(lxr_mutator *mutator, uint32_t length) {
    must(lxr_mutator_new(mutator, 1, 2, 126));
    must(lxr_mutator_move(mutator, 2, 1));
    while (--length) {
        must(lxr_mutator_new(mutator, 3, 2, 126));
        must(lxr_mutator_store(mutator, 3, 0, 2));
        must(lxr_mutator_move(mutator, 2, 3));
    }
    must(lxr_mutator_store(mutator, 1, 0, 2));
    for (uint32_t at = 1; at < 4; at++) must(lxr_mutator_nil(mutator, at));
}

/* Drops rings; what pauses leave in use stays near the room from the first that collects on. */
static void stays_within(lxr_mutator *mutator, uint32_t room) {
    uint64_t before = count(LXR_COUNT_COLLECTING);
    for (int left = RINGS; left--;) {
        drop_ring(mutator, RING);
        if (count(LXR_COUNT_COLLECTING) > before) IS(used() <= room + SLACK, 1);
    }
    IS(count(LXR_COUNT_COLLECTING) > before, 1);
}

static void try_one(void) {
    lxr_mutator *mutator = NULL;
    open_heap(100, 0);
    must(lxr_mutator_enter(heap, &mutator));
    stays_within(mutator, 100);
    must(lxr_shared_heap_set_room(heap, 300));
    stays_within(mutator, 300);
    must(lxr_shared_heap_set_room(heap, 100));
    stays_within(mutator, 100);
    IS(count(LXR_COUNT_ROOM), 100);
    must(lxr_shared_heap_set_grow(heap, 50));
    for (int left = 20; left--;) {
        drop_ring(mutator, RING);
        must(lxr_mutator_collect(mutator));
        uint64_t wanted = used() * 3 / 2;
        IS(count(LXR_COUNT_ROOM), wanted < 64 ? 64 : wanted);
    }
    stays_within(mutator, 64);
    must(lxr_mutator_leave(&mutator));
    must(lxr_shared_heap_close(&heap));
}

static void *drop_many(void *unused) {
    lxr_mutator *mutator = NULL;
    must(lxr_mutator_enter(heap, &mutator));
    for (int left = RINGS; left--;) drop_ring(mutator, RING);
    must(lxr_mutator_leave(&mutator));
    return unused;
}

/* Four threads drop rings, while the room goes up and down. */
static void try_threads(void) {
    pthread_t threads[THREADS];
    uint32_t drawn = 1;
    open_heap(50, 0);
    for (size_t at = 0; at < THREADS; at++) IS((uint64_t)pthread_create(&threads[at], NULL, drop_many, NULL), 0);
    for (int left = CHANGES; left--;) {
        drawn = drawn * 1103515245u + 12345u;
        if (drawn >> 31) must(lxr_shared_heap_set_grow(heap, (drawn >> 8) % 200));
        must(lxr_shared_heap_set_room(heap, (drawn >> 12) % BLOCKS));
        IS(count(LXR_COUNT_ROOM) <= BLOCKS, 1);
    }
    for (size_t at = 0; at < THREADS; at++) pthread_join(threads[at], NULL);
    lxr_mutator *mutator = NULL;
    must(lxr_mutator_enter(heap, &mutator));
    must(lxr_mutator_collect(mutator));
    IS(used() <= 4, 1);
    must(lxr_mutator_leave(&mutator));
    must(lxr_shared_heap_close(&heap));
}

int main(void) {
    try_one();
    try_threads();
    printf("threads_room: %lu checks, and %d threads at once\n", checks, THREADS);
    return 0;
}
