/*
 * threads_pace.c: pauses of heaps that threads share, by the bytes of new objects. SPDX: MIT OR Apache-2.0
 *
 * What counts and when a pause comes is held exactly, where one mutator makes objects that nothing keeps: so no pause comes but by the pace
 * or by what the test asks for. Then four threads make objects at once.
 */
#include "../lxr_threads.h"

#include <inttypes.h>
#include <pthread.h>
#include <stdio.h>
#include <stdlib.h>

enum { SMALL = 32, THREADS = 4, MADE = 10000, SHARED_PACE = 65536 };

static lxr_shared_heap *heap;
static unsigned long checks;

static void check(uint64_t found, uint64_t wanted, const char *what, int line) {
    checks++;
    if (found == wanted) return;
    fprintf(stderr, "threads_pace.c:%d: %s is %" PRIu64 ", not %" PRIu64 "\n", line, what, found, wanted);
    _Exit(1);
}

#define IS(what, wanted) check(what, wanted, #what, __LINE__)

static void open_paced(uint32_t blocks, uint32_t mutators, uint64_t pace) {
    lxr_shared_heap_settings settings = LXR_SHARED_HEAP_SETTINGS(blocks, mutators);
    settings.trace = LXR_MOST_TRACE; /* so that no trace makes pauses come sooner */
    IS(settings.pace, LXR_PACE_ROOM);
    settings.pace = pace;
    settings.every = LXR_MOST_EVERY;
    IS(lxr_shared_heap_open(&heap, &settings), LXR_OK);
}

static lxr_mutator *enter(void) {
    lxr_mutator *mutator = NULL;
    IS(lxr_mutator_enter(heap, &mutator), LXR_OK);
    return mutator;
}

static uint64_t pauses(void) {
    uint64_t number = 0;
    IS(lxr_shared_heap_count(heap, LXR_COUNT_PAUSES, &number), LXR_OK);
    return number;
}

/* Makes so many objects of 32 bytes. */
static void make(lxr_mutator *mutator, uint64_t count) {
    while (count--) IS(lxr_mutator_new(mutator, 1, 1, 1), LXR_OK);
}

/* The next pause comes with the last of so many bytes in objects of 32, and not before. */
static void pauses_after(lxr_mutator *mutator, uint64_t bytes) {
    uint64_t before = pauses();
    make(mutator, bytes / SMALL - 1);
    IS(pauses(), before);
    make(mutator, 1);
    IS(pauses(), before + 1);
}

static void close_after(lxr_mutator *mutator) {
    IS(lxr_mutator_leave(&mutator), LXR_OK);
    IS(lxr_shared_heap_close(&heap), LXR_OK);
}

/* ---- One mutator ---- */

static void try_bytes(void) {
    open_paced(64, 1, 4096);
    lxr_mutator *mutator = enter();
    for (int left = 3; left--;) pauses_after(mutator, 4096);
    make(mutator, 127);
    IS(lxr_mutator_pause(mutator), LXR_OK); /* what was made before a pause doesn't count after it */
    pauses_after(mutator, 4096);
    for (uint32_t at = 0; at < 500; at++) IS(lxr_mutator_store(mutator, 0, at % LXR_WORLD_REFS, 1), LXR_OK);
    IS(lxr_mutator_new(mutator, 0, 1, 1), LXR_E_REGISTER); /* nor does what isn't made */
    IS(lxr_mutator_new(mutator, 1, LXR_MOST_REFS + 1, 1), LXR_E_SIZE);
    pauses_after(mutator, 4096);
    close_after(mutator);
}

/* An object has its header and its fields, rounded up to sixteen bytes. */
static void try_sizes(void) {
    const struct {
        uint32_t refs, words, bytes;
    } sizes[] = { { 0, 0, 16 }, { 0, 1, 16 }, { 1, 0, 16 }, { 2, 0, 32 }, { 1, 3, 48 }, { 1023, 1023, 16384 } };
    for (size_t at = 0; at < sizeof sizes / sizeof sizes[0]; at++) {
        open_paced(64, 1, 3 * (uint64_t)sizes[at].bytes);
        lxr_mutator *mutator = enter();
        for (uint64_t made = 1; made <= 9; made++) {
            IS(lxr_mutator_new(mutator, 1, sizes[at].refs, sizes[at].words), LXR_OK);
            IS(pauses(), made / 3);
        }
        close_after(mutator);
    }
}

/* One pause for each object, and none at all. */
static void try_ends(void) {
    open_paced(64, 1, 1);
    lxr_mutator *mutator = enter();
    for (int left = 50; left--;) pauses_after(mutator, SMALL);
    close_after(mutator);
    const uint64_t none[] = { LXR_PACE_NEVER, UINT64_MAX - 1 };
    for (size_t at = 0; at < 2; at++) {
        open_paced(64, 1, none[at]);
        mutator = enter();
        make(mutator, 50000);
        IS(pauses(), 0);
        close_after(mutator);
    }
}

/* Half of all blocks, up to 1 MB. */
static void try_room(void) {
    const uint32_t blocks[] = { 8, 32, 64, 200 };
    const uint64_t bytes[] = { 8 << 14, 32 << 14, 64 << 14, 64 << 14 };
    for (size_t at = 0; at < 4; at++) {
        open_paced(blocks[at], 1, LXR_PACE_ROOM);
        lxr_mutator *mutator = enter();
        for (int left = 2; left--;) pauses_after(mutator, bytes[at]);
        close_after(mutator);
    }
}

/* ---- Several mutators ---- */

/* Each has its share, by how many there are as it goes out. */
static void try_shares(void) {
    open_paced(64, 3, 6144);
    lxr_mutator *one = enter();
    lxr_mutator *other = enter();
    IS(lxr_mutator_rest(other), LXR_OK);
    pauses_after(one, 6144); /* it entered alone */
    pauses_after(one, 3072);
    lxr_mutator *third = enter();
    IS(lxr_mutator_rest(third), LXR_OK);
    pauses_after(one, 3072);
    pauses_after(one, 2048);
    IS(lxr_mutator_leave(&third), LXR_OK);
    IS(lxr_mutator_leave(&other), LXR_OK);
    pauses_after(one, 2048);
    pauses_after(one, 6144);
    close_after(one);
}

/* What it has made since the pause counts after a rest too, and to who has its place. */
static void try_places(void) {
    open_paced(64, 1, 4096);
    lxr_mutator *mutator = enter();
    for (int left = 3; left--;) {
        make(mutator, 64);
        IS(lxr_mutator_rest(mutator), LXR_OK);
        IS(lxr_mutator_wake(mutator), LXR_OK);
        pauses_after(mutator, 2048);
        make(mutator, 64);
        IS(lxr_mutator_leave(&mutator), LXR_OK);
        mutator = enter();
        pauses_after(mutator, 2048);
    }
    close_after(mutator);
}

static void must(lxr_code code) {
    if (code == LXR_OK) return;
    fprintf(stderr, "threads_pace: of threads at once: %s\n", lxr_message(code));
    _Exit(1);
}

static void *make_many(void *unused) {
    lxr_mutator *mutator = NULL;
    must(lxr_mutator_enter(heap, &mutator));
    for (int left = MADE; left--;) must(lxr_mutator_new(mutator, 1, 1, 1));
    must(lxr_mutator_leave(&mutator));
    return unused;
}

/* Between two pauses there are at most the pace and an object each; but the first of them may enter alone. */
static void try_threads(void) {
    pthread_t threads[THREADS];
    const uint64_t all = (uint64_t)THREADS * MADE * SMALL, most = SHARED_PACE + THREADS * SMALL, first = 3 * (uint64_t)SHARED_PACE;
    open_paced(64, THREADS, SHARED_PACE);
    for (size_t at = 0; at < THREADS; at++) IS((uint64_t)pthread_create(&threads[at], NULL, make_many, NULL), 0);
    for (size_t at = 0; at < THREADS; at++) pthread_join(threads[at], NULL);
    IS(pauses() >= (all - first) / most - THREADS, 1);
    IS(lxr_shared_heap_close(&heap), LXR_OK);
}

int main(void) {
    try_bytes();
    try_sizes();
    try_ends();
    try_room();
    try_shares();
    try_places();
    try_threads();
    printf("threads_pace: %lu checks, and %d threads at once\n", checks, THREADS);
    return 0;
}
