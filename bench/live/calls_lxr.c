/* calls_lxr.c: what the calls of lxr_threads.h cost. SPDX: MIT OR Apache-2.0
 *
 * usage: calls_lxr THREADS
 *        calls_lxr count NAME TENTHS      this call alone, in one thread, so many tenths of a round; prints how many calls those are
 *
 * A line for each call: its name, and the nanoseconds that it takes in each thread, of the best of some rounds, which all threads
 * begin together. A pause is made before each round. Each thread has objects of its own. */
#include <lxr_threads.h>
#include <pthread.h>
#include <stdatomic.h>
#include <string.h>

#include "work.h"

enum { WORLD, OBJECT, OTHER, TABLE, FOUND, MADE };

enum { BLOCKS = 1024, MOST_THREADS = 16, ROUNDS = 200, CALLS = 20000 };

static uint32_t count;

/* The call whose instructions are counted from without (bench/instructions); none where all are timed. */
static const char *counted_call;
static uint32_t counted_tenths;
static lxr_shared_heap *heap;
static pthread_barrier_t barrier;
static atomic_uint begun;
static double taken[MOST_THREADS];
static uint64_t kept[MOST_THREADS * 16];

static void must(lxr_code code) {
    if (code == LXR_OK) return;
    fprintf(stderr, "calls_lxr: %s\n", lxr_message(code));
    exit(1);
}

/* All threads wait here for each other, and hold up no pause meanwhile. */
static void meet(lxr_mutator *mutator) {
    must(lxr_mutator_rest(mutator));
    pthread_barrier_wait(&barrier);
    must(lxr_mutator_wake(mutator));
}

/* The first thread makes a pause while the others rest. */
static void pause_before(lxr_mutator *mutator, uint32_t number) {
    if (number) {
        must(lxr_mutator_rest(mutator));
        pthread_barrier_wait(&barrier);
        must(lxr_mutator_wake(mutator));
    } else {
        must(lxr_mutator_pause(mutator));
        meet(mutator);
    }
}

/* All threads go on from here at once. */
static void begin_together(lxr_mutator *mutator, uint32_t round) {
    atomic_fetch_add(&begun, 1);
    while (atomic_load(&begun) < count * round) must(lxr_mutator_poll(mutator));
}

/* Prints the greatest time of the threads in a round, and keeps the least of the rounds. */
static void keep_best(double *best) {
    double most = 0;
    for (uint32_t at = 0; at < count; at++) most = taken[at] > most ? taken[at] : most;
    if (most < *best) *best = most;
}

/* Of a call that is counted there is one round, and of the others none. */
static int rounds_of(const char *name) { return counted_call ? strcmp(counted_call, name) == 0 : ROUNDS; }

static uint32_t calls_of(uint32_t calls) { return counted_call ? calls / 10 * counted_tenths : calls; }

static void print_measure(const char *name, double best, uint32_t calls) {
    if (!counted_call) printf("%s\t%.1f\n", name, best);
    if (counted_call && strcmp(counted_call, name) == 0) printf("%u\n", calls);
}

/* A measure: `first` isn't timed, and `call` has its number from 0 on in `i`. */
#define MEASURE(name, most, first, call) \
    do { \
        double best = 1e18; \
        const uint32_t calls = calls_of(most); \
        for (int at = rounds_of(name); at > 0; at--) { \
            pause_before(mutator, number); \
            first; \
            begin_together(mutator, ++round); \
            uint64_t from = clock_now(); \
            for (uint32_t i = 0; i < calls; i++) { \
                call; \
                __asm__ volatile("" ::: "memory"); \
            } \
            taken[number] = (double)(clock_now() - from) / (double)calls; \
            meet(mutator); \
            if (!number) keep_best(&best); \
        } \
        if (!number) print_measure(name, best, calls); \
    } while (0)

/* So that further stores find their references logged. */
static void store_both(lxr_mutator *mutator) {
    must(lxr_mutator_store(mutator, OBJECT, 0, OTHER));
    must(lxr_mutator_store(mutator, OBJECT, 1, OTHER));
}

static void *run(void *given) {
    uint32_t number = (uint32_t)(uintptr_t)given, round = 0;
    uint64_t *word = &kept[number * 16];
    lxr_mutator *mutator = NULL;
    must(lxr_mutator_enter(heap, &mutator));
    must(lxr_mutator_new(mutator, OBJECT, 2, 2));
    must(lxr_mutator_new(mutator, OTHER, 2, 2));
    must(lxr_mutator_new(mutator, TABLE, IN_TABLE, 0));
    store_both(mutator);
    MEASURE("get", CALLS, , must(lxr_mutator_get(mutator, OBJECT, i & 1, word)));
    MEASURE("put", CALLS, , must(lxr_mutator_put(mutator, OBJECT, i & 1, i)));
    MEASURE("add", CALLS, , must(lxr_mutator_add(mutator, OBJECT, i & 1, 1, word)));
    MEASURE("load", CALLS, , must(lxr_mutator_load(mutator, FOUND, OBJECT, i & 1)));
    MEASURE("store, the first since a pause", IN_TABLE, , must(lxr_mutator_store(mutator, TABLE, i, OTHER)));
    MEASURE("store, a further one", CALLS, store_both(mutator), must(lxr_mutator_store(mutator, OBJECT, i & 1, OTHER)));
    MEASURE("swap", CALLS, store_both(mutator), must(lxr_mutator_swap(mutator, FOUND, OBJECT, i & 1, OTHER)));
    MEASURE("move", CALLS, , must(lxr_mutator_move(mutator, FOUND, OTHER)));
    MEASURE("new of two words", CALLS, , must(lxr_mutator_new(mutator, MADE, 1, 1)));
    must(lxr_mutator_leave(&mutator));
    return NULL;
}

int main(int words_count, char **words) {
    pthread_t started[MOST_THREADS];
    if (words_count == 4 && strcmp(words[1], "count") == 0) {
        counted_call = words[2];
        counted_tenths = (uint32_t)strtoul(words[3], NULL, 10);
        count = 1;
    } else {
        count = words_count == 2 ? (uint32_t)strtoul(words[1], NULL, 10) : 0;
    }
    if (count < 1 || count > MOST_THREADS) return 2;
    lxr_shared_heap_settings settings = LXR_SHARED_HEAP_SETTINGS(BLOCKS, count);
    settings.helpers = 0;
    settings.log = LXR_MOST_LOG;
    settings.every = LXR_MOST_EVERY;
    settings.pace = LXR_PACE_NEVER;
    settings.grow = 0;
    must(lxr_shared_heap_open(&heap, &settings));
    pthread_barrier_init(&barrier, NULL, count);
    for (uintptr_t at = 0; at < count; at++) pthread_create(&started[at], NULL, run, (void *)at);
    for (uint32_t at = 0; at < count; at++) pthread_join(started[at], NULL);
    pthread_barrier_destroy(&barrier);
    must(lxr_shared_heap_close(&heap));
    return 0;
}
