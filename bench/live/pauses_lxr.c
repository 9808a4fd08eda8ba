/* pauses_lxr.c: the pauses of a heap of lxr_threads.h on the work of work.h. SPDX: MIT OR Apache-2.0
 *
 * usage: pauses_lxr MEGABYTES acyclic|cyclic ROUNDS EVERY
 *
 * EVERY is how many operations a thread makes between two pauses. A trace begins then when dead cycles have taken about two thirds
 * of what is free, and ends once all is marked. With `default` in its place the settings are those of the header, with their pace by
 * bytes, but for the helpers. All are home once the last thread has come for a pause; the pause itself goes on until all can go on. */
#include <lxr_threads.h>
#include <pthread.h>
#include <stdatomic.h>
#include <string.h>

#include "work.h"

enum { WORLD, TOP, TABLE, MADE, OTHER };

static struct work work;
static struct times home, pause;
static lxr_shared_heap *heap;
static pthread_barrier_t barrier;
static atomic_int is_timed;

static void must(lxr_code code) {
    if (code == LXR_OK) return;
    fprintf(stderr, "pauses_lxr: %s\n", lxr_message(code));
    exit(1);
}

static void on_pause(void *with, const lxr_pause_times *times) {
    (void)with;
    if (!atomic_load(&is_timed)) return;
    keep_time(&home, times->gathering);
    keep_time(&pause, times->pausing);
}

/* Register MADE holds what takes a place of a table. */
static void make_place(lxr_mutator *mutator, uint64_t word) {
    must(lxr_mutator_new(mutator, MADE, REFS, WORDS));
    must(lxr_mutator_put(mutator, MADE, 0, word));
    if (!work.is_cyclic) return;
    must(lxr_mutator_new(mutator, OTHER, REFS, WORDS));
    must(lxr_mutator_store(mutator, MADE, 0, OTHER));
    must(lxr_mutator_store(mutator, OTHER, 0, MADE));
}

static void fill(lxr_mutator *mutator, uint32_t number) {
    must(lxr_mutator_new(mutator, TOP, work.tables, 0));
    must(lxr_mutator_store(mutator, WORLD, number, TOP));
    for (uint32_t table = 0; table < work.tables; table++) {
        must(lxr_mutator_new(mutator, TABLE, IN_TABLE, 0));
        must(lxr_mutator_store(mutator, TOP, table, TABLE));
        for (uint32_t at = 0; at < IN_TABLE; at++) {
            make_place(mutator, at);
            must(lxr_mutator_store(mutator, TABLE, at, MADE));
        }
    }
}

static void replace(lxr_mutator *mutator, uint32_t number) {
    uint64_t state = number + 1;
    for (uint32_t round = 0; round < work.rounds; round++) {
        for (int dropped = 0; dropped < DROPPED; dropped++) {
            must(lxr_mutator_new(mutator, MADE, REFS, WORDS));
            must(lxr_mutator_put(mutator, MADE, 0, round));
        }
        uint32_t drawn = draw_from(&state, work.tables * IN_TABLE);
        must(lxr_mutator_load(mutator, TABLE, TOP, drawn / IN_TABLE));
        make_place(mutator, round);
        must(lxr_mutator_store(mutator, TABLE, drawn % IN_TABLE, MADE));
    }
}

/* All threads, and the one that takes the time, wait here for each other. */
static void meet(lxr_mutator *mutator) {
    must(lxr_mutator_rest(mutator));
    pthread_barrier_wait(&barrier);
    must(lxr_mutator_wake(mutator));
}

static void *run(void *given) {
    uint32_t number = (uint32_t)(uintptr_t)given;
    lxr_mutator *mutator = NULL;
    must(lxr_mutator_enter(heap, &mutator));
    fill(mutator, number);
    meet(mutator);
    replace(mutator, number);
    meet(mutator);
    must(lxr_mutator_leave(&mutator));
    return NULL;
}

/* Pauses from one trace to the next: a round of 13 operations leaves a dead cycle of two objects, and these may take two thirds of
 * the megabytes. */
static uint32_t pauses_between_traces(uint32_t every) {
    uint32_t left = every * THREADS / 13 * 2 * OBJECT_BYTES;
    uint32_t pauses = work.megabytes * 666667u / (left ? left : 1);
    return pauses < 2 ? 2 : pauses;
}

static lxr_shared_heap_settings settings_of(const char *every) {
    lxr_shared_heap_settings settings = LXR_SHARED_HEAP_SETTINGS(work.megabytes * 2000000u / 32768u, THREADS);
    settings.helpers = HELPERS;
    settings.paused = on_pause;
    if (strcmp(every, "default") == 0) return settings;
    settings.log = 8192;
    settings.every = (uint32_t)strtoul(every, NULL, 10);
    settings.trace = pauses_between_traces(settings.every);
    settings.pace = LXR_PACE_NEVER;
#ifdef LXR_MOST_GROW /* which headers of older libraries haven't */
    settings.grow = 0;
#endif
    return settings;
}

int main(int count, char **words) {
    pthread_t started[THREADS];
    char name[40];
    if (count != 5) return 2;
    work = work_of(4, words);
    lxr_shared_heap_settings settings = settings_of(words[4]);
    must(lxr_shared_heap_open(&heap, &settings));
    pthread_barrier_init(&barrier, NULL, THREADS + 1);
    for (uintptr_t at = 0; at < THREADS; at++) pthread_create(&started[at], NULL, run, (void *)at);
    pthread_barrier_wait(&barrier);
    atomic_store(&is_timed, 1);
    uint64_t begun = clock_now();
    pthread_barrier_wait(&barrier);
    uint64_t taken = clock_now() - begun;
    atomic_store(&is_timed, 0);
    for (uint32_t at = 0; at < THREADS; at++) pthread_join(started[at], NULL);
    pthread_barrier_destroy(&barrier);
    must(lxr_shared_heap_close(&heap));
    snprintf(name, sizeof name, "this collector, %s%s", strcmp(words[4], "default") == 0 ? "" : "every ", words[4]);
    print_row(name, work, &home, &pause, taken);
    return 0;
}
