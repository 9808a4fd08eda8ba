/* random_lxr.c: what a get of a random object costs in a heap of any size. SPDX: MIT OR Apache-2.0
 *
 * usage: random_lxr BLOCKS OBJECTS      where OBJECTS is a power of two
 *
 * Built with SHARED it is of a heap of lxr_threads.h, with one mutator and no helper, and else of one of lxr.h. Each object refers to another
 * one, all in one circle whose order is none of places, and arrays refer to all. Prints nanoseconds, the best of some rounds: of a step of
 * the circle, which is a load and a get of the object that was found; and of an element of an array that is drawn, an array_load and a get. */
#include "work.h"

#ifdef SHARED
#include <lxr_threads.h>
#define CALL(name, ...) must(lxr_mutator_##name(mutator, __VA_ARGS__))
static lxr_shared_heap *heap;
static lxr_mutator *mutator;
#else
#include <lxr.h>
#define CALL(name, ...) must(lxr_##name(&heap, __VA_ARGS__))
static lxr_heap heap = LXR_HEAP_INIT;
#endif

enum { WORLD, OBJECT, OTHER, ARRAY, MOST_ARRAYS = 32 };

enum { OBJECT_REFS = 1, OBJECT_WORDS = 14, IN_ARRAY = 524288, STEPS = 2000000, STEP_ROUNDS = 5 };

static uint32_t objects;

static void must(lxr_code code) {
    if (code == LXR_OK) return;
    fprintf(stderr, "random_lxr: %s\n", lxr_message(code));
    exit(1);
}

/* The one after an object in the circle: as the numbers are a power of two, it comes round to all. */
static uint32_t next_of(uint32_t number) { return (number * 1664525u + 1013904223u) & (objects - 1); }

static uint32_t array_of(uint32_t number) { return ARRAY + number / IN_ARRAY; }

#ifdef SHARED
static void open_heap(uint32_t blocks) {
    lxr_shared_heap_settings settings = LXR_SHARED_HEAP_SETTINGS(blocks, 1);
    settings.helpers = 0;
    settings.log = LXR_MOST_LOG;
    settings.every = LXR_MOST_EVERY;
    settings.trace = LXR_MOST_TRACE;
    settings.registers = ARRAY + MOST_ARRAYS;
    settings.grow = 0;
    must(lxr_shared_heap_open(&heap, &settings));
    must(lxr_mutator_enter(heap, &mutator));
}

static void make_pause(void) { must(lxr_mutator_pause(mutator)); }

static void close_heap(void) {
    must(lxr_mutator_leave(&mutator));
    must(lxr_shared_heap_close(&heap));
}
#else
static void open_heap(uint32_t blocks) {
    lxr_settings settings = LXR_SETTINGS(blocks, 1);
    settings.registers = ARRAY + MOST_ARRAYS;
    settings.grow = 0;
    must(lxr_open(&heap, &settings));
}

static void make_pause(void) { must(lxr_pause(&heap)); }

static void close_heap(void) { must(lxr_close(&heap)); }
#endif

static void make_arrays(void) {
    for (uint32_t first = 0; first < objects; first += IN_ARRAY) {
        CALL(array_new, array_of(first), objects < IN_ARRAY ? objects : IN_ARRAY);
    }
}

static void make_objects(void) {
    for (uint32_t number = 0; number < objects; number++) {
        CALL(new, OBJECT, OBJECT_REFS, OBJECT_WORDS);
        CALL(put, OBJECT, 0, number);
        CALL(array_store, array_of(number), number % IN_ARRAY, OBJECT);
    }
}

static void find(uint32_t dest, uint32_t number) { CALL(array_load, dest, array_of(number), number % IN_ARRAY); }

static void join_circle(void) {
    for (uint32_t number = 0; number < objects; number++) {
        find(OBJECT, number);
        find(OTHER, next_of(number));
        CALL(store, OBJECT, 0, OTHER);
    }
    CALL(nil, OTHER);
}

/* What is read is the number that belongs there. */
static void want(uint64_t word, uint32_t number) {
    if (word == number) return;
    fprintf(stderr, "random_lxr: another object was found\n");
    exit(1);
}

static double walk(void) {
    uint32_t number = 0;
    find(OBJECT, number);
    const uint64_t begun = clock_now();
    for (uint32_t step = 0; step < STEPS; step++) {
        uint64_t word = 0;
        number = next_of(number);
        CALL(load, OBJECT, OBJECT, 0);
        CALL(get, OBJECT, 0, &word);
        want(word, number);
    }
    return (double)(clock_now() - begun) / STEPS;
}

static double draw(void) {
    uint64_t state = 1;
    const uint64_t begun = clock_now();
    for (uint32_t step = 0; step < STEPS; step++) {
        uint64_t word = 0;
        const uint32_t number = draw_from(&state, objects);
        find(OBJECT, number);
        CALL(get, OBJECT, 0, &word);
        want(word, number);
    }
    return (double)(clock_now() - begun) / STEPS;
}

static double best_of(double (*measure)(void)) {
    double best = 1e18;
    for (int round = 0; round < STEP_ROUNDS; round++) {
        const double time = measure();
        if (time < best) best = time;
    }
    return best;
}

int main(int count, char **words) {
    if (count != 3) return 2;
    objects = (uint32_t)strtoul(words[2], NULL, 10);
    if (!objects || objects & (objects - 1) || objects > (uint32_t)IN_ARRAY * MOST_ARRAYS) return 2;
    open_heap((uint32_t)strtoul(words[1], NULL, 10));
    make_arrays();
    make_objects();
    join_circle();
    make_pause();
    printf("\t%.1f", best_of(walk));
    printf("\t%.1f", best_of(draw));
    close_heap();
    return 0;
}
