/*
 * threads_waits.c: threads that wait for pauses, and those that nobody may wait for. SPDX: MIT OR Apache-2.0
 *
 * A thread sleeps at rest while others make 1,000 pauses; the last that a pause waits for rests or leaves; sixteen threads fill a heap at
 * once, and each is told; threads that only poll hold up nobody; more threads than places come and go; and all sixteen ask for pauses at
 * once, some of them for collecting ones.
 */
#include "../lxr_threads.h"

#include <inttypes.h>
#include <pthread.h>
#include <stdbool.h>
#include <stdio.h>
#include <stdlib.h>
#include <time.h>

enum { ALL = 16, PAUSES = 1000, VISITS = 60, ASKED = 20, POLLED = 400, LONG = 24 };

/* The mock of the archive says at random that a heap is full; the archive says so once. */
#ifdef MOCK_PASSES
enum { MOCKED = 100 };
#else
enum { MOCKED = 1 };
#endif

static lxr_shared_heap *heap;
static uint32_t turns;

static void done(lxr_code code, const char *what) {
    if (code == LXR_OK) return;
    fprintf(stderr, "threads_waits: %s: %s\n", what, lxr_message(code));
    _Exit(1);
}

static uint64_t count(uint32_t what) {
    uint64_t number = 0;
    done(lxr_shared_heap_count(heap, what, &number), "count");
    return number;
}

static void nap(long microseconds) {
    struct timespec time = { 0, microseconds * 1000 };
    nanosleep(&time, NULL);
}

/* Makes an object in a heap that has room for it. */
static void make(lxr_mutator *mutator, uint32_t dest, uint32_t refs, uint32_t words) {
    lxr_code code = LXR_E_FULL;
    for (uint32_t left = MOCKED; code == LXR_E_FULL && left--;) code = lxr_mutator_new(mutator, dest, refs, words);
    done(code, "new");
}

/* Opens a heap, lets so many threads do a thing each, and closes it. */
static void together(uint32_t blocks, uint32_t places, uint32_t helpers, uint32_t threads, void *(*what)(void *)) {
    lxr_shared_heap_settings settings = LXR_SHARED_HEAP_SETTINGS(blocks, places);
    pthread_t started[2 * ALL];
    settings.helpers = helpers;
    turns = 0;
    done(lxr_shared_heap_open(&heap, &settings), "open");
    for (uint32_t at = 0; at < threads; at++) {
        if (pthread_create(&started[at], NULL, what, NULL) != 0) done(LXR_E_MEMORY, "a further thread");
    }
    for (uint32_t at = 0; at < threads; at++) pthread_join(started[at], NULL);
    done(lxr_shared_heap_close(&heap), "close");
}

/* The number of the calling thread among those of `together`, from 0 on. */
static uint32_t take_turn(void) {
    static pthread_mutex_t lock = PTHREAD_MUTEX_INITIALIZER;
    pthread_mutex_lock(&lock);
    uint32_t mine = turns++;
    pthread_mutex_unlock(&lock);
    return mine;
}

/* ---- One that sleeps ---- */

static pthread_barrier_t begun;

static void *pause_often(void *unused) {
    lxr_mutator *mutator = NULL;
    done(lxr_mutator_enter(heap, &mutator), "enter");
    done(lxr_mutator_rest(mutator), "rest");
    pthread_barrier_wait(&begun);
    done(lxr_mutator_wake(mutator), "wake");
    for (uint32_t left = PAUSES; left--;) {
        make(mutator, 1, 1, 1);
        done(lxr_mutator_pause(mutator), "pause");
    }
    done(lxr_mutator_leave(&mutator), "leave");
    return unused;
}

/* It keeps an object at rest, and finds it again. */
static void *sleep_long(void *unused) {
    lxr_mutator *mutator = NULL;
    uint64_t word = 0;
    done(lxr_mutator_enter(heap, &mutator), "enter");
    make(mutator, 1, 0, 1);
    done(lxr_mutator_put(mutator, 1, 0, 42), "put");
    done(lxr_mutator_rest(mutator), "rest");
    pthread_barrier_wait(&begun);
    while (count(LXR_COUNT_PAUSES) < PAUSES) nap(200);
    done(lxr_mutator_wake(mutator), "wake");
    done(lxr_mutator_get(mutator, 1, 0, &word), "get");
    if (word != 42) done(LXR_E_NIL, "what a thread kept that slept");
    done(lxr_mutator_leave(&mutator), "leave");
    return unused;
}

static void *one_of_three(void *unused) { return take_turn() == 0 ? sleep_long(unused) : pause_often(unused); }

static void try_sleep(void) {
    pthread_barrier_init(&begun, NULL, 3);
    together(16, 3, 1, 3, one_of_three);
    pthread_barrier_destroy(&begun);
}

/* ---- The last that a pause waits for ---- */

/* One asks for a pause; the other, which makes no operation, rests meanwhile. */
static void *wait_or_rest(void *unused) {
    lxr_mutator *mutator = NULL;
    bool waits = take_turn() == 0;
    done(lxr_mutator_enter(heap, &mutator), "enter");
    pthread_barrier_wait(&begun);
    if (waits) {
        done(lxr_mutator_pause(mutator), "pause");
    } else {
        nap(2000);
        done(lxr_mutator_rest(mutator), "rest");
        while (count(LXR_COUNT_PAUSES) == 0) nap(200);
        done(lxr_mutator_wake(mutator), "wake");
    }
    done(lxr_mutator_leave(&mutator), "leave");
    return unused;
}

/* One asks for a pause, and the other leaves. */
static void *wait_or_leave(void *unused) {
    lxr_mutator *mutator = NULL;
    bool waits = take_turn() == 0;
    done(lxr_mutator_enter(heap, &mutator), "enter");
    pthread_barrier_wait(&begun);
    if (waits) {
        done(lxr_mutator_pause(mutator), "pause");
    } else {
        nap(2000);
    }
    done(lxr_mutator_leave(&mutator), "leave");
    return unused;
}

static void try_last(void) {
    pthread_barrier_init(&begun, NULL, 2);
    together(16, 2, 0, 2, wait_or_rest);
    together(16, 2, 0, 2, wait_or_leave);
    pthread_barrier_destroy(&begun);
}

/* ---- A heap that is full ---- */

/* Makes a list until the heap is full, lets go of it, and makes a short one. */
static void *fill(void *unused) {
    lxr_mutator *mutator = NULL;
    lxr_code code = LXR_OK;
    uint64_t made = 0;
    done(lxr_mutator_enter(heap, &mutator), "enter");
    while (code == LXR_OK) {
        code = lxr_mutator_new(mutator, 1, 1, 30);
        if (code != LXR_OK) break;
        done(lxr_mutator_store(mutator, 1, 0, 2), "store");
        done(lxr_mutator_move(mutator, 2, 1), "move");
        made++;
    }
    if (code != LXR_E_FULL) done(code, "new in a heap that fills");
    done(lxr_mutator_nil(mutator, 1), "nil");
    done(lxr_mutator_nil(mutator, 2), "nil");
    while (lxr_mutator_new(mutator, 1, 1, 30) != LXR_OK) done(lxr_mutator_poll(mutator), "poll");
    done(lxr_mutator_leave(&mutator), "leave");
    return unused;
}

/* ---- Threads that only poll, and too many threads ---- */

/* Without an operation of its own it comes to each pause that others ask for. */
static void *poll_or_pause(void *unused) {
    lxr_mutator *mutator = NULL;
    bool polls = take_turn() % 2 == 0;
    done(lxr_mutator_enter(heap, &mutator), "enter");
    while (count(LXR_COUNT_PAUSES) < POLLED) done(polls ? lxr_mutator_poll(mutator) : lxr_mutator_pause(mutator), "poll or pause");
    done(lxr_mutator_leave(&mutator), "leave");
    return unused;
}

static void *visit(void *unused) {
    for (uint32_t left = VISITS; left--;) {
        lxr_mutator *mutator = NULL;
        lxr_code code = LXR_E_NUMBER;
        while (code == LXR_E_NUMBER) {
            code = lxr_mutator_enter(heap, &mutator);
            if (code == LXR_E_NUMBER) nap(20);
        }
        done(code, "enter");
        make(mutator, 1 + left % 15, 2, 2);
        if (left % 5 == 0) done(lxr_mutator_pause(mutator), "pause");
        done(lxr_mutator_leave(&mutator), "leave");
    }
    return unused;
}

/* ---- All at once ---- */

/* Each asks for pauses, and the first, or each, for collecting ones, which have to be made. */
static void *ask_at_once(uint32_t collectors) {
    lxr_mutator *mutator = NULL;
    bool collects = take_turn() < collectors;
    done(lxr_mutator_enter(heap, &mutator), "enter");
    for (uint32_t left = ASKED; left--;) {
        done(lxr_mutator_pause(mutator), "pause");
        if (!collects) continue;
        nap(100); /* so that others have asked for a plain one */
        uint64_t before = count(LXR_COUNT_COLLECTING);
        done(lxr_mutator_collect(mutator), "collect");
        if (count(LXR_COUNT_COLLECTING) == before) done(LXR_E_NOT_WANTED, "a collecting pause");
    }
    done(lxr_mutator_leave(&mutator), "leave");
    return NULL;
}

static void *all_collect(void *unused) {
    (void)unused;
    return ask_at_once(ALL);
}

static void *one_collects(void *unused) {
    (void)unused;
    return ask_at_once(1);
}

int main(void) {
    try_sleep();
    try_last();
    together(8, ALL, 0, ALL, fill);
    together(LONG, ALL, 2, ALL, fill);
    together(16, 4, 1, 4, poll_or_pause);
    together(16, 5, 1, 2 * ALL, visit);
    together(16, ALL, 1, ALL, all_collect);
    together(16, ALL, 1, ALL, one_collects);
    printf("threads_waits: one slept through %d pauses; %d filled a heap; %d visited; %d asked at once\n", PAUSES, ALL, 2 * ALL, ALL);
    return 0;
}
