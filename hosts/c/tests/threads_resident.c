/*
 * threads_resident.c: a heap that threads share gives memory back. SPDX: MIT OR Apache-2.0
 *
 * A heap of 512 MB takes all of that as it is opened, and gives back what isn't used. Then four threads hold a list of 15 MB each, beside one of
 * 30 MB that comes and goes, again and again: once they have gone and the heap is trimmed, at least four fifths of what they took have gone back,
 * and no more is left than the time before. What the threads keep is whole.
 */
#define _POSIX_C_SOURCE 200809L
#define _DEFAULT_SOURCE

#include "../lxr_threads.h"

#include <limits.h>
#include <pthread.h>
#include <stdio.h>
#include <stdlib.h>
#include <unistd.h>

enum { KEPT = 1, LIST, NODE, SHORT = 60000, LONG = 120000, THREADS = 4, BLOCKS = 16384, TIMES = 3, MB = 1024 };

static lxr_shared_heap *heap;
static pthread_barrier_t all;

static void fail(const char *what) {
    fprintf(stderr, "threads_resident: %s\n", what);
    _Exit(1);
}

static void must(lxr_code code) {
    if (code != LXR_OK) fail(lxr_message(code));
}

/* The KB that this process takes of the machine's memory now. */
static long resident(void) {
    long size = 0, taken = 0;
    FILE *file = fopen("/proc/self/statm", "r");
    if (!file || fscanf(file, "%ld %ld", &size, &taken) != 2) fail("the system doesn't tell what memory is taken");
    fclose(file);
    return taken * (sysconf(_SC_PAGESIZE) / MB);
}

/* Register `last` leads to a list of so many objects of 256 bytes, whose words count down. */
static void make_list(lxr_mutator *mutator, uint32_t last, uint32_t length) {
    must(lxr_mutator_nil(mutator, last));
    for (uint32_t made = 0; made < length; made++) {
        must(lxr_mutator_new(mutator, NODE, 1, 30));
        must(lxr_mutator_put(mutator, NODE, 29, made));
        must(lxr_mutator_store(mutator, NODE, 0, last));
        must(lxr_mutator_move(mutator, last, NODE));
    }
    must(lxr_mutator_nil(mutator, NODE));
}

/* The list of register KEPT is whole. */
static void is_list(lxr_mutator *mutator, uint32_t length) {
    uint64_t word = 0;
    must(lxr_mutator_move(mutator, NODE, KEPT));
    for (uint32_t left = length; left--;) {
        must(lxr_mutator_get(mutator, NODE, 29, &word));
        if (word != left) fail("an object has another word");
        must(lxr_mutator_load(mutator, NODE, NODE, 0));
    }
    must(lxr_mutator_nil(mutator, NODE));
}

/* All threads have come here, with nobody held up by one that waits. */
static void meet(lxr_mutator *mutator) {
    must(lxr_mutator_rest(mutator));
    pthread_barrier_wait(&all);
    must(lxr_mutator_wake(mutator));
}

static void *hold_lists(void *unused) {
    lxr_mutator *mutator = NULL;
    must(lxr_mutator_enter(heap, &mutator));
    make_list(mutator, KEPT, SHORT);
    for (int times = 0; times < TIMES; times++) {
        make_list(mutator, LIST, LONG);
        meet(mutator);
        must(lxr_mutator_nil(mutator, LIST));
        meet(mutator); /* here it is measured with the lists, */
        meet(mutator); /* and here without */
        is_list(mutator, SHORT);
    }
    must(lxr_mutator_leave(&mutator));
    return unused;
}

/* Trims the heap, and tells what is taken then. */
static long trimmed(lxr_mutator *mutator) {
    must(lxr_mutator_collect(mutator));
    must(lxr_mutator_trim(mutator));
    return resident();
}

static void measure(lxr_mutator *mutator) {
    const long lists = THREADS * (long)LONG / 4;
    long before = LONG_MAX / 2;
    for (int times = 0; times < TIMES; times++) {
        meet(mutator);
        long with = resident();
        meet(mutator);
        long without = trimmed(mutator);
        meet(mutator);
        printf("threads_resident: %ld MB with lists of %ld MB, %ld MB once they are gone\n", with / MB, lists / MB, without / MB);
        if (with - without < lists / 5 * 4 || without > before + before / 10) fail("what was let go of isn't given back");
        before = without;
    }
}

int main(void) {
    lxr_shared_heap_settings settings = LXR_SHARED_HEAP_SETTINGS(BLOCKS, THREADS + 1);
    pthread_t threads[THREADS];
    lxr_mutator *mutator = NULL;
    must(lxr_shared_heap_open(&heap, &settings));
    must(lxr_mutator_enter(heap, &mutator));
    long opened = resident(), unused = trimmed(mutator);
    printf("threads_resident: %ld MB in a heap of 512 MB as it is opened, %ld MB once it is trimmed\n", opened / MB, unused / MB);
    if (unused > opened / 5) fail("what was never used isn't given back");
    if (pthread_barrier_init(&all, NULL, THREADS + 1) != 0) fail("no barrier");
    for (size_t at = 0; at < THREADS; at++) {
        if (pthread_create(&threads[at], NULL, hold_lists, NULL) != 0) fail("no further thread");
    }
    measure(mutator);
    must(lxr_mutator_leave(&mutator)); /* so that no pause waits for who joins them */
    for (size_t at = 0; at < THREADS; at++) pthread_join(threads[at], NULL);
    must(lxr_shared_heap_close(&heap));
    pthread_barrier_destroy(&all);
    return 0;
}
