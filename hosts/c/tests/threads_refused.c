/*
 * threads_refused.c: what a heap that threads share does where memory is refused. SPDX: MIT OR Apache-2.0
 *
 * Linked with -Wl,--wrap=malloc,--wrap=calloc,--wrap=realloc,--wrap=free, so that each request of the library's and the archive's comes
 * through here. The Nth request is refused, and all after it, for N from 0 until none is: then an opening or an entering says
 * LXR_E_MEMORY, or operations say LXR_E_LOST, after a pause; the thread can leave, the heap can be closed, and all memory is returned. So are
 * the requests of an opening with all mutators, and those of more than 1 GB, of which the largest heap is opened by one.
 */
#include "../lxr_threads.h"

#include <pthread.h>
#include <stdbool.h>
#include <stdio.h>
#include <stdlib.h>

/* The mock of the archive takes no memory for blocks. */
#ifdef MOCK_PASSES
static const bool mocked = true;
#else
static const bool mocked = false;
#endif

/*
 * How many requests are granted, and of how many bytes each at most; how many were made, how many blocks of memory are held, and whether a
 * request was refused.
 */
static struct {
    pthread_mutex_t lock;
    size_t granted, most, asked, held;
    bool refused, watched;
} memory = { .lock = PTHREAD_MUTEX_INITIALIZER };

void *__real_malloc(size_t bytes);
void *__real_calloc(size_t count, size_t bytes);
void *__real_realloc(void *old, size_t bytes);
void __real_free(void *old);
void *__wrap_malloc(size_t bytes);
void *__wrap_calloc(size_t count, size_t bytes);
void *__wrap_realloc(void *old, size_t bytes);
void __wrap_free(void *old);

static bool refuse(size_t bytes) {
    pthread_mutex_lock(&memory.lock);
    if (memory.watched && (memory.asked++ >= memory.granted || bytes > memory.most)) memory.refused = true;
    bool refused = memory.refused && memory.watched;
    pthread_mutex_unlock(&memory.lock);
    return refused;
}

/* Counts blocks that are held, and blocks that are returned. */
static void *hold(void *got, const void *returned) {
    pthread_mutex_lock(&memory.lock);
    if (memory.watched && got) memory.held++;
    if (memory.watched && returned) memory.held--;
    pthread_mutex_unlock(&memory.lock);
    return got;
}

void *__wrap_malloc(size_t bytes) { return refuse(bytes) ? NULL : hold(__real_malloc(bytes), NULL); }

void *__wrap_calloc(size_t count, size_t bytes) { return refuse(count * bytes) ? NULL : hold(__real_calloc(count, bytes), NULL); }

void *__wrap_realloc(void *old, size_t bytes) {
    if (refuse(bytes)) return NULL;
    hold(NULL, old);
    return hold(__real_realloc(old, bytes), NULL);
}

void __wrap_free(void *old) {
    hold(NULL, old);
    __real_free(old);
}

static void check(bool holds, const char *what) {
    if (holds) return;
    fprintf(stderr, "threads_refused: with %zu requests granted: %s\n", memory.granted, what);
    _Exit(1);
}

/* Whether an operation was done; else the heap is lost, which it is for want of memory alone. */
static bool is_done(lxr_code code) {
    if (code == LXR_OK || code == LXR_E_FULL || code == LXR_E_NIL) return true;
    check(code == LXR_E_LOST && memory.refused, "an operation says something else than LXR_E_LOST");
    return false;
}

/* Makes objects and pauses; whether it came to the end. */
static bool live(lxr_mutator *mutator) {
    for (uint32_t at = 0; at < 60; at++) {
        if (!is_done(lxr_mutator_new(mutator, 1, 2, 40))) return false;
        if (!is_done(lxr_mutator_store(mutator, 1, 0, 2))) return false;
        if (!is_done(lxr_mutator_move(mutator, 2, 1))) return false;
        if (at % 10 == 5 && !is_done(lxr_mutator_pause(mutator))) return false;
        if (at % 20 == 5 && !is_done(lxr_mutator_collect(mutator))) return false;
        if (at % 12 == 7 && (!is_done(lxr_mutator_rest(mutator)) || !is_done(lxr_mutator_wake(mutator)))) return false;
    }
    return true;
}

/* A heap that is lost says so to every operation. */
static void see_loss(lxr_mutator *mutator) {
    check(lxr_mutator_nil(mutator, 1) == LXR_E_LOST, "nil in a heap that is lost");
    check(lxr_mutator_rest(mutator) == LXR_E_LOST, "rest in a heap that is lost");
    check(lxr_mutator_poll(mutator) == LXR_E_LOST, "poll in a heap that is lost");
    check(lxr_mutator_wake(mutator) == LXR_E_LOST, "wake in a heap that is lost");
}

/* A heap of so many blocks and mutators, where there is memory for one. */
static lxr_shared_heap *open_heap(uint32_t blocks, uint32_t mutators) {
    lxr_shared_heap *heap = NULL;
    const lxr_shared_heap_settings settings = LXR_SHARED_HEAP_SETTINGS(blocks, mutators);
    lxr_code code = lxr_shared_heap_open(&heap, &settings);
    check(code == (heap ? LXR_OK : LXR_E_MEMORY), "an opening says something else than LXR_E_MEMORY");
    return heap;
}

/* Opens a heap, and lives in it for a while; whether no request was refused. */
static bool is_enough_to_live(void) {
    lxr_shared_heap *heap = open_heap(8, 2);
    lxr_mutator *mutator = NULL;
    if (!heap) return false;
    lxr_code code = lxr_mutator_enter(heap, &mutator);
    check(code == (mutator ? LXR_OK : LXR_E_MEMORY), "an entering says something else than LXR_E_MEMORY");
    if (mutator) {
        if (!live(mutator)) see_loss(mutator);
        check(lxr_mutator_leave(&mutator) == LXR_OK, "a thread can't leave");
    }
    check(lxr_shared_heap_close(&heap) == LXR_OK, "a heap can't be closed");
    return !memory.refused;
}

/* Opens a heap of all mutators; whether no request was refused. */
static bool is_enough_to_open(void) {
    lxr_shared_heap *heap = open_heap(1100, LXR_MOST_MUTATORS);
    if (heap) check(lxr_shared_heap_close(&heap) == LXR_OK, "a heap can't be closed");
    return !memory.refused;
}

/* Tries to open the largest heap, while no request of more than 1 GB is granted. */
static bool is_refused(void) {
    lxr_shared_heap *heap = open_heap(LXR_MOST_SHARED_BLOCKS, 1);
    check(heap ? mocked : memory.refused, "the largest heap takes less than 1 GB");
    if (heap) check(lxr_shared_heap_close(&heap) == LXR_OK, "a heap can't be closed");
    return memory.refused;
}

/* Does something while so many requests are granted, and of no more bytes. */
static bool watch(bool (*what)(void), size_t granted, size_t most) {
    memory.granted = granted;
    memory.most = most;
    memory.asked = memory.held = 0;
    memory.refused = false;
    memory.watched = true;
    bool answer = what();
    check(memory.held == 0, "memory is held by nobody");
    memory.watched = false;
    return answer;
}

/* How many requests are enough. */
static size_t refuse_each(bool (*is_enough)(void)) {
    size_t requests = 0;
    while (!watch(is_enough, requests, SIZE_MAX)) requests++;
    return requests;
}

int main(void) {
    size_t requests = refuse_each(is_enough_to_live) + refuse_each(is_enough_to_open);
    watch(is_refused, SIZE_MAX, (size_t)1 << 30);
    printf("threads_refused: %zu requests; each was refused\n", requests);
    return 0;
}
