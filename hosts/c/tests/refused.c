/*
 * refused.c: what the archive does where memory is refused. SPDX: MIT OR Apache-2.0
 *
 * Linked with -Wl,--wrap=malloc,--wrap=calloc,--wrap=realloc,--wrap=free, so that each request of the archive's comes through here. The
 * Nth request is refused, and all after it, for N from 0 until none is: an opening then says LXR_E_MEMORY, leaves the handle empty and
 * returns what it got; and no other call asks for memory at all.
 */
#include "../lxr.h"

#include <stdbool.h>
#include <stdio.h>
#include <stdlib.h>
#include <string.h>

/* How many requests are granted, how many were made, how many blocks of memory are held, and whether a request was refused. */
static struct {
    size_t granted, asked, held;
    bool refused, watched;
} memory;

void *__real_malloc(size_t bytes);
void *__real_calloc(size_t count, size_t bytes);
void *__real_realloc(void *old, size_t bytes);
void __real_free(void *old);
void *__wrap_malloc(size_t bytes);
void *__wrap_calloc(size_t count, size_t bytes);
void *__wrap_realloc(void *old, size_t bytes);
void __wrap_free(void *old);

static bool refuse(void) {
    if (!memory.watched) return false;
    if (memory.asked++ >= memory.granted) memory.refused = true;
    return memory.refused;
}

static void *granted(void *block) {
    if (memory.watched && block) memory.held++;
    return block;
}

void *__wrap_malloc(size_t bytes) { return refuse() ? NULL : granted(__real_malloc(bytes)); }

void *__wrap_calloc(size_t count, size_t bytes) { return refuse() ? NULL : granted(__real_calloc(count, bytes)); }

void *__wrap_realloc(void *old, size_t bytes) {
    if (refuse()) return NULL;
    if (old && memory.watched) memory.held--;
    return granted(__real_realloc(old, bytes));
}

void __wrap_free(void *old) {
    if (old && memory.watched) memory.held--;
    __real_free(old);
}

static void check(bool holds, const char *what) {
    if (holds) return;
    fprintf(stderr, "refused: with %zu requests granted: %s\n", memory.granted, what);
    exit(1);
}

static void done(lxr_code code, const char *what) { check(code == LXR_OK, what); }

/* ---- What a heap does in its life ---- */

/* A list; each object has a word that tells which it is. Beside each stands one that is dropped, in a cycle. */
static void make_list(lxr_heap *heap, uint32_t length) {
    for (uint32_t at = 0; at < length; at++) {
        done(lxr_new(heap, 1, 2, 1), "new");
        done(lxr_put(heap, 1, 0, at), "put");
        done(lxr_store(heap, 1, 0, 2), "store");
        done(lxr_move(heap, 2, 1), "move");
        done(lxr_new(heap, 3, 1, 40), "new, dropped");
        done(lxr_store(heap, 3, 0, 3), "store, in a cycle");
    }
}

static void read_list(lxr_heap *heap, uint32_t length) {
    uint64_t word = 0;
    for (done(lxr_move(heap, 1, 2), "move"); length--;) {
        done(lxr_get(heap, 1, 0, &word), "get");
        check(word == length, "another word in the list");
        done(lxr_load(heap, 1, 1, 0), "load");
    }
}

/* More stores to kept objects than the log has entries. */
static void fill_log(lxr_heap *heap, uint32_t length) {
    done(lxr_move(heap, 1, 2), "move");
    while (length--) {
        done(lxr_store(heap, 1, 1, 2), "store, logged");
        done(lxr_load(heap, 1, 1, 0), "load");
    }
}

static void make_bodies(lxr_heap *heap, uint32_t count) {
    uint64_t words[64] = { 0 };
    while (count--) {
        done(lxr_large_new(heap, 4, 1 + count % 3), "big");
        done(lxr_large_write(heap, 4, 4032, words, 64), "bwrite");
        done(lxr_large_read(heap, 4, 4032, words, 64), "bread");
        done(lxr_large_put(heap, 4, 4095, count), "bput");
    }
}

/* More objects than the heap has room for, so that collecting pauses are made. */
static void drop_many(lxr_heap *heap, uint32_t count) {
    while (count--) done(lxr_new(heap, 3, 1, 40), "new, dropped");
}

static void live(lxr_heap *heap) {
    uint64_t number = 0;
    done(lxr_set_pace(heap, 16000), "set_pace");
    make_list(heap, 3000);
    fill_log(heap, 3000);
    read_list(heap, 3000);
    make_bodies(heap, 50);
    done(lxr_set_pace(heap, LXR_PACE_NEVER), "set_pace");
    drop_many(heap, 10000);
    done(lxr_pause(heap), "pause");
    for (uint32_t at = 0; at < LXR_REGISTERS; at++) done(lxr_nil(heap, at), "nil");
    done(lxr_collect(heap), "collect");
    for (uint32_t what = LXR_COUNT_PAUSES; what <= LXR_COUNT_FREE_BODY_BYTES; what++) done(lxr_count(heap, what, &number), "count");
    done(lxr_count(heap, LXR_COUNT_LIVE, &number), "count");
    check(number == 0, "objects are left that nothing holds");
}

/* Opens a heap with so many requests granted; whether it was opened. */
static bool is_opened(size_t requests) {
    lxr_heap heap = LXR_HEAP_INIT;
    memset(&memory, 0, sizeof memory);
    memory.granted = requests;
    memory.watched = true;
    const lxr_settings settings = LXR_SETTINGS(24, 16);
    lxr_code code = lxr_open(&heap, &settings);
    if (!memory.refused) {
        done(code, "an opening is refused for want of memory that there was");
        memory.granted = memory.asked;
        live(&heap);
        check(!memory.refused, "a call asks for memory after the opening");
        done(lxr_close(&heap), "close");
    } else {
        check(code == LXR_E_MEMORY, "an opening doesn't say that memory was refused");
        check(heap.live == 0, "a refused opening leaves a handle that isn't empty");
        check(lxr_close(&heap) == LXR_E_NO_HEAP, "a refused opening leaves a heap that can be closed");
    }
    check(memory.held == 0, "memory is held by nobody");
    memory.watched = false;
    return code == LXR_OK;
}

int main(void) {
    size_t requests = 0;
    while (!is_opened(requests)) requests++;
    printf("refused: an opening makes %zu requests; each was refused, and no other call makes any\n", requests);
    return 0;
}
