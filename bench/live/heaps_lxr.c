/* heaps_lxr.c: what a pause costs in a heap of lxr_threads.h, by what lives, by what is new, and by blocks. SPDX: MIT OR Apache-2.0
 *
 * usage: heaps_lxr BLOCKS LIVE YOUNG
 *
 * In a heap of so many blocks a list of LIVE objects of four words is kept, by one mutator, without helpers. Prints microseconds, the least of
 * some: of a plain pause with nothing to do; of one after which YOUNG new objects are kept; of the two by which they are reclaimed when they are
 * dropped; of one after which YOUNG objects were made and dropped; and of a collecting one, as heaps_lxr.c of bench/c does of a heap for one
 * thread. Then, in a heap that traces, of a pause that begins a trace, and of the one that ends it right after: it does all of the trace, and
 * evacuates blocks in which one of each 32 of YOUNG objects is left, by the header's settings. 0 0 0 prints the heading. */
#include <lxr_threads.h>

#include "work.h"

enum { WORLD, OLD, NEW, LEFT, MADE };

enum { ROUNDS = 7, SPARSE = 32, TRACE = 4 };

static lxr_shared_heap *heap;
static lxr_mutator *mutator;

static void must(lxr_code code) {
    if (code == LXR_OK) return;
    fprintf(stderr, "heaps_lxr: %s\n", lxr_message(code));
    exit(1);
}

/* Puts an object in front of a list. */
static void make(uint32_t list) {
    must(lxr_mutator_new(mutator, MADE, 2, 2));
    must(lxr_mutator_store(mutator, MADE, 0, list));
    must(lxr_mutator_move(mutator, list, MADE));
}

/* Puts so many objects in front of a list, or one of each few of them in front of another. */
static void make_lists(uint32_t list, uint32_t few, uint32_t length) {
    for (uint32_t at = 0; at < length; at++) make(at % SPARSE ? list : few);
    must(lxr_mutator_nil(mutator, MADE));
}

/* Opens a heap with a list that lives, in which each pause whose number is a multiple of `trace` begins a trace. */
static void open_heap(uint32_t blocks, uint32_t live, uint32_t trace) {
    lxr_shared_heap_settings settings = LXR_SHARED_HEAP_SETTINGS(blocks, 1);
    settings.helpers = 0;
    settings.log = LXR_MOST_LOG;
    settings.every = LXR_MOST_EVERY;
    settings.trace = trace;
    settings.within = 1;
    settings.pace = LXR_PACE_NEVER;
    settings.grow = 0;
    must(lxr_shared_heap_open(&heap, &settings));
    must(lxr_mutator_enter(heap, &mutator));
    make_lists(OLD, OLD, live);
    must(lxr_mutator_collect(mutator));
}

static void close_heap(void) {
    must(lxr_mutator_leave(&mutator));
    must(lxr_shared_heap_close(&heap));
}

static uint64_t timed(lxr_code (*call)(lxr_mutator *)) {
    uint64_t begun = clock_now();
    must(call(mutator));
    return clock_now() - begun;
}

static void keep_least(uint64_t *least, uint64_t time) {
    if (time < *least) *least = time;
}

static void print_pauses(uint32_t young) {
    uint64_t nothing = UINT64_MAX, kept = UINT64_MAX, dropped = UINT64_MAX, garbage = UINT64_MAX, collect = UINT64_MAX;
    for (int round = 0; round < ROUNDS; round++) {
        keep_least(&nothing, timed(lxr_mutator_pause));
        make_lists(NEW, NEW, young);
        keep_least(&kept, timed(lxr_mutator_pause));
        must(lxr_mutator_nil(mutator, NEW));
        uint64_t first = timed(lxr_mutator_pause);
        keep_least(&dropped, first + timed(lxr_mutator_pause));
        for (uint32_t at = 0; at < young; at++) must(lxr_mutator_new(mutator, MADE, 2, 2));
        must(lxr_mutator_nil(mutator, MADE));
        keep_least(&garbage, timed(lxr_mutator_pause));
        keep_least(&collect, timed(lxr_mutator_collect));
    }
    const uint64_t all[] = { nothing, kept, dropped, garbage, collect };
    for (size_t at = 0; at < sizeof all / sizeof all[0]; at++) printf("\t%.1f", (double)all[at] / 1e3);
}

/* The least times of pauses by their kinds. */
static uint64_t least[LXR_KIND_COLLECT + 1] = { UINT64_MAX, UINT64_MAX, UINT64_MAX, UINT64_MAX };

static void make_pause(void) {
    uint64_t kind = 0, time = timed(lxr_mutator_pause);
    must(lxr_shared_heap_count(heap, LXR_COUNT_LAST_KIND, &kind));
    keep_least(&least[kind], time);
}

/* Of each few pauses one begins a trace, and the next one ends it: before them objects are kept, and most of them are let go of. */
static void print_traces(uint32_t young) {
    for (int round = 0; round < ROUNDS; round++) {
        make_lists(NEW, LEFT, young);
        make_pause();
        must(lxr_mutator_nil(mutator, NEW));
        for (int left = TRACE - 1; left--;) make_pause();
        must(lxr_mutator_nil(mutator, LEFT));
    }
    printf("\t%.1f\t%.1f\n", (double)least[LXR_KIND_BEGIN] / 1e3, (double)least[LXR_KIND_END] / 1e3);
}

int main(int count, char **words) {
    if (count != 4) return 2;
    uint32_t blocks = (uint32_t)strtoul(words[1], NULL, 10), live = (uint32_t)strtoul(words[2], NULL, 10);
    uint32_t young = (uint32_t)strtoul(words[3], NULL, 10);
    if (!blocks) {
        puts("blocks, threads share them\tlive\tyoung\tnothing\tkept\tdropped\tgarbage\tcollect\tbegin\tend");
        return 0;
    }
    open_heap(blocks, live, LXR_MOST_TRACE);
    printf("%u\t%u\t%u", blocks, live, young);
    print_pauses(young);
    close_heap();
    open_heap(blocks, live, TRACE);
    print_traces(young);
    close_heap();
    return 0;
}
