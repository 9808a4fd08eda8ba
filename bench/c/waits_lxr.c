/* waits_lxr.c: what slices leave to a pause, and how long the pauses are that a full log makes. SPDX: MIT OR Apache-2.0
 *
 * usage: waits_lxr array ELEMENTS      an array of so many objects grows old and is let go of; slices of 1,000 units do what they can of its death
 *        waits_lxr log OBJECTS STORES  so many stores of old objects to references of others at random, of which each notes what it overwrites
 *
 * Prints the longest slice, how many counts waited at most and wait in the end, and the pause that does the rest; and the pauses that the log made,
 * the longest store, and the time of one.
 */
#include "bench.h"

#include <lxr.h>

enum { WORLD, TOP, ROW, MADE, OTHER, FOUND };

enum { UNITS = 1000, IN_ROW = 1000 };

static lxr_heap heap = LXR_HEAP_INIT;

static void must(lxr_code code) {
    if (code == LXR_OK) return;
    fprintf(stderr, "waits_lxr: %s\n", lxr_message(code));
    exit(1);
}

static uint64_t told(uint32_t what) {
    uint64_t number = 0;
    must(lxr_count(&heap, what, &number));
    return number;
}

/* All that was made is old then, and no count waits. */
static void grow_old(void) {
    must(lxr_registers_in_use(&heap, ROW));
    must(lxr_pause(&heap));
    must(lxr_pause(&heap));
}

static void let_array_die(uint32_t elements) {
    must(lxr_array_new(&heap, TOP, elements));
    for (uint32_t at = 0; at < elements; at++) {
        must(lxr_new(&heap, MADE, 0, 1));
        must(lxr_array_store(&heap, TOP, at, MADE));
    }
    grow_old();
    must(lxr_nil(&heap, TOP));
    must(lxr_pause(&heap));
    double longest = 0;
    uint64_t most = 0;
    for (uint32_t more = 1; more;) {
        double began = now();
        must(lxr_work(&heap, UNITS, &more));
        double took = now() - began;
        if (took > longest) longest = took;
        uint64_t waiting = told(LXR_COUNT_WAITING);
        if (waiting > most) most = waiting;
    }
    uint64_t left = told(LXR_COUNT_WAITING);
    double began = now();
    must(lxr_pause(&heap));
    printf("%u elements: longest slice %.2f ms, at most %llu waited, %llu in the end, pause %.2f ms\n", elements, longest / 1e6,
           (unsigned long long)most, (unsigned long long)left, (now() - began) / 1e6);
}

static void make_rows(uint32_t rows) {
    must(lxr_new(&heap, TOP, rows, 0));
    for (uint32_t row = 0; row < rows; row++) {
        must(lxr_new(&heap, ROW, IN_ROW, 0));
        must(lxr_store(&heap, TOP, row, ROW));
        for (uint32_t at = 0; at < IN_ROW; at++) {
            must(lxr_new(&heap, MADE, 1, 2));
            must(lxr_store(&heap, ROW, at, MADE));
        }
    }
    grow_old();
}

/* How long a store of one of so many objects in place of another takes, both at random. */
static double timed_store(uint64_t *state, uint32_t objects) {
    *state = *state * 6364136223846793005u + 1442695040888963407u;
    uint32_t to = (uint32_t)(*state >> 33) % objects, from = (uint32_t)(*state >> 13) % objects;
    must(lxr_load(&heap, ROW, TOP, to / IN_ROW));
    must(lxr_load(&heap, OTHER, TOP, from / IN_ROW));
    must(lxr_load(&heap, FOUND, OTHER, from % IN_ROW));
    double began = now();
    must(lxr_store(&heap, ROW, to % IN_ROW, FOUND));
    return now() - began;
}

static void fill_logs(uint32_t objects, uint32_t stores) {
    uint32_t rows = objects / IN_ROW;
    make_rows(rows);
    uint64_t state = 1, pauses = told(LXR_COUNT_PAUSES);
    double longest = 0, all = 0;
    for (uint32_t made = 0; made < stores; made++) {
        double took = timed_store(&state, rows * IN_ROW);
        if (took > longest) longest = took;
        all += took;
    }
    printf("%u objects: %llu pauses, longest store %.2f ms, one %.0f ns\n", rows * IN_ROW,
           (unsigned long long)(told(LXR_COUNT_PAUSES) - pauses), longest / 1e6, all / stores);
}

int main(int count, char **words) {
    lxr_settings settings = LXR_SETTINGS(8000, 1);
    settings.pace = LXR_PACE_NEVER;
    if (count < 3) return 2;
    must(lxr_open(&heap, &settings));
    uint32_t objects = (uint32_t)strtoul(words[2], NULL, 10);
    if (count > 3)
        fill_logs(objects, (uint32_t)strtoul(words[3], NULL, 10));
    else
        let_array_die(objects);
    must(lxr_close(&heap));
    return 0;
}
