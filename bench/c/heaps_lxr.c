/*
 * heaps_lxr.c: what a pause costs by what lives, by what is new, and by blocks. SPDX: MIT OR Apache-2.0
 *
 * usage: heaps_lxr BLOCKS LIVE YOUNG
 *
 * In a heap of so many blocks lists of LIVE objects of four words are kept. Prints microseconds, the least of some: of a plain pause with
 * nothing to do; of one after which YOUNG new objects are kept; of the two by which they are reclaimed when they are dropped; of one
 * after which YOUNG objects were made and dropped; and of a collecting one. 0 0 0 prints the heading.
 */
#include "bench.h"

#include <lxr.h>

enum { WORLD, OLD, NEW, MADE };

static lxr_heap heap;

static void must(lxr_code code) {
    if (code == LXR_OK) return;
    fprintf(stderr, "heaps_lxr: %s\n", lxr_message(code));
    exit(1);
}

/* Puts so many objects in front of a list. */
static void make_list(uint32_t list, uint32_t length) {
    for (uint32_t at = 0; at < length; at++) {
        must(lxr_new(&heap, MADE, 2, 2));
        must(lxr_store(&heap, MADE, 0, list));
        must(lxr_move(&heap, list, MADE));
    }
    must(lxr_nil(&heap, MADE));
}

static void keep_least(double *least, double time) {
    if (time < *least) *least = time;
}

static double timed_pause(void) {
    double begun = now();
    must(lxr_pause(&heap));
    return now() - begun;
}

static double timed_collect(void) {
    double begun = now();
    must(lxr_collect(&heap));
    return now() - begun;
}

int main(int count, char **words) {
    if (count != 4) return 2;
    uint32_t blocks = (uint32_t)strtoul(words[1], NULL, 10), live = (uint32_t)strtoul(words[2], NULL, 10);
    uint32_t young = (uint32_t)strtoul(words[3], NULL, 10);
    double nothing = 1e18, kept = 1e18, dropped = 1e18, garbage = 1e18, collect = 1e18;
    if (!blocks) {
        puts("blocks\tlive\tyoung\tnothing\tkept\tdropped\tgarbage\tcollect");
        return 0;
    }
    lxr_settings settings = LXR_SETTINGS(blocks, 1);
    settings.pace = LXR_PACE_NEVER;
    settings.grow = 0;
    must(lxr_open(&heap, &settings));
    make_list(OLD, live);
    must(lxr_collect(&heap));
    for (int round = 0; round < 7; round++) {
        keep_least(&nothing, timed_pause());
        make_list(NEW, young);
        keep_least(&kept, timed_pause());
        must(lxr_nil(&heap, NEW));
        double first = timed_pause();
        keep_least(&dropped, first + timed_pause());
        for (uint32_t at = 0; at < young; at++) must(lxr_new(&heap, MADE, 2, 2));
        must(lxr_nil(&heap, MADE));
        keep_least(&garbage, timed_pause());
        keep_least(&collect, timed_collect());
    }
    printf("%u\t%u\t%u", blocks, live, young);
    printf("\t%.1f\t%.1f\t%.1f\t%.1f\t%.1f\n", nothing / 1e3, kept / 1e3, dropped / 1e3, garbage / 1e3, collect / 1e3);
    must(lxr_close(&heap));
    return 0;
}
