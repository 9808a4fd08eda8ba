/*
 * slices_lxr.c: how long lxr_new takes where large trees die, with and without slices. SPDX: MIT OR Apache-2.0
 *
 * usage: slices_lxr WORK      `work` of the settings: 0 for no slices
 *
 * Six times a tree of 524,287 objects is made, grows old and is let go of, and 400,000 objects of 64 bytes are made beside its death, which a pause
 * after each 1 MB finds. Prints the longest lxr_new of these, how many took over 1.5 ms, and the time of all.
 */
#include "bench.h"

#include <lxr.h>

enum { LEVELS = 18, LEFT = 30, REGISTERS = 64 };

static lxr_heap heap = LXR_HEAP_INIT;

static void must(lxr_code code) {
    if (code == LXR_OK) return;
    fprintf(stderr, "slices_lxr: %s\n", lxr_message(code));
    exit(1);
}

/* A tree of so many levels below its root, in register `level` + 2. */
static void make_tree(uint32_t level) {
    if (level) {
        make_tree(level - 1);
        must(lxr_move(&heap, level + LEFT, level + 1));
        make_tree(level - 1);
    }
    must(lxr_new(&heap, level + 2, 2, 1));
    if (!level) return;
    must(lxr_store(&heap, level + 2, 0, level + LEFT));
    must(lxr_store(&heap, level + 2, 1, level + 1));
}

int main(int count, char **words) {
    lxr_settings settings = LXR_SETTINGS(8000, 1);
    settings.registers = REGISTERS;
    settings.pace = 1 << 20;
    settings.work = count > 1 ? (uint32_t)strtoul(words[1], NULL, 10) : LXR_WORK;
    must(lxr_open(&heap, &settings));
    double longest = 0, begun = now();
    unsigned over = 0;
    for (int times = 0; times < 6; times++) {
        make_tree(LEVELS);
        must(lxr_move(&heap, 1, LEVELS + 2));
        must(lxr_registers_in_use(&heap, 2));
        must(lxr_pause(&heap));
        must(lxr_pause(&heap));
        must(lxr_nil(&heap, 1));
        for (int made = 0; made < 400000; made++) {
            double began = now();
            must(lxr_new(&heap, 2, 0, 6));
            double took = now() - began;
            if (took > longest) longest = took;
            over += took > 1.5e6;
        }
    }
    printf("work %u: longest %.2f ms, %u over 1.5 ms, all %.0f ms\n", settings.work, longest / 1e6, over, (now() - begun) / 1e6);
    return 0;
}
