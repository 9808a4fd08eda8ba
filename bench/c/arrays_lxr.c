/*
 * arrays_lxr.c: what calls on arrays and words cost, beside the single calls that they stand for. SPDX: MIT OR Apache-2.0
 *
 * usage: arrays_lxr KIND ROUNDS     makes so many rounds of a kind, and prints the nanoseconds of one
 *
 * bench/c/arrays has the kinds. A round is a call, or one for each of ELEMENTS elements where the kind says so.
 */
#include "bench.h"

#include <lxr.h>
#include <string.h>

enum { WORLD, OBJECT, SHORT, LONG, OTHER, ROOT, PART, FOUND };

enum { FEW = 1000, ELEMENTS = 100000, MADE = 1000000, WORDS = 4096, PARTS = (MADE - 1) / LXR_MOST_REFS + 1 };

static lxr_heap heap;
static uint64_t words[WORDS], copied[WORDS];

static void must(lxr_code code) {
    if (code == LXR_OK) return;
    fprintf(stderr, "arrays_lxr: %s\n", lxr_message(code));
    exit(1);
}

/* What all kinds go by: an object of references, a short array and two long ones, all of which are kept at a pause, and words. */
static void set_out(void) {
    lxr_settings settings = LXR_SETTINGS(32768, 16);
    settings.pace = LXR_PACE_NEVER;
    must(lxr_open(&heap, &settings));
    must(lxr_new(&heap, OBJECT, FEW, 0));
    must(lxr_array_new(&heap, SHORT, FEW));
    must(lxr_array_new(&heap, LONG, ELEMENTS));
    must(lxr_array_new(&heap, OTHER, ELEMENTS));
    must(lxr_pause(&heap));
}

static void load(uint32_t round) { lxr_load(&heap, FOUND, OBJECT, round % FEW); }

static void load_short(uint32_t round) { lxr_array_load(&heap, FOUND, SHORT, round % FEW); }

static void load_long(uint32_t round) { lxr_array_load(&heap, FOUND, LONG, round % ELEMENTS); }

static void store(uint32_t round) { lxr_store(&heap, OBJECT, round % FEW, SHORT); }

static void store_short(uint32_t round) { lxr_array_store(&heap, SHORT, round % FEW, OBJECT); }

/* The elements of one part: so their first stores fit into the log, as those of the others do. */
static void store_long(uint32_t round) { lxr_array_store(&heap, LONG, 5 * LXR_MOST_REFS + round % FEW, OBJECT); }

static void fill(uint32_t round) {
    (void)round;
    must(lxr_array_fill(&heap, LONG, 0, ELEMENTS, OBJECT));
}

static void copy(uint32_t round) {
    (void)round;
    must(lxr_array_copy(&heap, LONG, 0, OTHER, 0, ELEMENTS));
}

static void move_up(uint32_t round) {
    (void)round;
    must(lxr_array_copy(&heap, LONG, 1, LONG, 0, ELEMENTS - 1));
}

/* The stores that a fill or a copy stands for, to the references of each part in turn. */
static void store_each(uint32_t round) {
    (void)round;
    for (uint32_t at = 0; at < ELEMENTS; at++) {
        if (at % LXR_MOST_REFS == 0) must(lxr_load(&heap, PART, LONG, at / LXR_MOST_REFS));
        lxr_store(&heap, PART, at % LXR_MOST_REFS, OBJECT);
    }
}

static void make(uint32_t round) {
    (void)round;
    must(lxr_array_new(&heap, ROOT, MADE));
}

/* The objects that an array is made of, each by itself. */
static void make_parts(uint32_t round) {
    (void)round;
    must(lxr_new(&heap, ROOT, PARTS, 1));
    for (uint32_t at = 0; at < PARTS; at++) must(lxr_new(&heap, PART, at + 1 < PARTS ? LXR_MOST_REFS : MADE - at * LXR_MOST_REFS, 0));
}

static void read_words(uint32_t round) {
    (void)round;
    lxr_words_read(&heap, FOUND, 0, words, WORDS);
}

static void write_words(uint32_t round) {
    (void)round;
    lxr_words_write(&heap, FOUND, 0, words, WORDS);
}

static void copy_memory(uint32_t round) {
    (void)round;
    memcpy(copied, words, sizeof words);
    __asm__ volatile("" : : "r"(copied) : "memory");
}

static const struct {
    const char *name;
    void (*call)(uint32_t round);
} kinds[] = {
    { "load", load },
    { "load_short", load_short },
    { "load_long", load_long },
    { "store", store },
    { "store_short", store_short },
    { "store_long", store_long },
    { "store_each", store_each },
    { "fill", fill },
    { "copy", copy },
    { "move_up", move_up },
    { "make_parts", make_parts },
    { "make", make },
    { "memcpy", copy_memory },
    { "read", read_words },
    { "write", write_words },
};

int main(int count, char **told) {
    size_t at = 0;
    const size_t all = sizeof kinds / sizeof *kinds;
    while (count == 3 && at < all && strcmp(kinds[at].name, told[1]) != 0) at++;
    if (count != 3 || at == all) {
        fputs("usage: arrays_lxr KIND ROUNDS\n", stderr);
        return 2;
    }
    set_out();
    if (at + 3 >= all) must(lxr_words_new(&heap, FOUND, WORDS));
    /* Pages that nothing was written to are all one page, which is copied from several times as fast. */
    for (size_t word = 0; word < WORDS; word++) words[word] = word;
    uint32_t rounds = (uint32_t)strtoul(told[2], NULL, 10);
    double begun = now();
    for (uint32_t round = 0; round < rounds; round++) {
        kinds[at].call(round);
        __asm__ volatile("" ::: "memory");
    }
    printf("%.2f\n", (now() - begun) / rounds);
    must(lxr_close(&heap));
    return 0;
}
