/*
 * calls_lxr.c: what the calls of lxr.h cost. SPDX: MIT OR Apache-2.0
 *
 * usage: calls_lxr calls [REGISTERS]   each call, a line with its name and its nanoseconds
 *        calls_lxr count NAME TENTHS   this call alone, so many tenths of a round; prints how many calls those are
 *        calls_lxr new LIVE EVERY      a new object beside LIVE others: dropped at once, and put in the place of one of them
 *        calls_lxr pauses LIVE EVERY   the pauses while objects are replaced so
 *
 * The heap has 16 registers where nothing else is told, and three times what LIVE objects take. EVERY is how many new objects' bytes are
 * made between two pauses, 0 for no pace, or `room` for that of LXR_SETTINGS.
 */
#include "bench.h"

#include <lxr.h>

enum { WORLD, TOP, TABLE, MADE, OBJECT, OTHER, BODY, SPARE };

static lxr_heap heap;
static uint32_t registers = LXR_REGISTERS;

static void must(lxr_code code) {
    if (code == LXR_OK) return;
    fprintf(stderr, "calls_lxr: %s\n", lxr_message(code));
    exit(1);
}

static void open_heap(uint32_t blocks, uint32_t body_blocks, uint64_t pace) {
    lxr_settings settings = LXR_SETTINGS(blocks, body_blocks);
    settings.pace = pace;
    settings.registers = registers;
    must(lxr_open(&heap, &settings));
}

static uint64_t pace_of(const char *every) { return strcmp(every, "room") == 0 ? LXR_PACE_ROOM : strtoull(every, NULL, 10) * OBJECT_BYTES; }

/* ---- Several at once, beside the single calls that each stands for ---- */

enum { SOME_WORDS = 16, SOME_REFS = 8 };

static const uint32_t some_registers[SOME_REFS] = { 8, 9, 10, 11, 12, 13, 14, 15 }, sources[2] = { OTHER, SPARE };
static uint64_t some_words[SOME_WORDS];

static void new_by_each(void) {
    lxr_new(&heap, MADE, 2, 2);
    for (uint32_t at = 0; at < 2; at++) lxr_store(&heap, MADE, at, sources[at]);
    for (uint32_t at = 0; at < 2; at++) lxr_put(&heap, MADE, at, some_words[at]);
}

static void get_each(void) {
    for (uint32_t at = 0; at < SOME_WORDS; at++) lxr_get(&heap, OBJECT, at, &some_words[at]);
}

static void put_each(void) {
    for (uint32_t at = 0; at < SOME_WORDS; at++) lxr_put(&heap, OBJECT, at, some_words[at]);
}

static void load_each(void) {
    for (uint32_t at = 0; at < SOME_REFS; at++) lxr_load(&heap, some_registers[at], OBJECT, at);
}

static void store_each(void) {
    for (uint32_t at = 0; at < SOME_REFS; at++) lxr_store(&heap, OBJECT, at, some_registers[at]);
}

/* What the row of eight operations below does. */
static void do_each(void) {
    uint32_t answer = 0;
    lxr_get(&heap, OBJECT, 0, &some_words[0]);
    lxr_put(&heap, OBJECT, 1, 7);
    lxr_load(&heap, MADE, OBJECT, 0);
    lxr_store(&heap, OBJECT, 1, MADE);
    lxr_same(&heap, MADE, OTHER, &answer);
    lxr_move(&heap, SPARE, MADE);
    lxr_is_nil(&heap, SPARE, &answer);
    lxr_nil(&heap, SPARE);
}

static void measure_several(void) {
    static lxr_operation row[8] = {
        { LXR_OP_GET, OBJECT, 0, 0, 0 },      { LXR_OP_PUT, OBJECT, 1, 0, 7 },    { LXR_OP_LOAD, MADE, OBJECT, 0, 0 },
        { LXR_OP_STORE, OBJECT, 1, MADE, 0 }, { LXR_OP_SAME, MADE, OTHER, 0, 0 }, { LXR_OP_MOVE, SPARE, MADE, 0, 0 },
        { LXR_OP_IS_NIL, SPARE, 0, 0, 0 },    { LXR_OP_NIL, SPARE, 0, 0, 0 },
    };
    size_t done = 0;
    must(lxr_new(&heap, OBJECT, SOME_REFS, SOME_WORDS));
    for (uint32_t at = 0; at < SOME_REFS; at++) must(lxr_store(&heap, OBJECT, at, OTHER));
    must(lxr_set_pace(&heap, 10000 * OBJECT_BYTES));
    MEASURE("lxr_new_with, 2 references and 2 words", 5, 1000000, lxr_new_with(&heap, MADE, sources, 2, some_words, 2));
    MEASURE("  by lxr_new, two lxr_store and two lxr_put", 5, 1000000, new_by_each());
    must(lxr_set_pace(&heap, LXR_PACE_NEVER));
    must(lxr_pause(&heap));
    MEASURE("lxr_get_many, 16 words", 50, 20000, lxr_get_many(&heap, OBJECT, 0, some_words, SOME_WORDS));
    MEASURE("  by lxr_get", 50, 20000, get_each());
    MEASURE("lxr_put_many, 16 words", 50, 20000, lxr_put_many(&heap, OBJECT, 0, some_words, SOME_WORDS));
    MEASURE("  by lxr_put", 50, 20000, put_each());
    MEASURE("lxr_load_many, 8 references", 50, 20000, lxr_load_many(&heap, OBJECT, 0, some_registers, SOME_REFS));
    MEASURE("  by lxr_load", 50, 20000, load_each());
    MEASURE("lxr_store_many, 8 references", 50, 20000, lxr_store_many(&heap, OBJECT, 0, some_registers, SOME_REFS));
    MEASURE("  by lxr_store", 50, 20000, store_each());
    MEASURE("lxr_apply, 8 operations", 50, 20000, lxr_apply(&heap, row, 8, &done));
    MEASURE("  by eight calls", 50, 20000, do_each());
}

/* ---- All registers, and few of them ---- */

static void measure_registers(void) {
    for (uint32_t at = SPARE; at < registers; at++) must(lxr_move(&heap, at, OTHER));
    must(lxr_pause(&heap));
    MEASURE("lxr_pause, all registers hold an object", 20, 1000, lxr_pause(&heap));
    MEASURE("lxr_registers_in_use, the first 8", 20, 1000, lxr_registers_in_use(&heap, SPARE + 1));
    must(lxr_pause(&heap));
    MEASURE("lxr_pause, the first 8 registers are in use", 20, 1000, lxr_pause(&heap));
}

/* ---- All calls ---- */

static void measure_calls(void) {
    static uint64_t words[LXR_BLOCK_WORDS];
    uint64_t word = 0;
    uint32_t answer = 0, refs, data, blocks;
    KEEP(heap);
    KEEP(word);
    KEEP(answer);
    KEEP(refs);
    KEEP(data);
    KEEP(blocks);
    KEEP(words);
    open_heap(64, 64, LXR_PACE_NEVER);
    must(lxr_new(&heap, OBJECT, 4, 4));
    must(lxr_new(&heap, OTHER, 4, 4));
    must(lxr_new(&heap, TABLE, IN_TABLE, 0));
    must(lxr_large_new(&heap, BODY, 1));
    must(lxr_pause(&heap));
    for (uint32_t at = 0; at < 4; at++) must(lxr_store(&heap, OBJECT, at, OTHER));
    MEASURE_CALL("lxr_version", answer += lxr_version());
    MEASURE_CALL("lxr_load", lxr_load(&heap, MADE, OBJECT, i & 3));
    MEASURE_CALL("lxr_store", lxr_store(&heap, OBJECT, i & 3, OTHER));
    MEASURE_AFTER("lxr_store, the first since a pause", 1000, IN_TABLE, must(lxr_pause(&heap)), lxr_store(&heap, TABLE, i, OTHER));
    MEASURE_CALL("lxr_get", lxr_get(&heap, OBJECT, i & 3, &word));
    MEASURE_CALL("lxr_put", lxr_put(&heap, OBJECT, i & 3, i));
    MEASURE_CALL("lxr_same", lxr_same(&heap, OBJECT, OTHER, &answer));
    MEASURE_CALL("lxr_move", lxr_move(&heap, SPARE, OTHER));
    MEASURE_CALL("lxr_nil", lxr_nil(&heap, SPARE));
    MEASURE_CALL("lxr_is_nil", lxr_is_nil(&heap, SPARE, &answer));
    MEASURE_CALL("lxr_shape", lxr_shape(&heap, OBJECT, &refs, &data, &blocks));
    MEASURE_CALL("lxr_large_get", lxr_large_get(&heap, BODY, i & 4095, &word));
    MEASURE_CALL("lxr_large_put", lxr_large_put(&heap, BODY, i & 4095, i));
    MEASURE("lxr_large_read, 4,096 words", 20, 1000, lxr_large_read(&heap, BODY, 0, words, LXR_BLOCK_WORDS));
    MEASURE("lxr_large_write, 4,096 words", 20, 1000, lxr_large_write(&heap, BODY, 0, words, LXR_BLOCK_WORDS));
    MEASURE_CALL("lxr_count, pauses", lxr_count(&heap, LXR_COUNT_PAUSES, &word));
    MEASURE("lxr_count, free blocks", 20, 1000, lxr_count(&heap, LXR_COUNT_FREE_BLOCKS, &word));
    MEASURE("lxr_pause, nothing to do", 20, 1000, lxr_pause(&heap));
    MEASURE("lxr_collect, nothing to do", 20, 1000, lxr_collect(&heap));
    MEASURE("lxr_new of 4 words, dropped at once", 5, 1000000, lxr_new(&heap, MADE, 2, 2));
    must(lxr_set_pace(&heap, 10000 * OBJECT_BYTES));
    MEASURE("lxr_new of 4 words, dropped at once, a pause every 10,000", 5, 1000000, lxr_new(&heap, MADE, 2, 2));
    measure_several();
    MEASURE("lxr_large_new of one block, dropped at once", 20, 1000, lxr_large_new(&heap, BODY, 1));
    measure_registers();
    must(lxr_close(&heap));
}

/* As many live objects as are told, in tables of the object TOP; the heap has three times the blocks that they take. */
static void fill(uint32_t live, uint64_t pace) {
    uint64_t bytes = (uint64_t)live * OBJECT_BYTES + (uint64_t)live / IN_TABLE * (IN_TABLE + 2) * 8;
    open_heap((uint32_t)(3 * bytes / 32768 + 1), 1, pace);
    must(lxr_new(&heap, TOP, live / IN_TABLE, 0));
    for (uint32_t table = 0; table < live / IN_TABLE; table++) {
        must(lxr_new(&heap, TABLE, IN_TABLE, 0));
        must(lxr_store(&heap, TOP, table, TABLE));
        for (uint32_t at = 0; at < IN_TABLE; at++) {
            must(lxr_new(&heap, MADE, 2, 2));
            must(lxr_store(&heap, TABLE, at, MADE));
        }
    }
}

static inline void replace_one(uint32_t live) {
    uint32_t drawn = draw(live);
    lxr_load(&heap, TABLE, TOP, drawn / IN_TABLE);
    must(lxr_new(&heap, MADE, 2, 2));
    lxr_store(&heap, TABLE, drawn % IN_TABLE, MADE);
}

static void measure_new(uint32_t live, const char *every) {
    char name[80];
    fill(live, pace_of(every));
    snprintf(name, sizeof name, "a new object dropped at once, beside %u", live);
    MEASURE(name, 5, 1000000, must(lxr_new(&heap, MADE, 2, 2)));
    snprintf(name, sizeof name, "one of %u objects replaced by a new one", live);
    MEASURE(name, 5, 1000000, replace_one(live));
    must(lxr_close(&heap));
}

/* A pause is made by lxr_new, or by lxr_store where the log is full. */
static void measure_pauses(uint32_t live, const char *every) {
    struct pauses pauses = { NULL, 0, 0 };
    uint64_t before = 0, after = 0;
    char name[80];
    fill(live, pace_of(every));
    must(lxr_count(&heap, LXR_COUNT_PAUSES, &before));
    for (uint32_t at = 0; at < 2000000; at++) {
        double begun = now();
        replace_one(live);
        double ended = now();
        lxr_count(&heap, LXR_COUNT_PAUSES, &after);
        if (after != before) keep_pause(&pauses, ended - begun);
        before = after;
    }
    snprintf(name, sizeof name, "lxr, %u live, every %s", live, every);
    print_pauses(name, &pauses);
    must(lxr_close(&heap));
}

int main(int count, char **words) {
    if (count >= 2 && count <= 3 && strcmp(words[1], "calls") == 0) {
        if (count == 3) registers = (uint32_t)strtoul(words[2], NULL, 10);
        measure_calls();
    } else if (count == 4 && strcmp(words[1], "count") == 0) {
        counted_call = words[2];
        counted_tenths = (uint32_t)strtoul(words[3], NULL, 10);
        measure_calls();
    } else if (count == 4) {
        uint32_t live = (uint32_t)strtoul(words[2], NULL, 10);
        (strcmp(words[1], "new") == 0 ? measure_new : measure_pauses)(live, words[3]);
    } else {
        return 2;
    }
    return 0;
}
