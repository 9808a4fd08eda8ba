/*
 * calls_structs.c: what plain structs of C cost, by malloc and free or by Boehm's collector (-DBOEHM). SPDX: MIT OR Apache-2.0
 *
 * usage: calls_structs calls | count NAME TENTHS | new LIVE | pauses LIVE      as calls_lxr.c has it; pauses by Boehm's collector alone
 *
 * Registers are an array of pointers, as a runtime has them, so that both do the same work: read a register, then the object.
 */
#include "bench.h"

struct object {
    struct object *refs[2];
    uint64_t words[2];
};

/* What several fields are read from and written to at once. */
struct row {
    struct object *refs[8];
    uint64_t words[16];
};

static struct object *registers[16];
static struct object ***top;

#ifdef BOEHM
#include <gc.h>
#define NAME "boehm"
static struct pauses pauses;
static double begun;

/* What a pause is: from the beginning to the end of a collection. Sweeping goes on after it, as objects are made. */
static void on_event(GC_EventType event) {
    if (event == GC_EVENT_START) begun = now();
    if (event == GC_EVENT_END) keep_pause(&pauses, now() - begun);
}

static void begin(uint64_t bytes) {
    GC_INIT();
    GC_set_on_collection_event(on_event);
    if (bytes) GC_set_max_heap_size(bytes < 1 << 18 ? 1 << 18 : bytes);
}
static void *make(size_t bytes) {
    void *made = GC_MALLOC(bytes);
    if (!made) exit(1);
    return made;
}
static void release(void *old) { (void)old; }
#else
#define NAME "structs"
static void begin(uint64_t bytes) { (void)bytes; }
static void *make(size_t bytes) {
    void *made = calloc(1, bytes);
    if (!made) exit(1);
    return made;
}
static void release(void *old) { free(old); }
#endif

static struct object *make_with(struct object *left, struct object *right, const uint64_t *words) {
    struct object *made = make(sizeof *made);
    made->refs[0] = left;
    made->refs[1] = right;
    memcpy(made->words, words, sizeof made->words);
    return made;
}

/* Several at once: copies, between the object and the registers or words of the program. */
static void measure_several(void) {
    static uint64_t words[16];
    struct row *row = make(sizeof *row);
    MEASURE("lxr_new_with, 2 references and 2 words", 5, 1000000, release(registers[6]);
            registers[6] = make_with(registers[2], registers[3], words));
    MEASURE("lxr_get_many, 16 words", 50, 20000, memcpy(words, row->words, sizeof words));
    MEASURE("lxr_put_many, 16 words", 50, 20000, memcpy(row->words, words, sizeof words));
    MEASURE("lxr_load_many, 8 references", 50, 20000, memcpy(registers + 8, row->refs, sizeof row->refs));
    MEASURE("lxr_store_many, 8 references", 50, 20000, memcpy(row->refs, registers + 8, sizeof row->refs));
    release(row);
}

static void measure_calls(void) {
    uint64_t word = 0;
    begin(0);
    for (int at = 1; at < 4; at++) registers[at] = make(sizeof *registers[at]);
    MEASURE_CALL("lxr_load", registers[4] = registers[1]->refs[i & 1]);
    MEASURE_CALL("lxr_store", registers[1]->refs[i & 1] = registers[2]);
    MEASURE_CALL("lxr_get", word = registers[1]->words[i & 1]);
    MEASURE_CALL("lxr_put", registers[1]->words[i & 1] = i);
    MEASURE_CALL("lxr_same", word = registers[1] == registers[2]);
    MEASURE_CALL("lxr_move", registers[5] = registers[2]);
    MEASURE_CALL("lxr_nil", registers[5] = NULL);
    MEASURE_CALL("lxr_is_nil", word = registers[5] == NULL);
    MEASURE("lxr_new of 4 words, dropped at once", 5, 1000000, release(registers[6]); registers[6] = make(sizeof(struct object)));
    measure_several();
    __asm__ volatile("" ::"r"(word));
}

static void fill(uint32_t live) {
    begin(3 * ((uint64_t)live * OBJECT_BYTES + (uint64_t)live / IN_TABLE * (IN_TABLE + 2) * 8));
    top = make(live / IN_TABLE * sizeof *top);
    for (uint32_t table = 0; table < live / IN_TABLE; table++) {
        top[table] = make(IN_TABLE * sizeof **top);
        for (uint32_t at = 0; at < IN_TABLE; at++) top[table][at] = make(sizeof(struct object));
    }
}

static inline void replace_one(uint32_t live) {
    uint32_t drawn = draw(live);
    struct object **table = top[drawn / IN_TABLE];
    release(table[drawn % IN_TABLE]);
    table[drawn % IN_TABLE] = make(sizeof(struct object));
}

static void measure_new(uint32_t live) {
    char name[80];
    fill(live);
    snprintf(name, sizeof name, "a new object dropped at once, beside %u", live);
    MEASURE(name, 5, 1000000, release(registers[6]); registers[6] = make(sizeof(struct object)));
    snprintf(name, sizeof name, "one of %u objects replaced by a new one", live);
    MEASURE(name, 5, 1000000, replace_one(live));
}

static void measure_pauses(uint32_t live) {
#ifdef BOEHM
    char name[80];
    fill(live);
    pauses.count = 0;
    for (uint32_t at = 0; at < 2000000; at++) replace_one(live);
    snprintf(name, sizeof name, NAME ", %u live, heap of %zu KB", live, GC_get_heap_size() / 1024);
    print_pauses(name, &pauses);
#else
    (void)live;
#endif
}

int main(int count, char **words) {
    if (count == 2 && strcmp(words[1], "calls") == 0) {
        measure_calls();
    } else if (count == 4 && strcmp(words[1], "count") == 0) {
        counted_call = words[2];
        counted_tenths = (uint32_t)strtoul(words[3], NULL, 10);
        measure_calls();
    } else if (count == 3) {
        uint32_t live = (uint32_t)strtoul(words[2], NULL, 10);
        (strcmp(words[1], "new") == 0 ? measure_new : measure_pauses)(live);
    } else {
        return 2;
    }
    return 0;
}
