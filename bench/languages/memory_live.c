/*
 * The heap on plain malloc, which tells how much of it lives. SPDX: MIT OR Apache-2.0
 *
 * From time to time it marks what registers lead to, and sums it up as the collector's heap has it: a header of eight bytes, and eight for
 * each reference and word, in steps of sixteen. The greatest sum is told at the end, for small and for large objects.
 */
#include "memory.h"
#include <stdlib.h>
#include <string.h>

enum { STEP = 16, HEADER = 8, FIELD = 8, PART = OBJECT_MOST, LEAST_BETWEEN = 65536 };

typedef struct object {
    uint32_t references, words;
    uint64_t marked; /* by which marking */
} Object;

static Object *registers[MEMORY_REGISTERS];
static Object **stack;
static size_t stacked, stack_room;
static uint64_t marking, made, most_small, most_large;
int64_t memory_left = LEAST_BETWEEN;

static Object **references_of(Object *object) { return (Object **)(void *)(object + 1); }

static Word *words_of(Object *object) { return (Word *)(void *)(references_of(object) + object->references); }

static uint64_t round_up(uint64_t bytes, uint64_t step) { return (bytes + step - 1) / step * step; }

static uint64_t bytes_of_fields(uint64_t fields) { return round_up(HEADER + FIELD * fields, STEP); }

/* Many words are a body of whole blocks, with a word for their number. More references than an object has are those of parts, to which a root refers,
 * with a word for their number too. */
static uint64_t bytes_of(const Object *object) {
    const uint64_t parts = object->references / PART, rest = object->references % PART;
    if (object->words > OBJECT_MOST) return round_up(FIELD * (object->words + (uint64_t)1), BLOCK_BYTES);
    if (object->references <= OBJECT_MOST) return bytes_of_fields((uint64_t)object->references + object->words);
    return parts * bytes_of_fields(PART) + (rest ? bytes_of_fields(rest) : 0) + bytes_of_fields(1 + parts + !!rest);
}

static void reach(Object *object) {
    if (!object || object->marked == marking) return;
    object->marked = marking;
    if (stacked == stack_room) {
        stack_room = stack_room ? 2 * stack_room : 1024;
        stack = realloc(stack, stack_room * sizeof(Object *));
        if (!stack) abort();
    }
    stack[stacked++] = object;
}

static void mark(void) {
    uint64_t small = 0, large = 0;
    marking++;
    for (unsigned i = 0; i < MEMORY_REGISTERS; i++) reach(registers[i]);
    while (stacked) {
        Object *const object = stack[--stacked];
        *(object->words > OBJECT_MOST ? &large : &small) += bytes_of(object);
        for (uint32_t i = 0; i < object->references; i++) reach(references_of(object)[i]);
    }
    if (small > most_small) most_small = small;
    if (large > most_large) most_large = large;
    memory_left = (int64_t)((small + large) / 8) + LEAST_BETWEEN;
}

static bool make(unsigned dest, size_t references, size_t words) {
    Object *const object = calloc(1, sizeof *object + references * sizeof(Object *) + words * sizeof(Word));
    if (!object) return false;
    object->references = (uint32_t)references;
    object->words = (uint32_t)words;
    registers[dest] = object;
    made += bytes_of(object);
    memory_left -= (int64_t)bytes_of(object);
    return true;
}

bool memory_open(const MemoryOptions *options) {
    (void)options;
    return true;
}

void memory_close(void) {}

bool memory_new(unsigned dest, unsigned references, unsigned words) { return make(dest, references, words); }

void memory_load(unsigned dest, unsigned base, unsigned index) { registers[dest] = references_of(registers[base])[index]; }

void memory_store(unsigned base, unsigned index, unsigned source) { references_of(registers[base])[index] = registers[source]; }

Word memory_get(unsigned base, unsigned index) { return words_of(registers[base])[index]; }

void memory_put(unsigned base, unsigned index, Word word) { words_of(registers[base])[index] = word; }

void memory_move(unsigned dest, unsigned source) { registers[dest] = registers[source]; }

void memory_nil(unsigned dest) { registers[dest] = NULL; }

bool memory_same(unsigned left, unsigned right) { return registers[left] == registers[right]; }

void memory_registers_in_use(unsigned count) { memset(registers + count, 0, (MEMORY_REGISTERS - count) * sizeof *registers); }

bool memory_new_with(unsigned dest, const uint32_t *sources, size_t references, const Word *data, size_t words) {
    if (!make(dest, references, words)) return false;
    for (size_t i = 0; i < references; i++) references_of(registers[dest])[i] = registers[sources[i]];
    if (words) memcpy(words_of(registers[dest]), data, words * sizeof *data);
    return true;
}

void memory_get_many(unsigned base, unsigned first, Word *into, size_t count) {
    memcpy(into, words_of(registers[base]) + first, count * sizeof *into);
}

void memory_put_many(unsigned base, unsigned first, const Word *from, size_t count) {
    memcpy(words_of(registers[base]) + first, from, count * sizeof *from);
}

void memory_load_many(unsigned base, unsigned first, const uint32_t *into, size_t count) {
    for (size_t i = 0; i < count; i++) registers[into[i]] = references_of(registers[base])[first + i];
}

bool memory_words(unsigned dest, size_t count) { return make(dest, 0, count); }

void memory_read(unsigned base, size_t all, size_t index, Word *into, size_t count) {
    (void)all;
    memcpy(into, words_of(registers[base]) + index, count * sizeof *into);
}

void memory_write(unsigned base, size_t all, size_t index, const Word *from, size_t count) {
    (void)all;
    memcpy(words_of(registers[base]) + index, from, count * sizeof *from);
}

Word memory_word(unsigned base, size_t all, size_t index) {
    (void)all;
    return words_of(registers[base])[index];
}

void memory_set_word(unsigned base, size_t all, size_t index, Word word) {
    (void)all;
    words_of(registers[base])[index] = word;
}

bool memory_array(unsigned dest, size_t length) { return make(dest, length, 0); }

unsigned memory_element(unsigned base, size_t length, size_t index) {
    (void)base;
    (void)length;
    return (unsigned)index;
}

void memory_array_fill(unsigned base, size_t first, size_t count, unsigned source) {
    for (size_t i = first; i < first + count; i++) references_of(registers[base])[i] = registers[source];
}

void memory_array_copy(unsigned to, size_t at, unsigned from, size_t first, size_t count) {
    memmove(references_of(registers[to]) + at, references_of(registers[from]) + first, count * sizeof(Object *));
}

void memory_pause(void) { mark(); }

void memory_collect(void) { mark(); }

void memory_report(FILE *to) {
    fprintf(to, "live: %llu bytes of objects, %llu of bodies, of %llu made\n", (unsigned long long)most_small,
            (unsigned long long)most_large, (unsigned long long)made);
}
