/*
 * The heap on plain malloc, which never frees. SPDX: MIT OR Apache-2.0
 *
 * Where it is told how often, registers let go of what isn't needed, for no use but in tests.
 */
#include "memory.h"
#include <stdlib.h>
#include <string.h>

/* An object's header; its references stand behind it, and then its words. */
typedef struct object {
    uint32_t references;
    uint32_t words;
} Object;

static Object *registers[MEMORY_REGISTERS];
static int64_t chosen_left; /* bytes between two times that registers let go */
int64_t memory_left;

static Object **references_of(Object *object) { return (Object **)(void *)(object + 1); }

static Word *words_of(Object *object) { return (Word *)(void *)(references_of(object) + object->references); }

static bool make(unsigned dest, size_t references, size_t words) {
    Object *const object = calloc(1, sizeof *object + references * sizeof(Object *) + words * sizeof(Word));
    if (!object) return false;
    object->references = (uint32_t)references;
    object->words = (uint32_t)words;
    registers[dest] = object;
    memory_left -= (int64_t)(sizeof *object + references * sizeof(Object *) + words * sizeof(Word));
    return true;
}

bool memory_open(const MemoryOptions *options) {
    chosen_left = options->every ? options->every : INT64_MAX;
    memory_left = chosen_left;
    return true;
}

void memory_close(void) {}

bool memory_new(unsigned dest, unsigned references, unsigned words) { return make(dest, references, words); }

void memory_load(unsigned dest, unsigned base, unsigned index) { registers[dest] = references_of(registers[base])[index]; }

void memory_store(unsigned base, unsigned index, unsigned source) { references_of(registers[base])[index] = registers[source]; }

Word memory_get(unsigned base, unsigned index) { return words_of(registers[base])[index]; }

void memory_put(unsigned base, unsigned index, Word word) { words_of(registers[base])[index] = word; }

void memory_move(unsigned dest, unsigned source) { registers[dest] = registers[source]; }

void memory_nil(unsigned dest) { registers[dest] = NULL; }

bool memory_same(unsigned left, unsigned right) { return registers[left] == registers[right]; }

void memory_registers_in_use(unsigned count) { memset(registers + count, 0, (MEMORY_REGISTERS - count) * sizeof *registers); }

bool memory_new_with(unsigned dest, const uint32_t *sources, size_t references, const Word *data, size_t words) {
    if (!make(dest, references, words)) return false;
    for (size_t i = 0; i < references; i++) references_of(registers[dest])[i] = registers[sources[i]];
    if (words) memcpy(words_of(registers[dest]), data, words * sizeof *data);
    return true;
}

void memory_get_many(unsigned base, unsigned first, Word *into, size_t count) {
    memcpy(into, words_of(registers[base]) + first, count * sizeof *into);
}

void memory_put_many(unsigned base, unsigned first, const Word *from, size_t count) {
    memcpy(words_of(registers[base]) + first, from, count * sizeof *from);
}

void memory_load_many(unsigned base, unsigned first, const uint32_t *into, size_t count) {
    for (size_t i = 0; i < count; i++) registers[into[i]] = references_of(registers[base])[first + i];
}

bool memory_words(unsigned dest, size_t count) { return make(dest, 0, count); }

void memory_read(unsigned base, size_t all, size_t index, Word *into, size_t count) {
    (void)all;
    memcpy(into, words_of(registers[base]) + index, count * sizeof *into);
}

void memory_write(unsigned base, size_t all, size_t index, const Word *from, size_t count) {
    (void)all;
    memcpy(words_of(registers[base]) + index, from, count * sizeof *from);
}

Word memory_word(unsigned base, size_t all, size_t index) {
    (void)all;
    return words_of(registers[base])[index];
}

void memory_set_word(unsigned base, size_t all, size_t index, Word word) {
    (void)all;
    words_of(registers[base])[index] = word;
}

bool memory_array(unsigned dest, size_t length) { return make(dest, length, 0); }

unsigned memory_element(unsigned base, size_t length, size_t index) {
    (void)base;
    (void)length;
    return (unsigned)index;
}

void memory_array_fill(unsigned base, size_t first, size_t count, unsigned source) {
    for (size_t i = first; i < first + count; i++) references_of(registers[base])[i] = registers[source];
}

void memory_array_copy(unsigned to, size_t at, unsigned from, size_t first, size_t count) {
    memmove(references_of(registers[to]) + at, references_of(registers[from]) + first, count * sizeof(Object *));
}

void memory_pause(void) { memory_left = chosen_left; }

void memory_collect(void) {}

void memory_report(FILE *to) { fputs("pauses: none\n", to); }
