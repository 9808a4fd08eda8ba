/*
 * Vectors. SPDX: MIT OR Apache-2.0
 *
 * A vector of up to FIELDS_MOST elements is an object with so many fields; a longer one has an array and words for them (fields.h). Its
 * length stands in its word.
 */
#include "primitives.h"

static bool is_long(Word vector) { return payload(vector) > FIELDS_MOST; }

static bool is_vector(Word word) { return (uint8_t)word == (uint8_t)REFERENCE(KIND_VECTOR, 0); }

static inline Field element_of(const Machine *machine, const char *name, unsigned vector, unsigned index) {
    const Word word = machine->word[vector], place = machine->word[index];
    if (!is_vector(word)) machine_fault(machine, "%s: not a vector", name);
    if (!is_integer(place) || (uint64_t)number(place) >= payload(word)) want_index(machine, name, place, payload(word));
    return (Field){vector, (size_t)number(place), is_long(word) ? (size_t)payload(word) : 0};
}

void vector_ref(Machine *machine, unsigned dest, unsigned vector, unsigned index) {
    const Field element = element_of(machine, "vector-ref", vector, index);
    if (element.length) {
        machine_load_field(machine, dest, element);
    } else {
        machine_load(machine, dest, vector, (unsigned)element.index);
    }
}

void vector_set(Machine *machine, unsigned vector, unsigned index, unsigned value) {
    const Field element = element_of(machine, "vector-set!", vector, index);
    if (element.length) {
        machine_store_field(machine, element, value);
    } else {
        machine_store(machine, vector, (unsigned)element.index, value);
    }
}

static void make_short(Machine *machine, unsigned dest, unsigned length, unsigned fill) {
    uint32_t sources[OBJECT_MOST];
    Word data[OBJECT_MOST];
    const Word word = machine->word[fill];
    for (unsigned i = 0; i < length; i++) {
        sources[i] = fill;
        data[i] = word;
    }
    if (is_reference(word)) {
        machine_make(machine, dest, REFERENCE(KIND_VECTOR, length), sources, data, length);
    } else {
        machine_make_empty(machine, dest, REFERENCE(KIND_VECTOR, length), length);
        if (word) memory_put_many(dest, HEAD_WORDS, data, length);
    }
}

/* Some elements of a long vector, which no other thread writes to, become a value. */
static void fill_long(Machine *machine, unsigned vector, size_t first, size_t count, unsigned fill) {
    memory_load(REGISTER_PART, vector, LONG_ELEMENTS);
    memory_array_fill(REGISTER_PART, first, count, machine_source(machine, fill));
    words_fill((Words){vector, LONG_WORDS, (size_t)payload(machine->word[vector])}, first, count, machine->word[fill]);
}

/* The array stands in the register that is nil, until the object is made that refers to it and to the words. */
static void make_long(Machine *machine, unsigned dest, size_t length, unsigned fill) {
    const Word word = REFERENCE(KIND_VECTOR, length);
    const uint32_t sources[LONG_REFERENCES] = {[LONG_ELEMENTS] = REGISTER_NIL, [LONG_WORDS] = REGISTER_SCRATCH};
    machine_array(machine, REGISTER_NIL, length);
    machine_words(machine, REGISTER_SCRATCH, length);
    machine_new_with(machine, REGISTER_PART, sources, LONG_REFERENCES, &word, HEAD_WORDS);
    memory_move(REGISTER_SCRATCH, REGISTER_PART);
    memory_nil(REGISTER_NIL);
    machine_set(machine, REGISTER_SCRATCH, word);
    if (machine->word[fill]) fill_long(machine, REGISTER_SCRATCH, 0, length, fill);
    machine_move(machine, dest, REGISTER_SCRATCH);
}

void make_vector(Machine *machine, unsigned dest, unsigned length_operand, unsigned fill, unsigned unused) {
    (void)unused;
    const size_t length = want_index(machine, "make-vector", machine->word[length_operand], ARRAY_MOST + 1);
    if (length > FIELDS_MOST) {
        make_long(machine, dest, length, fill);
    } else if (dest != fill) {
        make_short(machine, dest, (unsigned)length, fill);
    } else {
        make_short(machine, REGISTER_SCRATCH, (unsigned)length, fill);
        machine_move(machine, dest, REGISTER_SCRATCH);
    }
}

/* Whether elements of these vectors may be written at once: both are long, and no other thread writes to them. */
static bool is_at_once(const Machine *machine, unsigned one, unsigned other) {
#ifdef THREADS
    if (!is_alone()) return false;
#endif
    return is_long(machine->word[one]) && is_long(machine->word[other]);
}

/* The next number of a list, the rest of which stands in the register for it then. */
static size_t next_number(Machine *machine) {
    const Word word = machine_peek(machine, REGISTER_SCRATCH, 0);
    machine_load(machine, REGISTER_SCRATCH, REGISTER_SCRATCH, 1);
    return (size_t)number(word);
}

void fill_at_once(Machine *machine, unsigned dest, unsigned vector, unsigned fill, unsigned numbers) {
    const bool is_done = is_at_once(machine, vector, vector);
    if (is_done) {
        machine_move(machine, REGISTER_SCRATCH, numbers);
        const size_t first = next_number(machine), end = next_number(machine);
        fill_long(machine, vector, first, end - first, fill);
    }
    machine_set(machine, dest, boolean(is_done));
}

void copy_at_once(Machine *machine, unsigned dest, unsigned to, unsigned from, unsigned numbers) {
    const bool is_done = is_at_once(machine, to, from);
    if (is_done) {
        machine_move(machine, REGISTER_SCRATCH, numbers);
        const size_t at = next_number(machine), first = next_number(machine), end = next_number(machine);
        const Words to_words = {to, LONG_WORDS, (size_t)payload(machine->word[to])};
        const Words from_words = {from, LONG_WORDS, (size_t)payload(machine->word[from])};
        memory_load(REGISTER_PART, to, LONG_ELEMENTS);
        memory_load(REGISTER_SCRATCH, from, LONG_ELEMENTS);
        memory_array_copy(REGISTER_PART, at, REGISTER_SCRATCH, first, end - first);
        words_copy(to_words, at, from_words, first, end - first);
    }
    machine_set(machine, dest, boolean(is_done));
}

void vector_length(Machine *machine, unsigned dest, unsigned vector, unsigned unused, unsigned unused_too) {
    (void)unused;
    (void)unused_too;
    if (!is_vector(machine->word[vector])) machine_fault(machine, "vector-length: not a vector");
    machine_set(machine, dest, integer((int64_t)payload(machine->word[vector])));
}
