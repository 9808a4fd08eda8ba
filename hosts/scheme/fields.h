/*
 * Fields of objects: a word, and where that says so a reference of the same number. SPDX: MIT OR Apache-2.0
 *
 * A value has both, and the heap reads and writes one of them at a time. With one thread that is all. Where threads share the heap, others
 * may write between the two, and nobody may ever find the word of one value beside the reference of another. So there
 *
 *   - an object that is a value begins with a word that says which value it is, and never changes: its own word, or 0 for a pair;
 *   - a field keeps word and reference as it was made with them until it is changed to, or from, a reference. From then on its word is
 *     CHANGED, and its reference alone says what it has, since the object that it leads to tells its own word;
 *   - what such a field has, if it is no reference, stands in a box: an object that has that word at its beginning.
 *
 * A reader loads the reference and then reads the word. Where that isn't CHANGED, the reference was not changed before, and both belong
 * together. A writer of a reference over another one writes CHANGED first, and over a plain value last. Nothing of this takes a lock, and
 * what was never changed costs a reader one call more at most. Until there is a second thread, a field is changed as with one thread.
 *
 * An element of a vector is a field too. A LONG vector has more of them than an object has fields: it is an object that refers to an array,
 * which has the elements' references, and to so many words.
 */
#ifndef FIELDS_H
#define FIELDS_H

#ifndef THREADS
enum { HEAD_WORDS = 0 };
#else
enum { HEAD_WORDS = 1 };
#endif
enum { FIELDS_MOST = OBJECT_MOST - HEAD_WORDS };
enum { LONG_ELEMENTS, LONG_WORDS, LONG_REFERENCES }; /* what a long vector refers to */

/* A field of an object, or an element of a long vector, which has so many of them. */
typedef struct field {
    unsigned base;
    size_t index;
    size_t length; /* 0: no long vector's */
} Field;

/* What each of these takes mostly tells, as it is compiled, which branch it takes. */
#define FOLDED __attribute__((always_inline)) static inline

FOLDED Field field_of(unsigned base, unsigned index) { return (Field){.base = base, .index = index}; }

static inline Words words_of_field(Field field) { return (Words){field.base, LONG_WORDS, field.length}; }

FOLDED Word field_get(Field field) {
    return field.length ? words_get(words_of_field(field), field.index) : memory_get(field.base, (unsigned)field.index + HEAD_WORDS);
}

static inline void field_put(Field field, Word word) {
    if (field.length) {
        words_put(words_of_field(field), field.index, word);
    } else {
        memory_put(field.base, (unsigned)field.index + HEAD_WORDS, word);
    }
}

/* REGISTER_PART holds the object that has the reference of a long vector's element: which one of it that is. */
static inline unsigned find_element(Field field) {
    memory_load(REGISTER_PART, field.base, LONG_ELEMENTS);
    return memory_element(REGISTER_PART, field.length, field.index);
}

FOLDED void field_load(unsigned dest, Field field) {
    if (field.length) {
        const unsigned reference = find_element(field);
        memory_load(dest, REGISTER_PART, reference);
    } else {
        memory_load(dest, field.base, (unsigned)field.index);
    }
}

static inline void field_store(Field field, unsigned source) {
    if (field.length) {
        const unsigned reference = find_element(field);
        memory_store(REGISTER_PART, reference, source);
    } else {
        memory_store(field.base, (unsigned)field.index, source);
    }
}

#ifndef THREADS

/* A new object says which value it is. */
static inline void machine_head(unsigned base, Word word) {
    (void)base;
    (void)word;
}

/* A register becomes a field. */
FOLDED void machine_load_field(Machine *machine, unsigned dest, Field field) {
    const Word word = field_get(field);
    machine->word[dest] = word;
    if (is_reference(word)) field_load(dest, field);
}

/* The same of a field that is never changed. */
static inline void machine_load_fixed(Machine *machine, unsigned dest, unsigned base, unsigned field) {
    machine_load_field(machine, dest, field_of(base, field));
}

/* The word of a field's value. */
static inline Word machine_peek(const Machine *machine, unsigned base, unsigned field) {
    (void)machine;
    return memory_get(base, field);
}

/* A field's word becomes another one; it is answered. */
static inline Word field_swap(Field field, Word word) {
    if (field.length) return words_swap(words_of_field(field), field.index, word);
    const Word old = field_get(field);
    field_put(field, word);
    return old;
}

/* A field becomes a value; what it referred to is let go. */
static inline void machine_store_field(Machine *machine, Field field, unsigned source) {
    const Word word = machine->word[source];
    if (is_reference(word)) {
        field_store(field, source);
        field_put(field, word);
    } else if (is_reference(field_swap(field, word))) {
        field_store(field, REGISTER_NIL);
    }
}

/* A register becomes a new object whose fields are what registers hold. `sources` and `data` are those of machine_source, and words. */
static inline void machine_make(Machine *machine, unsigned dest, Word word, const uint32_t *sources, const Word *data, size_t count) {
    machine_new_with(machine, dest, sources, count, data, count);
    machine_set(machine, dest, word);
}

#else

/* A pair's is 0, as all words of a new object are. */
static inline void machine_head(unsigned base, Word word) {
    if (word != PAIR) memory_put(base, 0, word);
}

/* What an object's first word says of the value that it is. */
static inline Word head_value(Word head) { return !head ? PAIR : head == BOXED_ZERO ? integer(0) : head; }

static inline void machine_load_fixed(Machine *machine, unsigned dest, unsigned base, unsigned field) {
    const Word word = memory_get(base, field + HEAD_WORDS);
    machine->word[dest] = word;
    if (is_reference(word)) memory_load(dest, base, field);
}

/* A register, which holds what a field refers to, becomes the value that this says it is. Whether it holds something. */
static inline bool machine_believe(Machine *machine, unsigned dest) {
    Word head;
    if (!memory_first(dest, &head)) return false;
    machine->word[dest] = head_value(head);
    return true;
}

FOLDED void machine_load_field(Machine *machine, unsigned dest, Field field) {
    Word word;
    if (is_alone()) {
        word = field_get(field);
        machine->word[dest] = word;
        if (is_reference(word)) field_load(dest, field);
        return;
    }
    if (dest == field.base) { /* the word can't be read behind the reference */
        word = field_get(field);
        machine->word[dest] = word;
        if (!is_reference(word) && word != CHANGED) return;
        field_load(dest, field);
        machine_believe(machine, dest);
        return;
    }
    field_load(dest, field);
    word = field_get(field);
    machine->word[dest] = word;
    if (word == CHANGED && !machine_believe(machine, dest)) { /* it became a reference in between */
        field_load(dest, field);
        machine_believe(machine, dest);
    }
}

static inline Word machine_peek(const Machine *machine, unsigned base, unsigned field) {
    const Word word = memory_get(base, field + HEAD_WORDS);
    (void)machine;
    if (word != CHANGED) return word;
    memory_load(REGISTER_NIL, base, field); /* is nil again below */
    const Word told = head_value(memory_get(REGISTER_NIL, 0));
    memory_nil(REGISTER_NIL);
    return told;
}

/* A field whose word is CHANGED becomes a word without a reference. */
void machine_store_boxed(const Machine *machine, Field field, Word word);

static inline void machine_store_field(Machine *machine, Field field, unsigned source) {
    const Word word = machine->word[source], old = field_get(field);
    if (is_alone()) {
        if (is_reference(word) || is_reference(old)) field_store(field, machine_source(machine, source));
        field_put(field, word);
    } else if (is_reference(word)) {
        if (is_reference(old)) field_put(field, CHANGED);
        field_store(field, source);
        if (!is_reference(old) && old != CHANGED) field_put(field, CHANGED);
    } else if (is_reference(old) || old == CHANGED) {
        if (old != CHANGED) field_put(field, CHANGED);
        machine_store_boxed(machine, field, word);
    } else {
        field_put(field, word);
    }
}

static inline void machine_make(Machine *machine, unsigned dest, Word word, const uint32_t *sources, const Word *data, size_t count) {
    machine_new(machine, dest, (unsigned)count, (unsigned)count + HEAD_WORDS);
    machine_head(dest, word);
    for (size_t i = 0; i < count; i++) {
        if (data[i]) memory_put(dest, (unsigned)i + HEAD_WORDS, data[i]);
        if (is_reference(data[i])) memory_store(dest, (unsigned)i, sources[i]);
    }
    machine_set(machine, dest, word);
}

#endif

/* A register becomes a field of an object. */
FOLDED void machine_load(Machine *machine, unsigned dest, unsigned base, unsigned field) {
    machine_load_field(machine, dest, field_of(base, field));
}

/* A field of an object becomes a value; what it referred to is let go. */
static inline void machine_store(Machine *machine, unsigned base, unsigned field, unsigned source) {
    machine_store_field(machine, field_of(base, field), source);
}

/* A field of a new object, which no other thread can reach yet, becomes a value. */
static inline void machine_begin(const Machine *machine, unsigned base, unsigned field, unsigned source) {
    memory_put(base, field + HEAD_WORDS, machine->word[source]);
    if (is_reference(machine->word[source])) memory_store(base, field, source);
}

/* A register becomes a new object with so many fields, which are the integer 0. */
static inline void machine_make_empty(Machine *machine, unsigned dest, Word word, unsigned fields) {
    machine_new(machine, dest, fields, fields + HEAD_WORDS);
    machine_head(dest, word);
    machine_set(machine, dest, word);
}

#endif
