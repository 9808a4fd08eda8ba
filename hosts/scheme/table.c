/*
 * The table: globals, and constants with a reference. SPDX: MIT OR Apache-2.0
 *
 * An entry's word stands in C's memory, and what it refers to is held by an object that is reached from register 0. Where threads share the
 * heap, an entry is changed as a field is (fields.h), but that its word can be exchanged in one step. The first entries are each thread's
 * own: their words are the machine's, and what they refer to is held by an object for each thread, which the directory refers to.
 */
#include "table.h"
#include <stdlib.h>
#include <string.h>

/* The table's object has entries of its own, and behind them parts with further entries. Where threads share the heap it is the world,
 * which has parts alone, and whose last reference leads to the directory. */
#ifdef THREADS
enum { TABLE_PARTS = WORLD_REFERENCES - 1, TABLE_OWN = 0, DIRECTORY = TABLE_PARTS };
#else
enum { TABLE_PARTS = 16, TABLE_OWN = OBJECT_MOST - TABLE_PARTS };
#endif
enum { TABLE_MOST = TABLE_OWN + TABLE_PARTS * OBJECT_MOST };

static bool is_own(size_t entry) { return entry + 1 <= TABLE_OWN; }

/* The words of entries may change: they stay where they are, where threads share them. */
static void grow_table(void) {
#ifdef THREADS
    const size_t room = TABLE_MOST;
#else
    const size_t room = program.table_room ? 2 * program.table_room : 512;
#endif
    program.table = more_memory(program.table, room * sizeof *program.table);
    program.table_names = more_memory(program.table_names, room * sizeof *program.table_names);
    program.table_room = room;
}

unsigned machine_add_entry(Symbol name) {
    if (program.table_count == TABLE_MOST) fault((Position){0}, "more than %d globals and constants", (int)TABLE_MOST);
    if (program.table_count == program.table_room) grow_table();
    if (!is_own(program.table_count) && (program.table_count - TABLE_OWN) % OBJECT_MOST == 0) {
        if (!memory_new(REGISTER_SCRATCH, OBJECT_MOST, 0)) fault((Position){0}, "the heap is full");
        memory_store(REGISTER_TABLE, TABLE_OWN + (unsigned)(program.table_count - TABLE_OWN) / OBJECT_MOST, REGISTER_SCRATCH);
    }
    program.table[program.table_count] = UNDEFINED;
    program.table_names[program.table_count] = name;
    return (unsigned)program.table_count++;
}

/* The object that has a reference of the table, held by a register, a given one where it isn't the table itself; and which of its
 * references it is. */
static unsigned find_entry(unsigned entry, unsigned by, unsigned *index) {
    if (is_own(entry)) {
        *index = entry;
        return REGISTER_TABLE;
    }
    *index = (entry - TABLE_OWN) % OBJECT_MOST;
    memory_load(by, REGISTER_TABLE, TABLE_OWN + (entry - TABLE_OWN) / OBJECT_MOST);
    return by;
}

#ifndef THREADS

bool machine_get_entry(Machine *machine, unsigned dest, unsigned entry) {
    const Word word = program.table[entry];
    machine->word[dest] = word;
    if (is_reference(word)) {
        unsigned index;
        const unsigned part = find_entry(entry, dest, &index);
        memory_load(dest, part, index);
    }
    return word != UNDEFINED;
}

bool machine_is_defined(unsigned entry) { return program.table[entry] != UNDEFINED; }

void machine_set_entry(Machine *machine, unsigned entry, unsigned source) {
    const bool has_reference = is_reference(machine->word[source]);
    if (has_reference || is_reference(program.table[entry])) {
        unsigned index;
        const unsigned part = find_entry(entry, source == REGISTER_SCRATCH ? REGISTER_NIL : REGISTER_SCRATCH, &index);
        memory_store(part, index, has_reference ? source : REGISTER_NIL);
        if (part == REGISTER_NIL) memory_nil(part);
    }
    program.table[entry] = machine->word[source];
}

void machine_define(Machine *machine, unsigned entry, Word word) {
    (void)machine;
    program.table[entry] = word;
}

#else

/* Own entries */

void machine_open_directory(unsigned places) {
    if (!memory_new(REGISTER_SCRATCH, places, 0)) fault((Position){0}, "the heap is full");
    memory_store(REGISTER_TABLE, DIRECTORY, REGISTER_SCRATCH);
    if (!memory_new(REGISTER_SCRATCH, OWN_ENTRIES, 1)) fault((Position){0}, "the heap is full");
    machine_set_own(0, REGISTER_SCRATCH);
}

void machine_load_own(unsigned dest, unsigned place) {
    memory_load(dest, REGISTER_TABLE, DIRECTORY);
    memory_load(dest, dest, place);
}

void machine_set_own(unsigned place, unsigned source) {
    const unsigned by = source == REGISTER_NIL ? REGISTER_SCRATCH : REGISTER_NIL;
    memory_load(by, REGISTER_TABLE, DIRECTORY);
    memory_store(by, place, source);
    memory_nil(by);
}

static void get_own(Machine *machine, unsigned dest, unsigned entry) {
    machine->word[dest] = machine->own[entry];
    if (!is_reference(machine->own[entry])) return;
    machine_load_own(dest, machine->place);
    memory_load(dest, dest, entry);
}

static void set_own(Machine *machine, unsigned entry, unsigned source) {
    const bool has_reference = is_reference(machine->word[source]);
    if (has_reference || is_reference(machine->own[entry])) {
        const unsigned by = has_reference && source == REGISTER_SCRATCH ? REGISTER_NIL : REGISTER_SCRATCH;
        machine_load_own(by, machine->place);
        memory_store(by, entry, has_reference ? source : REGISTER_NIL);
        memory_nil(by);
    }
    machine->own[entry] = machine->word[source];
}

/* Shared entries */

static Word word_of(unsigned entry) { return __atomic_load_n(&program.table[entry], __ATOMIC_SEQ_CST); }

/* An entry's word becomes another one, if it is still what it was. */
static bool exchange(unsigned entry, Word old, Word word) {
    return __atomic_compare_exchange_n(&program.table[entry], &old, word, false, __ATOMIC_SEQ_CST, __ATOMIC_SEQ_CST);
}

static void store_reference(unsigned entry, unsigned source) {
    unsigned index;
    const unsigned part = find_entry(entry, source == REGISTER_SCRATCH ? REGISTER_NIL : REGISTER_SCRATCH, &index);
    memory_store(part, index, source);
    memory_nil(part);
}

bool machine_get_entry(Machine *machine, unsigned dest, unsigned entry) {
    unsigned index;
    if (entry < OWN_ENTRIES) {
        get_own(machine, dest, entry);
        return true;
    }
    Word word = word_of(entry);
    if (is_reference(word) || word == CHANGED) {
        const unsigned part = find_entry(entry, dest, &index);
        memory_load(dest, part, index);
        word = word_of(entry); /* if it isn't CHANGED now, the reference wasn't either */
        Word head;
        if (word == CHANGED && memory_first(dest, &head)) word = head_value(head);
    }
    machine->word[dest] = word;
    return word != UNDEFINED && word != CLAIMED;
}

bool machine_is_defined(unsigned entry) { return entry < OWN_ENTRIES || (word_of(entry) != UNDEFINED && word_of(entry) != CLAIMED); }

/* The first definition of an entry: others find it undefined until it is done. Whether this was the first. */
static bool define_first(const Machine *machine, unsigned entry, unsigned source) {
    if (!exchange(entry, UNDEFINED, CLAIMED)) return false;
    store_reference(entry, source);
    __atomic_store_n(&program.table[entry], machine->word[source], __ATOMIC_SEQ_CST);
    return true;
}

static void set_reference(Machine *machine, unsigned entry, unsigned source) {
    Word old = word_of(entry);
    if (old == UNDEFINED && define_first(machine, entry, source)) return;
    old = word_of(entry);
    if (old == CLAIMED) return; /* the definition that goes on comes after this one */
    while (is_reference(old) && !exchange(entry, old, CHANGED)) old = word_of(entry);
    store_reference(entry, source);
    while (old != CHANGED && !is_reference(old) && !exchange(entry, old, CHANGED)) old = word_of(entry);
}

void machine_set_entry(Machine *machine, unsigned entry, unsigned source) {
    const Word word = machine->word[source];
    unsigned index;
    if (entry < OWN_ENTRIES) {
        set_own(machine, entry, source);
        return;
    }
    if (is_alone()) {
        if (is_reference(word) || is_reference(word_of(entry))) store_reference(entry, machine_source(machine, source));
        __atomic_store_n(&program.table[entry], word, __ATOMIC_SEQ_CST);
        return;
    }
    if (is_reference(word)) {
        set_reference(machine, entry, source);
        return;
    }
    for (;;) {
        const Word old = word_of(entry);
        if (old == CLAIMED) return;
        if (old == CHANGED || is_reference(old)) {
            if (old != CHANGED && !exchange(entry, old, CHANGED)) continue;
            const unsigned part = find_entry(entry, REGISTER_SCRATCH, &index);
            machine_store_boxed(machine, field_of(part, index), word);
            memory_nil(part);
            return;
        }
        if (exchange(entry, old, word)) return;
    }
}

void machine_define(Machine *machine, unsigned entry, Word word) {
    if (entry < OWN_ENTRIES) {
        machine->own[entry] = word;
    } else {
        __atomic_store_n(&program.table[entry], word, __ATOMIC_SEQ_CST);
    }
}

#endif
