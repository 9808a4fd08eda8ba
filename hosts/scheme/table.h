/*
 * The table: globals, and constants with a reference. SPDX: MIT OR Apache-2.0
 */
#ifndef TABLE_H
#define TABLE_H

#include "machine.h"

/* A new entry, which is undefined. */
unsigned machine_add_entry(Symbol name);

/* The word of an entry that all threads have; of another one no value's. */
static inline Word machine_entry_word(unsigned entry) {
#ifdef THREADS
    return entry < OWN_ENTRIES ? UNDEFINED : __atomic_load_n(&program.table[entry], __ATOMIC_SEQ_CST);
#else
    return program.table[entry];
#endif
}

/* A register becomes an entry; whether that is defined. */
bool machine_get_entry(Machine *machine, unsigned dest, unsigned entry);
bool machine_is_defined(unsigned entry);

/* An entry becomes what a register holds. */
void machine_set_entry(Machine *machine, unsigned entry, unsigned source);

/* An entry that has no reference becomes a word without one. */
void machine_define(Machine *machine, unsigned entry, Word word);

#ifdef THREADS
/* There is a directory with so many places, and own entries at the first. */
void machine_open_directory(unsigned places);

/* A register holds what the own entries of the thread at a place refer to, or is nil where no thread is there. */
void machine_load_own(unsigned dest, unsigned place);

/* The thread at a place has own entries, which the object in a register holds; or it has none any more. */
void machine_set_own(unsigned place, unsigned source);
#endif

#endif
