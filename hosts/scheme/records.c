/*
 * Records. SPDX: MIT OR Apache-2.0
 *
 * The type of a record stands in its word, so that a test of it asks nothing of the heap. Which field is meant is told by an integer, which
 * has the type too.
 */
#include "primitives.h"

void record_new(Machine *machine, unsigned dest, unsigned field, unsigned unused, unsigned unused_too) {
    (void)unused;
    (void)unused_too;
    const unsigned type = (unsigned)(number(machine->word[field]) / RECORD_FIELDS_MOST);
    const unsigned fields = PUBLISHED(program.records)[type].fields;
    uint32_t sources[OBJECT_MOST];
    Word data[OBJECT_MOST];
    for (unsigned i = 0; i < fields; i++) {
        sources[i] = REGISTER_NIL;
        data[i] = FALSE;
    }
    machine_make(machine, dest, REFERENCE(KIND_RECORD, type), sources, data, fields);
}

/* The procedure that runs is the accessor or the modifier, whose name a fault has. */
static unsigned want_field(const Machine *machine, unsigned record, unsigned field) {
    const int64_t wanted = number(machine->word[field]);
    const int64_t type = wanted / RECORD_FIELDS_MOST;
    if (machine->word[record] == REFERENCE(KIND_RECORD, type)) return (unsigned)(wanted % RECORD_FIELDS_MOST);
    const Symbol name = PUBLISHED(program.codes)[payload(machine->word[machine->window + OWN_PROCEDURE])].name;
    machine_fault(machine, "%s: not of type %s", symbol_name(name), symbol_name(PUBLISHED(program.records)[type].name));
}

void record_ref(Machine *machine, unsigned dest, unsigned record, unsigned field, unsigned unused) {
    (void)unused;
    machine_load(machine, dest, record, want_field(machine, record, field));
}

void record_set(Machine *machine, unsigned dest, unsigned record, unsigned field, unsigned value) {
    (void)dest;
    machine_store(machine, record, want_field(machine, record, field), value);
}
