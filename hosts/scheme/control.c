/*
 * Several values, continuations, faults and the end. SPDX: MIT OR Apache-2.0
 *
 * Several values are one value, whose reference is that of a list of them, or, where an object says which value it is, of another first
 * pair. What `dynamic-wind` and handlers of exceptions need is the prelude's: a list, the dynamic state, which a global holds and
 * continuations keep.
 */
#include "primitives.h"

enum { COLUMN_BITS = 29 };

/* A register becomes what another one holds, as a value with another word: a list as several values, or these as a list. */
static void retell(Machine *machine, unsigned dest, unsigned source, Word word) {
    if (!HEAD_WORDS) {
        machine_move(machine, dest, source);
        machine_set(machine, dest, word);
        return;
    }
    machine_new(machine, REGISTER_NIL, 2, 2 + HEAD_WORDS); /* is nil again below */
    machine_head(REGISTER_NIL, word);
    for (unsigned field = 0; field < 2; field++) {
        machine_load(machine, REGISTER_SCRATCH, source, field);
        machine_begin(machine, REGISTER_NIL, field, REGISTER_SCRATCH);
    }
    memory_move(dest, REGISTER_NIL);
    memory_nil(REGISTER_NIL);
    machine_set(machine, dest, word);
}

void values_of_list(Machine *machine, unsigned dest, unsigned list) {
    const Word word = machine->word[list];
    if (word != PAIR) {
        machine_set(machine, dest, NO_VALUES);
    } else if (machine_peek(machine, list, 1) == EMPTY_LIST) {
        machine_load(machine, dest, list, 0);
    } else {
        retell(machine, dest, list, VALUES);
    }
}

void values_of(Machine *machine, unsigned dest, unsigned list, unsigned unused, unsigned unused_too) {
    (void)unused;
    (void)unused_too;
    values_of_list(machine, dest, list);
}

void list_of_values(Machine *machine, unsigned dest, unsigned values, unsigned unused, unsigned unused_too) {
    (void)unused;
    (void)unused_too;
    const Word word = machine->word[values];
    if (word == NO_VALUES) {
        machine_set(machine, dest, EMPTY_LIST);
    } else if (word == VALUES) {
        retell(machine, dest, values, PAIR);
    } else {
        machine_make_empty(machine, REGISTER_SCRATCH, PAIR, 2);
        machine_begin(machine, REGISTER_SCRATCH, 0, values);
        memory_put(REGISTER_SCRATCH, 1 + HEAD_WORDS, EMPTY_LIST);
        machine_move(machine, dest, REGISTER_SCRATCH);
    }
}

void continuation_state(Machine *machine, unsigned dest, unsigned continuation, unsigned unused, unsigned unused_too) {
    (void)unused;
    (void)unused_too;
    if (machine->word[continuation] == CONTINUATION) {
        machine_set(machine, dest, EMPTY_LIST);
    } else {
        machine_load_fixed(machine, dest, continuation, 1);
    }
}

Word position_word(Position at) { return integer((int64_t)at.line << COLUMN_BITS | (int64_t)(at.column & ((1u << COLUMN_BITS) - 1))); }

void position(Machine *machine, unsigned dest, unsigned unused, unsigned unused_too, unsigned unused_as_well) {
    (void)unused;
    (void)unused_too;
    (void)unused_as_well;
    machine_set(machine, dest, position_word(machine_position(machine)));
}

/* A fault of the program begins: what is written from now on tells it. */
void begin_fault(Machine *machine, unsigned dest, unsigned at, unsigned unused, unsigned unused_too) {
    (void)dest;
    (void)unused;
    (void)unused_too;
    const int64_t where = number(machine->word[at]);
    fault_begin((Position){.line = (uint32_t)(where >> COLUMN_BITS), .column = (uint32_t)(where & ((1 << COLUMN_BITS) - 1))});
    machine->output = stderr;
#ifdef THREADS
    machine->is_busy = true;
#endif
}

void end_fault(Machine *machine, unsigned dest, unsigned unused, unsigned unused_too, unsigned unused_as_well) {
    (void)machine;
    (void)dest;
    (void)unused;
    (void)unused_too;
    (void)unused_as_well;
    fault_end();
}

void leave(Machine *machine, unsigned dest, unsigned status, unsigned unused, unsigned unused_too) {
    (void)dest;
    (void)unused;
    (void)unused_too;
    machine->exit_status = (int)want_index(machine, "exit", machine->word[status], 256);
}
