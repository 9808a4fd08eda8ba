/*
 * A procedure that is compiled: its instructions, the registers of its window, and what these are known to have. SPDX: MIT OR Apache-2.0
 */
#ifndef UNIT_H
#define UNIT_H

#include "syntax.h"

enum {
    NOWHERE = 256, /* no register; as a destination: the value isn't needed */
    CALLER,        /* a destination: the value is returned */
    KNOWN_MOST = 16,
    COPIES_MOST = 8
};

/* A register has what an instruction read: a pair's field (`of` is the register that has the pair), or a captured variable (its number). */
typedef struct known {
    Opcode op;
    unsigned of, place;
    bool is_spare; /* the register was taken for this alone */
} Known;

typedef struct knowledge {
    Known items[KNOWN_MOST];
    unsigned count;
} Knowledge;

/* A captured variable that stands in a register besides, while a loop runs. */
typedef struct copy {
    const Variable *variable;
    unsigned place;
} Copy;

typedef struct unit {
    Machine *machine;
    struct unit *outer;
    const Variable *self; /* the variable whose value the procedure is, or null */
    Variable **captured;
    unsigned captured_count, captured_room;
    Instruction *instructions;
    Site *sites;
    size_t count, room;
    Registers busy;  /* the registers that are taken */
    unsigned most;   /* how many were at once */
    Knowledge known; /* what is known where the next instruction stands */
    Copy copies[COPIES_MOST];
    unsigned copy_count;
    Position at;
} Unit;

/* Instructions whose jump goes to where isn't known yet, and what is known at each of them. */
typedef struct jumps {
    size_t *from;
    size_t count, room;
    Knowledge known;
} Jumps;

Unit unit_begin(Machine *machine, Unit *outer, const Variable *self, Position at);

/* The code of a procedure goes to the machine. */
unsigned unit_end(const Unit *unit, Symbol name, unsigned parameters, bool has_rest);

/* Adds an instruction; and one that calls or makes something, with the registers that it or what comes after it needs. */
size_t emit(Unit *unit, Opcode op, unsigned a, unsigned b, unsigned c, int64_t n);
size_t emit_with(Unit *unit, Registers needed, Opcode op, unsigned a, unsigned b, unsigned c, int64_t n);

void jump_later(Unit *unit, Jumps *jumps, size_t from);

/* The jumps go to the next instruction. Whether the one before goes on there too. */
void land(Unit *unit, const Jumps *jumps, bool is_reached);

/* Registers: they are taken one behind the other, and given back together. */

static inline Registers bit(unsigned place) { return place < WINDOW_REGISTERS ? (Registers)1 << place : 0; }

/* All registers from here on are free. The first one never is, as the procedure stands there. */
static inline unsigned top_of(const Unit *unit) { return 64 - (unsigned)__builtin_clzll(unit->busy); }

static inline unsigned free_count(const Unit *unit) { return WINDOW_REGISTERS - top_of(unit); }

/* The window has so many registers at least. */
void want_window(Unit *unit, unsigned registers);

/* A free register, the wanted one where it is free; else the first behind all that are taken. */
unsigned take_register(Unit *unit, unsigned wanted);
unsigned take_any(Unit *unit);

/* These registers are taken, and no others. */
void give_back(Unit *unit, Registers busy);

/* What registers have */

/* A register that has a pair's field, or a captured variable, or NOWHERE. */
unsigned recall(const Unit *unit, Opcode op, unsigned of);
void remember(Unit *unit, Known known);
void forget_all(Unit *unit);

/* All registers that have something known, or of whose pairs a field is. */
Registers known_registers(const Unit *unit);

/* Variables */

void bind(Unit *unit, Variable *variable, unsigned place);

/* Variables stand in slots of what a register holds. */
void bind_slots(Unit *unit, Variable **variables, unsigned count, unsigned place);

/* A variable has the value that a register holds; where it is assigned, that goes into a slot. */
void bind_value(Unit *unit, Variable *variable, unsigned place);

/* The register in which a variable stands, or NOWHERE. */
unsigned place_of(const Unit *unit, const Variable *variable);

/* The number of a captured variable, or NOWHERE; and the same of one that is captured from here on. */
unsigned captured_as(const Unit *unit, const Variable *variable);
unsigned capture(Unit *unit, Variable *variable);

/* A register becomes a variable's value. */
void load_variable(Unit *unit, Variable *variable, unsigned dest);

/* The registers that a variable, or a node, reads, of those whose variables are bound. */
Registers live_variable(const Unit *unit, const Variable *variable);
Registers registers_of(const Unit *unit, const Node *node);

#endif
