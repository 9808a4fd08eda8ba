/*
 * A procedure that is compiled: its instructions, the registers of its window, and what these are known to have. SPDX: MIT OR Apache-2.0
 *
 * What a register has of a pair is known from the instruction that read it on, as long as its registers stay taken, and nothing is called
 * or changes a pair. Where several ways meet, that is known which is on each of them. So a program that tests a field and then uses it
 * reads it once; another thread may change it between, but might as well have done so after both.
 */
#include "unit.h"
#include "arena.h"
#include <string.h>

Unit unit_begin(Machine *machine, Unit *outer, const Variable *self, Position at) {
    return (Unit){.machine = machine, .outer = outer, .self = self, .at = at, .busy = bit(OWN_PROCEDURE), .most = OWN_ARGUMENT};
}

unsigned unit_end(const Unit *unit, Symbol name, unsigned parameters, bool has_rest) {
    const size_t entry = program.instruction_count;
    for (size_t i = 0; i < unit->count; i++) machine_add_instruction(unit->instructions[i], unit->sites[i]);
    return machine_add_code((Code){.entry = entry, .parameters = parameters, .has_rest = has_rest, .registers = unit->most, .name = name});
}

static void *grown(void *old, size_t count, size_t room, size_t size) {
    void *const array = arena_take(room * size);
    return count ? memcpy(array, old, count * size) : array;
}

/* What an instruction changes isn't known any more; a call may change all. */
static void forget_changed(Unit *unit, Opcode op) {
    Knowledge *const known = &unit->known;
    unsigned kept = 0;
    for (unsigned i = 0; i < known->count; i++) {
        const Opcode read = known->items[i].op;
        const bool is_changed =
            op == OP_CALL || op == OP_APPLY || (op == OP_SET_CAR && read == OP_CAR) || (op == OP_SET_CDR && read == OP_CDR);
        if (!is_changed) known->items[kept++] = known->items[i];
    }
    known->count = kept;
}

size_t emit_with(Unit *unit, Registers needed, Opcode op, unsigned a, unsigned b, unsigned c, int64_t n) {
    if (unit->count == unit->room) {
        const size_t room = unit->room ? 2 * unit->room : 32;
        unit->instructions = grown(unit->instructions, unit->count, room, sizeof *unit->instructions);
        unit->sites = grown(unit->sites, unit->count, room, sizeof *unit->sites);
        unit->room = room;
    }
    forget_changed(unit, op);
    unit->instructions[unit->count] = (Instruction){.op = (uint8_t)op, .a = (uint8_t)a, .b = (uint8_t)b, .c = (uint8_t)c, .n = (int32_t)n};
    unit->sites[unit->count] = (Site){.at = unit->at, .needed = needed | known_registers(unit)};
    return unit->count++;
}

size_t emit(Unit *unit, Opcode op, unsigned a, unsigned b, unsigned c, int64_t n) { return emit_with(unit, 0, op, a, b, c, n); }

/* Jumps */

/* What is known where two ways meet. */
static void meet(Knowledge *known, const Knowledge *other) {
    unsigned kept = 0;
    for (unsigned i = 0; i < known->count; i++) {
        const Known item = known->items[i];
        bool is_in_both = false;
        for (unsigned k = 0; k < other->count; k++) {
            const Known also = other->items[k];
            is_in_both = is_in_both || (also.op == item.op && also.of == item.of && also.place == item.place);
        }
        if (is_in_both) known->items[kept++] = item;
    }
    known->count = kept;
}

void jump_later(Unit *unit, Jumps *jumps, size_t from) {
    if (jumps->count == jumps->room) {
        const size_t room = jumps->room ? 2 * jumps->room : 8;
        jumps->from = grown(jumps->from, jumps->count, room, sizeof *jumps->from);
        jumps->room = room;
    }
    if (jumps->count) {
        meet(&jumps->known, &unit->known);
    } else {
        jumps->known = unit->known;
    }
    jumps->from[jumps->count++] = from;
}

void land(Unit *unit, const Jumps *jumps, bool is_reached) {
    for (size_t i = 0; i < jumps->count; i++) unit->instructions[jumps->from[i]].n = (int32_t)(unit->count - jumps->from[i] - 1);
    if (is_reached && jumps->count) {
        meet(&unit->known, &jumps->known);
    } else if (!is_reached) {
        unit->known = jumps->known; /* nothing, where nobody comes here */
    }
    unit->busy |= known_registers(unit);
}

/* Registers */

void want_window(Unit *unit, unsigned registers) {
    if (registers > WINDOW_REGISTERS) fault(unit->at, "this takes too many registers");
    if (registers > unit->most) unit->most = registers;
}

unsigned take_register(Unit *unit, unsigned wanted) {
    const bool is_free = wanted < WINDOW_REGISTERS && !(unit->busy & bit(wanted));
    const unsigned place = is_free ? wanted : top_of(unit);
    want_window(unit, place + 1);
    unit->busy |= bit(place);
    return place;
}

unsigned take_any(Unit *unit) { return take_register(unit, NOWHERE); }

static Registers registers_of_known(Known known) { return bit(known.place) | (known.op == OP_CAPTURED ? 0 : bit(known.of)); }

void give_back(Unit *unit, Registers busy) {
    Knowledge *const known = &unit->known;
    unsigned kept = 0;
    for (unsigned i = 0; i < known->count; i++) {
        if (!(registers_of_known(known->items[i]) & ~busy)) known->items[kept++] = known->items[i];
    }
    known->count = kept;
    unit->busy = busy;
}

/* What registers have */

unsigned recall(const Unit *unit, Opcode op, unsigned of) {
    for (unsigned i = 0; i < unit->known.count; i++) {
        const Known known = unit->known.items[i];
        if (known.op == op && known.of == of) return known.place;
    }
    return NOWHERE;
}

void remember(Unit *unit, Known known) {
    if (unit->known.count < KNOWN_MOST) unit->known.items[unit->known.count++] = known;
}

void forget_all(Unit *unit) { unit->known.count = 0; }

Registers known_registers(const Unit *unit) {
    Registers registers = 0;
    for (unsigned i = 0; i < unit->known.count; i++) registers |= registers_of_known(unit->known.items[i]);
    return registers;
}

/* Variables */

void bind(Unit *unit, Variable *variable, unsigned place) {
    variable->owner = unit;
    variable->place = place;
}

void bind_slots(Unit *unit, Variable **variables, unsigned count, unsigned place) {
    Variable *const slots = arena_take(sizeof *slots);
    slots->has_slots = true;
    bind(unit, slots, place);
    for (unsigned i = 0; i < count; i++) {
        variables[i]->slots = slots;
        variables[i]->slot = i;
    }
}

void bind_value(Unit *unit, Variable *variable, unsigned place) {
    bind(unit, variable, place);
    if (!variable->is_assigned) return;
    emit_with(unit, unit->busy, OP_BOX, place, 0, 0, 0);
    bind_slots(unit, &variable, 1, place);
}

/* The register of a captured variable's copy, or NOWHERE. */
static unsigned copy_of(const Unit *unit, const Variable *variable) {
    for (unsigned i = 0; i < unit->copy_count; i++) {
        if (unit->copies[i].variable == variable) return unit->copies[i].place;
    }
    return NOWHERE;
}

unsigned place_of(const Unit *unit, const Variable *variable) {
    if (variable == unit->self) return OWN_PROCEDURE;
    if (variable->slots) return NOWHERE;
    return variable->owner == unit ? variable->place : copy_of(unit, variable);
}

unsigned captured_as(const Unit *unit, const Variable *variable) {
    for (unsigned i = 0; i < unit->captured_count; i++) {
        if (unit->captured[i] == variable) return i;
    }
    return NOWHERE;
}

unsigned capture(Unit *unit, Variable *variable) {
    const unsigned captured = captured_as(unit, variable);
    if (captured != NOWHERE) return captured;
    if (unit->captured_count == unit->captured_room) {
        const unsigned room = unit->captured_room ? 2 * unit->captured_room : 8;
        unit->captured = grown(unit->captured, unit->captured_count, room, sizeof(Variable *));
        unit->captured_room = room;
    }
    if (unit->captured_count == UINT8_MAX) fault(unit->at, "a procedure uses more than %d variables around it", UINT8_MAX);
    unit->captured[unit->captured_count] = variable;
    return unit->captured_count++;
}

void load_variable(Unit *unit, Variable *variable, unsigned dest) {
    const unsigned place = place_of(unit, variable);
    if (place != NOWHERE) {
        if (place != dest) emit(unit, OP_MOVE, dest, place, 0, 0);
    } else if (variable->slots) {
        unsigned slots = place_of(unit, variable->slots);
        if (slots == NOWHERE) load_variable(unit, variable->slots, slots = dest);
        emit(unit, OP_SLOT_GET, dest, slots, 0, variable->slot);
    } else {
        emit(unit, OP_CAPTURED, dest, variable->has_slots, 0, capture(unit, variable));
    }
}

Registers live_variable(const Unit *unit, const Variable *variable) {
    if (variable->slots) return live_variable(unit, variable->slots);
    if (!variable->owner) return 0;
    if (variable->owner == unit) return bit(variable->place);
    const unsigned copy = copy_of(unit, variable);
    return bit(copy == NOWHERE ? OWN_PROCEDURE : copy);
}

Registers registers_of(const Unit *unit, const Node *node) {
    Registers registers = node->variable ? live_variable(unit, node->variable) : 0;
    for (unsigned i = 0; i < node->count; i++) registers |= registers_of(unit, node->nodes[i]);
    return registers;
}
