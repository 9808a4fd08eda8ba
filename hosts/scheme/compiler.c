/*
 * The compiler: from a tree of expressions to instructions. SPDX: MIT OR Apache-2.0
 *
 * A procedure's variables stand in its window, in registers from their binding to the end of its scope, and what an expression is made of
 * behind them: registers are taken and given back as those of a stack. So what a call needs, its procedure and its arguments, is computed
 * into the last registers, where the callee's window begins, and nothing is moved. A procedure captures the values of the variables around
 * it when it is made; a variable that is assigned stands in a slot, which is captured in its place. Sets of registers are bits of a number.
 * What is compiled knows which registers are needed after it (`live`), so that a frame has these alone, and a pause keeps these alone.
 *
 * Where too few registers are left, an expression becomes a procedure without parameters, and is called at once: what it uses is captured.
 */
#include "compiler.h"
#include "arena.h"
#include "unit.h"

enum {
    MOVES_MOST = ARGUMENTS_MOST + 1,
    LETREC_REGISTERS = 4, /* so many variables of a letrec stand in registers; where there are more, all stand in slots */
    OUTSIDE = 2,          /* registers that it takes to make a procedure of an expression */
    SPARE = 3,            /* registers that are left free after a binding */
    PLENTY = 8            /* registers that are free where what was read stays in one */
};

/* A register that gets a value: of a node, or of another register once the node is computed. */
typedef struct move {
    Node *node;
    unsigned target, source;
    bool is_computed, is_done;
} Move;

static void compile_to(Unit *unit, Node *node, unsigned dest, Registers live);

/* Operands */

static bool is_field(const Node *node) {
    return node->kind == NODE_PRIMITIVE && (node->primitive->op == OP_CAR || node->primitive->op == OP_CDR);
}

/* The operand of a node that needs no instruction, or NOWHERE. */
static unsigned ready_operand(Unit *unit, const Node *node) {
    if (node->kind == NODE_LOCAL) {
        const unsigned place = place_of(unit, node->variable);
        return place == NOWHERE ? recall(unit, OP_CAPTURED, captured_as(unit, node->variable)) : place;
    }
    if (is_field(node)) {
        const unsigned of = ready_operand(unit, node->nodes[0]);
        return of < WINDOW_REGISTERS ? recall(unit, node->primitive->op, of) : NOWHERE;
    }
    if (node->kind != NODE_WORD) return NOWHERE;
    const unsigned constant = machine_constant(unit->machine, node->word);
    return constant ? constant : NOWHERE;
}

static unsigned operand(Unit *unit, Node *node, Registers live);

/* A field, or a captured variable, goes into a register, and is known to be there. */
static unsigned remembered_operand(Unit *unit, Node *node, Registers live) {
    const bool is_pair = is_field(node);
    const Opcode op = is_pair ? node->primitive->op : OP_CAPTURED;
    const unsigned of = is_pair ? operand(unit, node->nodes[0], live) : capture(unit, node->variable);
    const unsigned place = take_any(unit);
    unit->at = node->at;
    emit(unit, op, place, is_pair ? of : 0, 0, is_pair ? 0 : of);
    if (!is_pair || of < WINDOW_REGISTERS) remember(unit, (Known){.op = op, .of = of, .place = place, .is_spare = true});
    return place;
}

static unsigned operand(Unit *unit, Node *node, Registers live) {
    const unsigned ready = ready_operand(unit, node);
    const bool is_captured = node->kind == NODE_LOCAL && !node->variable->slots;
    if (ready != NOWHERE) return ready;
    if ((is_field(node) || is_captured) && free_count(unit) > PLENTY) return remembered_operand(unit, node, live);
    const unsigned place = take_any(unit);
    compile_to(unit, node, place, live);
    return place;
}

/* All operands of a node. Answers the registers among them. */
static Registers operands(Unit *unit, Node *node, Registers live, unsigned *places) {
    Registers taken = 0;
    for (unsigned i = 0; i < node->count; i++) {
        Registers needed = live | taken;
        for (unsigned k = i + 1; k < node->count; k++) needed |= registers_of(unit, node->nodes[k]);
        places[i] = operand(unit, node->nodes[i], needed);
        taken |= bit(places[i]);
    }
    return taken;
}

/* Where the last instruction writes what goes to a destination. */
static unsigned written(Unit *unit, unsigned dest) {
    if (dest == CALLER) return OWN_PROCEDURE;
    if (dest != NOWHERE) return dest;
    want_window(unit, top_of(unit) + 1);
    return top_of(unit);
}

/* What an operand holds goes to a destination. */
static void deliver(Unit *unit, unsigned dest, unsigned place) {
    if (dest == CALLER) emit(unit, OP_RETURN, place, 0, 0, 0);
    if (dest < NOWHERE && dest != place) emit(unit, OP_MOVE, dest, place, 0, 0);
}

static void deliver_word(Unit *unit, unsigned dest, Word word) {
    if (dest == NOWHERE) return;
    unsigned place = machine_constant(unit->machine, word);
    if (!place) emit(unit, OP_WORD, place = written(unit, dest), 0, 0, (int64_t)machine_add_word(word));
    deliver(unit, dest, place);
}

/* Tests */

static bool is_constant(const Node *node, Word word) { return node->kind == NODE_WORD && node->word == word; }

/* A primitive whose value is true or false. */
static bool is_test(const Node *node) { return node->kind == NODE_PRIMITIVE && node->primitive->shape == SHAPE_TEST; }

static bool is_not(const Node *node) {
    return node->kind == NODE_PRIMITIVE && node->primitive->op == OP_SAME && node->count == 2 && is_constant(node->nodes[1], FALSE);
}

/* Goes on where the value of a node isn't false, and else jumps. */
static void compile_test(Unit *unit, Node *node, Registers live, Jumps *fails);

static void compile_test_primitive(Unit *unit, Node *node, Registers live, Jumps *fails) {
    unsigned places[2] = {0};
    const Registers busy = unit->busy;
    operands(unit, node, live, places);
    unit->at = node->at;
    const unsigned second = node->primitive->op == OP_IS ? (unsigned)node->primitive->kind : places[1];
    jump_later(unit, fails, emit(unit, node->primitive->op, places[0], second, 0, 0));
    give_back(unit, busy | known_registers(unit));
}

/* What is tested where another test ended this way or that: `fails` of the first jump here. */
static void compile_test_either(Unit *unit, Node *node, Jumps *before, Registers live, Jumps *fails) {
    Jumps end = {0};
    jump_later(unit, &end, emit(unit, OP_JUMP, 0, 0, 0, 0));
    land(unit, before, false);
    compile_test(unit, node, live, fails);
    land(unit, &end, true);
}

static void compile_test(Unit *unit, Node *node, Registers live, Jumps *fails) {
    Jumps first = {0};
    unit->at = node->at;
    if (is_constant(node, FALSE)) {
        jump_later(unit, fails, emit(unit, OP_JUMP, 0, 0, 0, 0));
    } else if (node->kind == NODE_WORD) {
        return;
    } else if (is_not(node)) {
        compile_test(unit, node->nodes[0], live, &first);
        jump_later(unit, fails, emit(unit, OP_JUMP, 0, 0, 0, 0));
        land(unit, &first, false);
    } else if (is_test(node)) {
        compile_test_primitive(unit, node, live, fails);
    } else if (node->kind == NODE_IF && is_constant(node->nodes[2], FALSE)) {
        compile_test(unit, node->nodes[0], live | registers_of(unit, node->nodes[1]), fails);
        compile_test(unit, node->nodes[1], live, fails);
    } else if (node->kind == NODE_IF) {
        compile_test(unit, node->nodes[0], live | registers_of(unit, node->nodes[1]) | registers_of(unit, node->nodes[2]), &first);
        compile_test(unit, node->nodes[1], live, fails);
        compile_test_either(unit, node->nodes[2], &first, live, fails);
    } else if (node->kind == NODE_OR) {
        compile_test(unit, node->nodes[0], live | registers_of(unit, node->nodes[1]), &first);
        compile_test_either(unit, node->nodes[1], &first, live, fails);
    } else {
        const Registers busy = unit->busy;
        const unsigned place = operand(unit, node, live);
        jump_later(unit, fails, emit(unit, OP_UNLESS, place, 0, 0, 0));
        give_back(unit, busy | known_registers(unit));
    }
}

static void compile_if(Unit *unit, Node *node, unsigned dest, Registers live) {
    Jumps otherwise = {0}, end = {0};
    compile_test(unit, node->nodes[0], live | registers_of(unit, node->nodes[1]) | registers_of(unit, node->nodes[2]), &otherwise);
    compile_to(unit, node->nodes[1], dest, live);
    if (dest != CALLER) jump_later(unit, &end, emit(unit, OP_JUMP, 0, 0, 0, 0));
    land(unit, &otherwise, false);
    compile_to(unit, node->nodes[2], dest, live);
    land(unit, &end, true);
}

static void compile_or(Unit *unit, Node *node, unsigned dest, Registers live) {
    const Registers needed = live | registers_of(unit, node->nodes[1]);
    Jumps otherwise = {0}, end = {0};
    if (is_test(node->nodes[0])) {
        compile_test(unit, node->nodes[0], needed, &otherwise);
        deliver_word(unit, dest, TRUE);
    } else {
        const unsigned place = operand(unit, node->nodes[0], needed);
        jump_later(unit, &otherwise, emit(unit, OP_UNLESS, place, 0, 0, 0));
        deliver(unit, dest, place);
    }
    if (dest != CALLER) jump_later(unit, &end, emit(unit, OP_JUMP, 0, 0, 0, 0));
    land(unit, &otherwise, false);
    compile_to(unit, node->nodes[1], dest, live);
    land(unit, &end, true);
}

/* Primitives and lists */

static void compile_truth(Unit *unit, Node *node, unsigned dest, Registers live) {
    Jumps otherwise = {0}, end = {0};
    compile_test(unit, node, live, &otherwise);
    deliver_word(unit, dest, TRUE);
    if (dest != CALLER) jump_later(unit, &end, emit(unit, OP_JUMP, 0, 0, 0, 0));
    land(unit, &otherwise, false);
    deliver_word(unit, dest, FALSE);
    land(unit, &end, true);
}

static void compile_primitive(Unit *unit, Node *node, unsigned dest, Registers live) {
    const Primitive *const primitive = node->primitive;
    unsigned places[3] = {0};
    if (primitive->shape == SHAPE_TEST) {
        compile_truth(unit, node, dest, live);
        return;
    }
    const unsigned ready = ready_operand(unit, node);
    if (ready != NOWHERE) {
        deliver(unit, dest, ready);
        return;
    }
    const Registers needed = live | operands(unit, node, live, places);
    const bool is_effect = primitive->shape == SHAPE_EFFECT;
    const unsigned to = is_effect ? OWN_PROCEDURE : written(unit, dest); /* an effect writes nothing */
    unit->at = node->at;
    if (primitive->op == OP_FUNCTION) {
        const int64_t function = (int64_t)(primitive - primitives) | (int64_t)places[2] << 16;
        emit_with(unit, needed, OP_FUNCTION, to, places[0], places[1], function);
    } else if (is_effect) {
        emit_with(unit, needed, primitive->op, places[0], places[1], places[2], 0);
    } else {
        emit_with(unit, needed, primitive->op, to, places[0], places[1], 0);
    }
    if (is_effect) {
        deliver_word(unit, dest, UNSPECIFIED);
    } else {
        deliver(unit, dest, to);
    }
}

/* A list is made from its end on, by turns in two registers. */
static void compile_list(Unit *unit, Node *node, unsigned dest, Registers live) {
    Registers needed = live;
    for (unsigned i = 0; i + 1 < node->count; i++) needed |= registers_of(unit, node->nodes[i]);
    const unsigned pairs[] = {take_any(unit), take_any(unit)};
    unsigned list = ready_operand(unit, node->nodes[node->count - 1]);
    if (list == NOWHERE) compile_to(unit, node->nodes[node->count - 1], list = pairs[1], needed);
    for (unsigned i = node->count - 1; i > 0; i--) {
        const Registers busy = unit->busy;
        needed = live | bit(list);
        for (unsigned k = 0; k + 1 < i; k++) needed |= registers_of(unit, node->nodes[k]);
        const unsigned item = operand(unit, node->nodes[i - 1], needed);
        const unsigned into = i == 1 ? written(unit, dest) : list == pairs[0] ? pairs[1] : pairs[0];
        unit->at = node->at;
        emit_with(unit, needed | bit(item), OP_CONS, into, item, list, 0);
        give_back(unit, busy);
        list = into;
    }
    deliver(unit, dest, list);
}

/* Calls */

/* Whether computing a node calls no procedure and writes its destination last. */
static bool is_simple(const Node *node) {
    switch (node->kind) {
    case NODE_WORD:
    case NODE_TABLE:
    case NODE_LOCAL: return true;
    case NODE_IF:
    case NODE_OR:
    case NODE_PRIMITIVE:
        for (unsigned i = 0; i < node->count; i++) {
            if (!is_simple(node->nodes[i])) return false;
        }
        return true;
    default: return false;
    }
}

/* What the moves that aren't done, but one, still read. */
static Registers read_later(const Unit *unit, const Move *moves, unsigned count, unsigned but) {
    Registers registers = 0;
    for (unsigned i = 0; i < count; i++) {
        if (i == but || moves[i].is_done) continue;
        registers |= moves[i].is_computed ? bit(moves[i].source) : registers_of(unit, moves[i].node);
    }
    return registers;
}

/* What moves that are done have written. */
static Registers written_before(const Move *moves, unsigned count) {
    Registers registers = 0;
    for (unsigned i = 0; i < count; i++) {
        if (moves[i].is_done) registers |= bit(moves[i].target);
    }
    return registers;
}

/* Computes what calls procedures, into registers beside those of variables. */
static void compute_calls(Unit *unit, Move *moves, unsigned count, Registers live) {
    for (unsigned i = 0; i < count; i++) {
        if (is_simple(moves[i].node)) continue;
        moves[i].source = take_register(unit, moves[i].target);
        compile_to(unit, moves[i].node, moves[i].source, live | read_later(unit, moves, count, i));
        moves[i].is_computed = true;
    }
}

static void find_ready(Unit *unit, Move *moves, unsigned count) {
    for (unsigned i = 0; i < count; i++) {
        if (moves[i].is_computed) continue;
        moves[i].source = ready_operand(unit, moves[i].node);
        moves[i].is_computed = moves[i].source != NOWHERE;
    }
}

/* The next move to compute: one whose target nothing else reads, if there is one; `count` where all are computed. */
static unsigned choose_move(const Unit *unit, const Move *moves, unsigned count, bool *is_direct) {
    unsigned chosen = count;
    for (unsigned i = 0; i < count; i++) {
        if (moves[i].is_computed) continue;
        *is_direct = !(read_later(unit, moves, count, i) & bit(moves[i].target));
        if (*is_direct) return i;
        chosen = i;
    }
    return chosen;
}

/* Computes the others straight into their targets, where these aren't read any more. */
static void compute_simple(Unit *unit, Move *moves, unsigned count, Registers live) {
    bool is_direct = false;
    for (unsigned i = choose_move(unit, moves, count, &is_direct); i < count; i = choose_move(unit, moves, count, &is_direct)) {
        const Registers needed = live | read_later(unit, moves, count, i) | written_before(moves, count);
        moves[i].source = is_direct ? moves[i].target : take_any(unit);
        compile_to(unit, moves[i].node, moves[i].source, needed);
        moves[i].is_computed = true;
        moves[i].is_done = is_direct;
    }
}

/* Does the moves from register to register: each once nothing reads its target; what goes round has one of its registers moved aside. */
static void move_registers(Unit *unit, Move *moves, unsigned count) {
    unsigned aside = NOWHERE;
    for (;;) {
        unsigned waits = count;
        bool has_moved = false;
        for (unsigned i = 0; i < count; i++) {
            if (moves[i].is_done) continue;
            if (moves[i].source == moves[i].target) {
                moves[i].is_done = true;
            } else if (read_later(unit, moves, count, i) & bit(moves[i].target)) {
                waits = i;
                continue;
            } else {
                emit(unit, OP_MOVE, moves[i].target, moves[i].source, 0, 0);
                moves[i].is_done = true;
            }
            has_moved = true;
        }
        if (waits == count) return;
        if (has_moved) continue;
        if (aside == NOWHERE) aside = take_any(unit);
        emit(unit, OP_MOVE, aside, moves[waits].target, 0, 0);
        for (unsigned i = 0; i < count; i++) {
            if (!moves[i].is_done && moves[i].source == moves[waits].target) moves[i].source = aside;
        }
    }
}

static void compute_moves(Unit *unit, Move *moves, unsigned count, Registers live) {
    for (unsigned i = 0; i < count; i++) unit->busy |= bit(moves[i].target); /* what is computed aside is so behind these */
    find_ready(unit, moves, count);
    compute_simple(unit, moves, count, live);
    move_registers(unit, moves, count);
    forget_all(unit);
}

/* What a tail call needs stands where the procedure that runs had it. */
static void compile_tail_call(Unit *unit, Node *node) {
    Move moves[MOVES_MOST] = {0};
    for (unsigned i = 0; i < node->count; i++) moves[i] = (Move){.node = node->nodes[i], .target = OWN_PROCEDURE + i};
    want_window(unit, node->count);
    compute_calls(unit, moves, node->count, 0);
    compute_moves(unit, moves, node->count, 0);
    unit->at = node->at;
    emit(unit, node->kind == NODE_APPLY ? OP_TAIL_APPLY : OP_TAIL_CALL, 0, node->count - 1, unit->at.line != 0, 0);
}

/* Whether a register is the last one that is taken, and has nothing yet: the window of what is called begins there. */
static bool is_last(const Unit *unit, const Node *node, unsigned place, Registers live) {
    return place + 1 == top_of(unit) && !((live | registers_of(unit, node)) & bit(place));
}

/* The registers of what is known that a node reads. */
static Registers known_by(Unit *unit, const Node *node) {
    Registers registers = 0;
    for (unsigned i = 0; i < node->count; i++) registers |= known_by(unit, node->nodes[i]);
    if (is_field(node) || node->kind == NODE_LOCAL) {
        const unsigned ready = ready_operand(unit, node);
        if (ready != NOWHERE) registers |= bit(ready);
    }
    return registers;
}

/* A call begins, after which nothing of this is known: what it doesn't read, and nobody else, gives back its register. */
static void forget_unread(Unit *unit, const Node *node, Registers live) {
    Registers unread = 0;
    for (unsigned i = 0; i < unit->known.count; i++) {
        if (unit->known.items[i].is_spare) unread |= bit(unit->known.items[i].place);
    }
    give_back(unit, unit->busy & ~(unread & ~(live | known_by(unit, node))));
}

/* What those nodes read whose bits are set. */
static Registers registers_of_some(const Unit *unit, const Node *node, unsigned which) {
    Registers registers = 0;
    for (unsigned i = 0; i < node->count; i++) {
        if (which >> i & 1) registers |= registers_of(unit, node->nodes[i]);
    }
    return registers;
}

/* A call: what it needs goes into registers one behind the other. First what calls others is computed, each part where no register behind
 * its own is taken yet, so that its own call begins there. */
static void compile_call(Unit *unit, Node *node, unsigned dest, Registers live) {
    const Registers after = live & ~bit(dest);
    forget_unread(unit, node, live);
    const unsigned first = is_last(unit, node, dest, live) ? dest : take_any(unit);
    Registers needed = after;
    unsigned left = ~0u;
    for (unsigned i = 0; i < node->count; i++) {
        if (i) take_any(unit);
        if (is_simple(node->nodes[i])) continue;
        left &= ~(1u << i);
        compile_to(unit, node->nodes[i], first + i, needed | registers_of_some(unit, node, left));
        needed |= bit(first + i);
    }
    for (unsigned i = 0; i < node->count; i++) {
        if (!(left >> i & 1)) continue;
        left &= ~(1u << i);
        compile_to(unit, node->nodes[i], first + i, needed | registers_of_some(unit, node, left));
        needed |= bit(first + i);
    }
    unit->at = node->at;
    emit_with(unit, after, node->kind == NODE_APPLY ? OP_APPLY : OP_CALL, first, node->count - 1, unit->at.line != 0, 0);
    deliver(unit, dest, first);
}

static void compile_any_call(Unit *unit, Node *node, unsigned dest, Registers live) {
    if (dest == CALLER) {
        compile_tail_call(unit, node);
    } else {
        compile_call(unit, node, dest, live);
    }
}

static Registers places_of(const Loop *loop, unsigned count) {
    Registers registers = 0;
    for (unsigned i = 0; i < count; i++) registers |= bit(loop->places[i]);
    return registers;
}

/* The loop's variables get their next values, and it goes on from its start. */
static void compile_again(Unit *unit, Node *node) {
    Move moves[MOVES_MOST] = {0};
    const Loop *const loop = node->loop;
    const unsigned count = node->count - 1;
    for (unsigned i = 0; i < count; i++) moves[i] = (Move){.node = node->nodes[i + 1], .target = loop->places[i]};
    compute_calls(unit, moves, count, loop->live);
    compute_moves(unit, moves, count, loop->live);
    emit_with(unit, loop->live | places_of(loop, count), OP_JUMP, 0, 0, 0, (int64_t)loop->start - (int64_t)unit->count - 1);
}

/* Procedures */

/* The code of a procedure, and in the unit what it captures. */
static unsigned compile_lambda(Unit *outer, Node *node, const Variable *self, Unit *unit) {
    *unit = unit_begin(outer->machine, outer, self, node->at);
    for (unsigned i = 0; i < node->variable_count; i++) bind(unit, node->variables[i], take_any(unit));
    for (unsigned i = 0; i < node->variable_count; i++) bind_value(unit, node->variables[i], OWN_ARGUMENT + i);
    compile_to(unit, node->nodes[0], CALLER, 0);
    return unit_end(unit, node->name, node->variable_count - node->has_rest, node->has_rest);
}

/* What a procedure captures, from some on, is put into it. */
static void put_captured(Unit *unit, const Unit *inner, unsigned place) {
    for (unsigned i = 0; i < inner->captured_count; i++) {
        const Registers busy = unit->busy;
        Variable *const variable = inner->captured[i];
        unsigned source = place_of(unit, variable);
        if (source == NOWHERE) load_variable(unit, variable, source = take_any(unit));
        emit(unit, OP_CLOSURE_PUT, place, source, 0, i);
        give_back(unit, busy);
    }
}

/* A register becomes a procedure, whose captured values are still to be put into it. */
static void make_empty_closure(Unit *unit, const Unit *inner, unsigned code, unsigned place) {
    if (inner->captured_count) {
        emit_with(unit, unit->busy, OP_CLOSURE, place, inner->captured_count, 0, code);
    } else {
        emit(unit, OP_WORD, place, 0, 0, (int64_t)machine_add_word(PLAIN(KIND_PROCEDURE, code)));
    }
}

/* Makes a procedure, at a place if it can be there. What it captures stands in registers first, if these are enough, so that it is made
 * with it. Answers where it is. */
static unsigned make_closure(Unit *unit, const Unit *inner, unsigned code, unsigned wanted) {
    const Registers busy = unit->busy;
    unsigned sources[WINDOW_REGISTERS], count = 0;
    Registers read = 0;
    for (; count < inner->captured_count && free_count(unit) > SPARE; count++) {
        sources[count] = place_of(unit, inner->captured[count]);
        if (sources[count] == NOWHERE) load_variable(unit, inner->captured[count], sources[count] = take_any(unit));
        read |= bit(sources[count]);
    }
    const bool is_whole = count == inner->captured_count;
    if (!is_whole) give_back(unit, busy);
    const unsigned place = is_whole && wanted != NOWHERE && !(read & bit(wanted)) ? wanted : take_any(unit);
    make_empty_closure(unit, inner, code, place);
    if (!is_whole) put_captured(unit, inner, place);
    for (unsigned i = 0; i < count && is_whole; i++) emit(unit, OP_CLOSURE_PUT, place, sources[i], 0, i);
    return place;
}

static void compile_closure(Unit *unit, Node *node, unsigned dest) {
    Unit inner;
    const unsigned code = compile_lambda(unit, node, NULL, &inner);
    unit->at = node->at;
    deliver(unit, dest, make_closure(unit, &inner, code, written(unit, dest)));
}

/* An expression for which too few registers are left becomes a procedure, which is called at once. */
static void compile_outside(Unit *unit, Node *node, unsigned dest, Registers live) {
    const unsigned first = take_any(unit);
    Node lambda = {.kind = NODE_LAMBDA, .at = node->at, .count = 1, .nodes = &node, .name = symbol_of("lambda", 6)};
    Unit inner;
    const unsigned code = compile_lambda(unit, &lambda, NULL, &inner);
    unit->at = node->at;
    make_empty_closure(unit, &inner, code, first);
    put_captured(unit, &inner, first);
    if (dest == CALLER) {
        emit(unit, OP_MOVE, OWN_PROCEDURE, first, 0, 0);
        emit(unit, OP_TAIL_CALL, 0, 0, 0, 0);
    } else {
        emit_with(unit, live & ~bit(dest), OP_CALL, first, 0, 0, 0);
        deliver(unit, dest, first);
    }
}

/* Bindings */

/* First values go to registers, one after another; what `behind` are needed then. */
static void compile_values(Unit *unit, Node *node, unsigned count, Registers behind, unsigned *places) {
    for (unsigned i = 0; i < count; i++) {
        Registers needed = behind;
        for (unsigned k = 0; k < i; k++) needed |= bit(places[k]);
        for (unsigned k = i + 1; k < count; k++) needed |= registers_of(unit, node->nodes[k]);
        places[i] = take_any(unit);
        compile_to(unit, node->nodes[i], places[i], needed);
    }
}

/* A variable that isn't assigned has a field of what a register has. */
static void remember_variable(Unit *unit, const Node *node, const Variable *variable) {
    if (!is_field(node) || variable->is_assigned) return;
    const unsigned of = ready_operand(unit, node->nodes[0]);
    if (of < WINDOW_REGISTERS) remember(unit, (Known){.op = node->primitive->op, .of = of, .place = variable->place});
}

/* Where the variables don't fit into registers together, they are bound one after another: each is another than those around. */
static void compile_let(Unit *unit, Node *node, unsigned dest, Registers live) {
    const unsigned count = node->variable_count;
    unsigned places[WINDOW_REGISTERS];
    if (count > 1 && free_count(unit) < count + SPARE) {
        Node rest = *node;
        rest.nodes++;
        rest.count--;
        rest.variables++;
        rest.variable_count--;
        Node *nodes[] = {node->nodes[0], &rest};
        Node first = *node;
        first.nodes = nodes;
        first.count = 2;
        first.variable_count = 1;
        compile_to(unit, &first, dest, live);
        return;
    }
    compile_values(unit, node, count, live | registers_of(unit, node->nodes[count]), places);
    for (unsigned i = 0; i < count; i++) bind_value(unit, node->variables[i], places[i]);
    for (unsigned i = 0; i < count; i++) remember_variable(unit, node->nodes[i], node->variables[i]);
    compile_to(unit, node->nodes[count], dest, live);
}

/* Whether a procedure captures one of some variables. */
static bool captures_one_of(const Unit *inner, Variable *const *variables, unsigned from, unsigned to) {
    for (unsigned i = 0; i < inner->captured_count; i++) {
        for (unsigned k = from; k < to; k++) {
            if (inner->captured[i] == variables[k]) return true;
        }
    }
    return false;
}

/* Procedures that may refer to each other. Where one captures itself or what comes behind, that is put into it once all are made. */
static void compile_procedures(Unit *unit, Node *node, unsigned from, unsigned to) {
    Unit inner[LETREC_REGISTERS];
    unsigned codes[LETREC_REGISTERS];
    for (unsigned i = from; i < to; i++) bind(unit, node->variables[i], take_any(unit));
    for (unsigned i = from; i < to; i++) codes[i - from] = compile_lambda(unit, node->nodes[i], node->variables[i], &inner[i - from]);
    for (unsigned i = from; i < to; i++) {
        const Registers busy = unit->busy;
        const unsigned place = node->variables[i]->place;
        if (captures_one_of(&inner[i - from], node->variables, i, to) || free_count(unit) < inner[i - from].captured_count + SPARE) {
            make_empty_closure(unit, &inner[i - from], codes[i - from], place);
        } else {
            make_closure(unit, &inner[i - from], codes[i - from], place);
            inner[i - from].captured_count = 0;
        }
        give_back(unit, busy);
    }
    for (unsigned i = from; i < to; i++) put_captured(unit, &inner[i - from], node->variables[i]->place);
}

static bool is_procedure(const Node *node, unsigned which) {
    return node->nodes[which]->kind == NODE_LAMBDA && !node->variables[which]->is_assigned;
}

/* What a letrec needs after one of its first values. */
static Registers needed_behind(const Unit *unit, const Node *node, unsigned which, Registers live) {
    for (unsigned i = which + 1; i < node->count; i++) live |= registers_of(unit, node->nodes[i]);
    return live;
}

static void compile_slot_value(Unit *unit, Node *node, unsigned which, Registers live) {
    const Registers busy = unit->busy;
    const Variable *const variable = node->variables[which];
    unsigned slots = place_of(unit, variable->slots), place;
    if (node->nodes[which]->kind == NODE_LAMBDA) {
        Unit inner;
        const unsigned code = compile_lambda(unit, node->nodes[which], variable->is_assigned ? NULL : variable, &inner);
        place = make_closure(unit, &inner, code, NOWHERE);
    } else {
        place = operand(unit, node->nodes[which], needed_behind(unit, node, which, live) | bit(slots));
    }
    emit_with(unit, needed_behind(unit, node, which, live) | bit(slots) | bit(place), OP_SLOT_SET, slots, place, 0, variable->slot);
    give_back(unit, busy);
}

static void compile_letrec(Unit *unit, Node *node, unsigned dest, Registers live) {
    const unsigned count = node->variable_count;
    const bool are_slots = count > LETREC_REGISTERS || free_count(unit) < count + SPARE;
    if (count > FIELDS_MOST) fault(node->at, "more than %d definitions in one body", FIELDS_MOST);
    if (are_slots) {
        const unsigned place = take_any(unit);
        emit_with(unit, unit->busy, OP_SLOTS, place, 0, 0, count);
        bind_slots(unit, node->variables, count, place);
    }
    for (unsigned i = 0; i < count && !are_slots; i++) {
        if (!node->variables[i]->is_assigned) continue;
        const unsigned place = take_any(unit);
        emit_with(unit, unit->busy, OP_SLOTS, place, 0, 0, 1);
        bind_slots(unit, &node->variables[i], 1, place);
    }
    for (unsigned i = 0; i < count; i++) {
        unsigned end = i;
        while (!are_slots && end < count && is_procedure(node, end)) end++;
        if (end > i) {
            compile_procedures(unit, node, i, end);
            i = end - 1;
        } else if (node->variables[i]->slots) {
            compile_slot_value(unit, node, i, live);
        } else {
            const unsigned place = take_any(unit);
            compile_to(unit, node->nodes[i], place, needed_behind(unit, node, i, live));
            bind(unit, node->variables[i], place);
        }
    }
    compile_to(unit, node->nodes[count], dest, live);
}

/* Loops */

/* Whether what ends in a loop's next round has registers enough, where so many are free. */
static bool fits(const Node *node, unsigned left) {
    unsigned bound = 0;
    switch (node->kind) {
    case NODE_LET: bound = node->variable_count; break;
    case NODE_LETREC: bound = node->variable_count > LETREC_REGISTERS ? 1 : node->variable_count; break;
    case NODE_LOOP: bound = node->count - 1; break;
    case NODE_CALL: return !node->loop || node->count + SPARE <= left;
    case NODE_IF: return left > SPARE && fits(node->nodes[1], left) && fits(node->nodes[2], left);
    case NODE_LAMBDA: return fits(node->nodes[0], left);
    case NODE_OR:
    case NODE_SEQUENCE: break;
    default: return true;
    }
    return bound + SPARE <= left && fits(node->nodes[node->count - 1], left - bound);
}

/* A loop that is a procedure: it is bound, and called with the first values. */
static void compile_loop_procedure(Unit *unit, Node *node, unsigned dest, Registers live) {
    const unsigned count = node->count - 1;
    Node procedure = {.kind = NODE_LOCAL, .at = node->at, .variable = node->loop->variable};
    Node *parts[MOVES_MOST] = {&procedure};
    for (unsigned i = 0; i < count; i++) parts[i + 1] = node->nodes[i];
    Node call = {.kind = NODE_CALL, .at = node->at, .count = count + 1, .nodes = parts};
    Node *nodes[] = {node->nodes[count], &call};
    Node letrec = {.kind = NODE_LETREC, .at = node->at, .count = 2, .nodes = nodes};
    letrec.variables = &node->loop->variable;
    letrec.variable_count = 1;
    compile_to(unit, &letrec, dest, live);
}

/* Captured variables that a loop reads itself stand in registers while it runs, where there are enough. */
static void copy_captured(Unit *unit, Node *node, Node *body) {
    if (node->kind == NODE_LAMBDA) return;
    if (node->variable) {
        Variable *const variable = node->variable->slots ? node->variable->slots : node->variable;
        const bool is_captured = variable->owner && variable->owner != unit && place_of(unit, variable) == NOWHERE;
        if (is_captured && unit->copy_count < COPIES_MOST && free_count(unit) > PLENTY && fits(body, free_count(unit) - 1)) {
            const unsigned place = take_any(unit);
            load_variable(unit, variable, place);
            unit->copies[unit->copy_count++] = (Copy){.variable = variable, .place = place};
        }
    }
    for (unsigned i = 0; i < node->count; i++) {
        Node *const inner = node->nodes[i];
        copy_captured(unit, node->kind == NODE_LOOP && i + 1 == node->count ? inner->nodes[0] : inner, body);
    }
}

static void compile_loop(Unit *unit, Node *node, unsigned dest, Registers live) {
    Loop *const loop = node->loop;
    Node *const lambda = node->nodes[node->count - 1];
    const unsigned count = node->count - 1;
    if (loop->is_broken || count + SPARE > free_count(unit) || !fits(lambda->nodes[0], free_count(unit) - count)) {
        loop->is_broken = true;
        compile_loop_procedure(unit, node, dest, live);
        return;
    }
    const unsigned copies = unit->copy_count;
    const Registers after = dest == CALLER ? 0 : live & ~bit(dest);
    compile_values(unit, node, count, after | registers_of(unit, lambda), loop->places);
    for (unsigned i = 0; i < count; i++) bind(unit, lambda->variables[i], loop->places[i]);
    copy_captured(unit, lambda->nodes[0], lambda->nodes[0]);
    loop->live = after | (registers_of(unit, lambda) & ~places_of(loop, count));
    forget_all(unit);
    loop->is_open = true;
    loop->start = unit->count;
    for (unsigned i = 0; i < count; i++) bind_value(unit, lambda->variables[i], loop->places[i]);
    compile_to(unit, lambda->nodes[0], dest, loop->live);
    loop->is_open = false;
    unit->copy_count = copies;
}

/* Expressions */

static void compile_sequence(Unit *unit, Node *node, unsigned dest, Registers live) {
    for (unsigned i = 0; i + 1 < node->count; i++) {
        Registers needed = live;
        for (unsigned k = i + 1; k < node->count; k++) needed |= registers_of(unit, node->nodes[k]);
        compile_to(unit, node->nodes[i], NOWHERE, needed);
    }
    compile_to(unit, node->nodes[node->count - 1], dest, live);
}

static void compile_table(Unit *unit, const Node *node, unsigned dest) {
    const unsigned place = written(unit, dest);
    emit(unit, OP_TABLE_GET, place, 0, 0, node->entry);
    deliver(unit, dest, place);
}

static void compile_set_table(Unit *unit, const Node *node, unsigned dest, Registers live) {
    const unsigned place = operand(unit, node->nodes[0], live);
    unit->at = node->at;
    emit_with(unit, live | bit(place), OP_TABLE_SET, place, !node->defines, 0, node->entry);
    deliver_word(unit, dest, UNSPECIFIED);
}

static void compile_local(Unit *unit, const Node *node, unsigned dest) {
    unsigned place = ready_operand(unit, node);
    if (place == NOWHERE) load_variable(unit, node->variable, place = written(unit, dest));
    deliver(unit, dest, place);
}

static void compile_set_local(Unit *unit, const Node *node, unsigned dest, Registers live) {
    Variable *const slots = node->variable->slots;
    const unsigned place = operand(unit, node->nodes[0], live | live_variable(unit, slots));
    unsigned of = place_of(unit, slots);
    unit->at = node->at;
    if (of == NOWHERE) load_variable(unit, slots, of = take_any(unit));
    emit_with(unit, live | bit(of) | bit(place), OP_SLOT_SET, of, place, 0, node->variable->slot);
    deliver_word(unit, dest, UNSPECIFIED);
}

/* How many registers nodes want to have free: one for each that isn't in one, and some more for what is within it. */
static unsigned wanted_by_all(const Unit *unit, Node *const *nodes, unsigned count) {
    unsigned wanted = 0, within = 0;
    for (unsigned i = 0; i < count; i++) {
        const Node *const node = nodes[i];
        if (node->kind == NODE_WORD || (node->kind == NODE_LOCAL && place_of(unit, node->variable) != NOWHERE)) continue;
        wanted++;
        if (node->kind != NODE_LOCAL && node->kind != NODE_TABLE) within = OUTSIDE;
    }
    return wanted + within;
}

static unsigned wanted_by_test(const Unit *unit, Node *node) {
    if (node->kind == NODE_IF || node->kind == NODE_OR || is_not(node)) {
        unsigned most = 0;
        for (unsigned i = 0; i < node->count; i++) {
            const unsigned wanted = wanted_by_test(unit, node->nodes[i]);
            if (wanted > most) most = wanted;
        }
        return most;
    }
    if (is_test(node)) return wanted_by_all(unit, node->nodes, node->count);
    return wanted_by_all(unit, &node, 1);
}

/* How many registers a node wants to have free. */
static unsigned wanted_registers(const Unit *unit, Node *node) {
    switch (node->kind) {
    case NODE_IF: return wanted_by_test(unit, node->nodes[0]);
    case NODE_OR: return wanted_by_test(unit, node);
    case NODE_PRIMITIVE:
        if (is_test(node)) return wanted_by_test(unit, node);
        return wanted_by_all(unit, node->nodes, node->count);
    case NODE_CALL:
    case NODE_APPLY: return node->count + 1 + OUTSIDE;
    case NODE_SET_TABLE: return wanted_by_all(unit, node->nodes, node->count);
    case NODE_SET_LOCAL: return 1 + wanted_by_all(unit, node->nodes, node->count);
    case NODE_LIST: return SPARE + OUTSIDE;
    case NODE_LET:
    case NODE_LETREC: return 1 + SPARE;
    case NODE_LOOP: return SPARE;
    case NODE_LAMBDA: return OUTSIDE;
    default: return 0;
    }
}

static void compile_node(Unit *unit, Node *node, unsigned dest, Registers live) {
    switch (node->kind) {
    case NODE_WORD: deliver_word(unit, dest, node->word); break;
    case NODE_TABLE: compile_table(unit, node, dest); break;
    case NODE_SET_TABLE: compile_set_table(unit, node, dest, live); break;
    case NODE_LOCAL: compile_local(unit, node, dest); break;
    case NODE_SET_LOCAL: compile_set_local(unit, node, dest, live); break;
    case NODE_IF: compile_if(unit, node, dest, live); break;
    case NODE_OR: compile_or(unit, node, dest, live); break;
    case NODE_SEQUENCE: compile_sequence(unit, node, dest, live); break;
    case NODE_PRIMITIVE: compile_primitive(unit, node, dest, live); break;
    case NODE_LIST: compile_list(unit, node, dest, live); break;
    case NODE_APPLY: compile_any_call(unit, node, dest, live); break;
    case NODE_CALL:
        if (node->loop && node->loop->is_open) {
            compile_again(unit, node);
        } else {
            compile_any_call(unit, node, dest, live);
        }
        break;
    case NODE_LAMBDA: compile_closure(unit, node, dest); break;
    case NODE_LET: compile_let(unit, node, dest, live); break;
    case NODE_LETREC: compile_letrec(unit, node, dest, live); break;
    case NODE_LOOP: compile_loop(unit, node, dest, live); break;
    }
}

/* The value of a node goes to a destination; the live registers are as they were then, but for the destination. */
static void compile_to(Unit *unit, Node *node, unsigned dest, Registers live) {
    const Registers busy = unit->busy;
    unit->at = node->at;
    const unsigned wanted = wanted_registers(unit, node) + (dest == NOWHERE);
    if (free_count(unit) < wanted && !(node->loop && node->loop->is_open)) {
        compile_outside(unit, node, dest, live);
    } else {
        compile_node(unit, node, dest, live);
    }
    give_back(unit, busy);
}

unsigned compile(Machine *machine, Node *node) {
    Unit unit = unit_begin(machine, NULL, NULL, node->at);
    compile_to(&unit, node, CALLER, 0);
    return unit_end(&unit, symbol_of("program", 7), 0, false);
}
