/*
 * The machine's stack: windows of procedures, and the frames that their callers become. SPDX: MIT OR Apache-2.0
 *
 * A caller is known by the instruction that it goes on with. Right before that stands its call, which says where the callee's window
 * begins, and so where the result is; and the call's site says which registers are needed then. So neither is kept for a call.
 *
 * Word 0 of a frame is that instruction's number. The words of the needed registers stand behind it, and what these refer to are its
 * references. The last reference is the frame before: a return loads it into the frame's own register, behind all others.
 */
#include "stack.h"

static const Instruction *call_before(size_t resume) { return &PUBLISHED(program.instructions)[resume - 1]; }

static Registers needed_after(size_t resume) { return PUBLISHED(program.sites)[resume - 1].needed; }

/* A caller becomes a frame. */
static void make_frame(const Machine *machine, Caller caller) {
    uint32_t sources[WINDOW_REGISTERS + 1];
    Word data[WINDOW_REGISTERS + 1];
    size_t references = 0, words = 0;
    data[words++] = caller.resume;
    for (Registers left = needed_after(caller.resume); left; left &= left - 1) {
        const unsigned saved = caller.window + (unsigned)__builtin_ctzll(left);
        data[words++] = machine->word[saved];
        if (is_reference(machine->word[saved])) sources[references++] = saved;
    }
    sources[references++] = REGISTER_FRAME;
    machine_new_with(machine, REGISTER_SCRATCH, sources, references, data, words);
    memory_move(REGISTER_FRAME, REGISTER_SCRATCH);
}

void stack_make_frames(Machine *machine) {
    for (unsigned i = 0; i < machine->depth; i++) make_frame(machine, machine->callers[i]);
    machine->depth = 0;
}

size_t stack_return_to_frame(Machine *machine, unsigned source) {
    const size_t resume = (size_t)memory_get(REGISTER_FRAME, 0);
    const Registers needed = needed_after(resume);
    uint32_t loaded[WINDOW_REGISTERS + 1];
    Word data[WINDOW_REGISTERS];
    size_t references = 0, words = 0;
    machine_move(machine, REGISTER_FIRST + call_before(resume)->a, source);
    if (needed) memory_get_many(REGISTER_FRAME, 1, data, (size_t)__builtin_popcountll(needed));
    for (Registers left = needed; left; left &= left - 1) {
        const unsigned saved = REGISTER_FIRST + (unsigned)__builtin_ctzll(left);
        machine->word[saved] = data[words++];
        if (is_reference(machine->word[saved])) loaded[references++] = saved;
    }
    loaded[references++] = REGISTER_FRAME;
    memory_load_many(REGISTER_FRAME, 0, loaded, references);
    machine->window = REGISTER_FIRST;
    return resume;
}

void stack_make_room(Machine *machine, unsigned used) {
    const unsigned window = machine->window;
    machine->begins = used;
    if (memory_is_due()) stack_pause(machine);
    stack_make_frames(machine);
    for (unsigned i = 0; i < used; i++) machine_move(machine, REGISTER_FIRST + i, window + i);
    machine->window = REGISTER_FIRST;
    machine->begins = 0;
}

/* Of a window's registers up to another one those that aren't needed let go of what they hold. */
static void let_go(const Machine *machine, unsigned window, unsigned end, Registers needed) {
    for (unsigned at = window; at < end; at++) {
        const bool is_needed = at - window < WINDOW_REGISTERS && needed >> (at - window) & 1;
        if (!is_needed || !is_reference(machine->word[at])) memory_nil(at);
    }
}

void machine_let_go(const Machine *machine) {
    const Registers needed = machine->begins ? ((Registers)1 << machine->begins) - 1 : PUBLISHED(program.sites)[machine->at].needed;
    const unsigned end = machine->window + (needed ? 64 - (unsigned)__builtin_clzll(needed) : 0);
    let_go(machine, REGISTER_FIRST, machine->depth ? machine->callers[0].window : machine->window, 0);
    for (unsigned i = 0; i < machine->depth; i++) {
        const Caller caller = machine->callers[i];
        let_go(machine, caller.window, caller.window + call_before(caller.resume)->a, needed_after(caller.resume));
    }
    let_go(machine, machine->window, end, needed);
    memory_nil(REGISTER_PART);
    memory_registers_in_use(end);
}

void machine_make_room(const Machine *machine) {
    machine_let_go(machine);
    memory_collect();
}

void stack_pause(Machine *machine) {
    machine_let_go(machine);
    memory_nil(REGISTER_SCRATCH);
    memory_pause();
}
