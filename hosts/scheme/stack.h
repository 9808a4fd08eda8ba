/*
 * The machine's stack: windows of procedures, and the frames that their callers become. SPDX: MIT OR Apache-2.0
 */
#ifndef STACK_H
#define STACK_H

#include "machine.h"

/* A procedure's window begins so many registers behind the caller's, which goes on with an instruction. */
static inline void stack_push(Machine *machine, size_t resume, unsigned registers) {
    machine->callers[machine->depth++] = (Caller){.resume = (uint32_t)resume, .window = machine->window};
    machine->window += registers;
}

/* What a register holds is returned to the frame: its window is the only one on the stack. Answers where to go on. */
size_t stack_return_to_frame(Machine *machine, unsigned source);

/* What the window's first register holds is returned. Answers where to go on. */
static inline size_t stack_pop(Machine *machine) {
    if (!machine->depth) return stack_return_to_frame(machine, machine->window);
    const Caller caller = machine->callers[--machine->depth];
    machine->window = caller.window;
    return caller.resume;
}

/* All callers become frames; the window stays. */
void stack_make_frames(Machine *machine);

/* A procedure that begins, whose window has so many registers in use, gets room for as many as it takes. */
void stack_make_room(Machine *machine, unsigned used);

/* Between two instructions, where it is due: registers let go of what isn't needed, and there may be a pause. */
void stack_pause(Machine *machine);

#endif
