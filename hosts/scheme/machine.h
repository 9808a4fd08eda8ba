/*
 * The machine that runs compiled programs. SPDX: MIT OR Apache-2.0
 *
 * Its registers are those of the heap, each with a word of C's memory beside it: a value in register r is `word[r]`, and where that says so
 * what the heap's register r holds. Behind the registers stand constants, which have a word alone. So arithmetic and tests ask nothing of
 * the heap, and a program's variables stand in registers while its procedure runs.
 *
 * The registers are a stack. The procedure that runs has a WINDOW of them: first itself, then its arguments, and then its variables and
 * what it computes. A call that isn't a tail call puts a procedure and its arguments behind what the caller still needs, and the callee's
 * window begins there; its result stands in the first register of its window, where the caller finds it. So a call makes no object and
 * moves nothing. Where the stack has no room for a window, or a continuation is wanted, all callers become FRAMES: objects, each with the
 * frame before, where to go on, and the registers that are needed then. A frame never changes, so a continuation is a reference to a frame.
 * A return for which the stack has no caller takes one out of its frame.
 *
 * Each instruction that calls or makes something has a set of the window's registers that are needed after it, or by it. So a frame has
 * these alone, and before a pause all other registers let go of what they hold: what nobody can read any more is kept by none.
 *
 * Code and the words of globals and constants are C's; what globals and constants refer to is held by the table, an object that register 0
 * holds. Each thread has a machine, and all have one program and one table. Where there is one thread, nothing is made for others.
 */
#ifndef MACHINE_H
#define MACHINE_H

#include "fault.h"
#include "memory.h"
#include "symbols.h"
#include "value.h"

/* The registers of a procedure's window. Tests build the machine with fewer. */
#ifndef WINDOW_REGISTERS
#define WINDOW_REGISTERS 64
#endif

enum {
    REGISTER_TABLE = 0,   /* references of globals and constants; it has no word */
    REGISTER_FRAME = 1,   /* the frame that a return goes to where no caller is on the stack; it has no word */
    REGISTER_SCRATCH = 2, /* free within an instruction */
    REGISTER_NIL = 3,     /* nil but within some functions here, which say so */
    REGISTER_PART = 4,    /* free within a function of words.c or of fields.h; room is made without it */
    REGISTER_FIRST = 5,   /* the stack begins here */
    REGISTERS = MEMORY_REGISTERS,

    /* of a window: */
    OWN_PROCEDURE = 0, /* the procedure that runs, and in the end its result */
    OWN_ARGUMENT = 1,  /* the first argument */

    /* An operand is a register of the window, or behind these a constant. */
    CONSTANTS = 256 - WINDOW_REGISTERS,
    ARGUMENTS_MOST = 8,
    STACK_SPARE = 4,                     /* registers that are left free behind each window, for a call of the prelude's */
    RECORD_FIELDS_MOST = OBJECT_MOST + 1 /* more than a record has */
};

/* A set of a window's registers. */
typedef uint64_t Registers;

typedef enum opcode {
    OP_HALT,
    OP_WORD,        /* a becomes words[n] */
    OP_TABLE_GET,   /* a becomes entry n of the table */
    OP_TABLE_SET,   /* entry n of the table, which is defined where b isn't 0, becomes a */
    OP_MOVE,        /* a becomes b */
    OP_CAPTURED,    /* a becomes what the procedure that runs captured as its n-th; where b isn't 0 these are slots */
    OP_CLOSURE,     /* a becomes a procedure with code n that captures b values */
    OP_CLOSURE_PUT, /* what procedure a captured as its n-th becomes b */
    OP_SLOTS,       /* a becomes n undefined slots */
    OP_BOX,         /* a becomes a slot that has a */
    OP_SLOT_GET,    /* a becomes slot n of b */
    OP_SLOT_SET,    /* slot n of a becomes b */
    OP_JUMP,        /* go on n instructions further */
    OP_UNLESS,      /* jump where a is false; so do the tests where they fail */
    OP_LESS,
    OP_NOT_GREATER,
    OP_NUMBERS_EQUAL,
    OP_SAME,
    OP_IS,         /* a is of kind b */
    OP_RECORD_IS,  /* a is a record of type b */
    OP_EQUIVALENT, /* as the same, but two real numbers of the same bits are too */
    OP_IS_NUMBER,
    OP_IS_WHOLE, /* a is a number without a fraction */
    OP_ADD,      /* a becomes b + c */
    OP_SUBTRACT,
    OP_MULTIPLY,
    OP_QUOTIENT,
    OP_REMAINDER,
    OP_MODULO,
    OP_CONS,
    OP_CAR,
    OP_CDR,
    OP_SET_CAR, /* that of a becomes b */
    OP_SET_CDR,
    OP_VECTOR_REF, /* a becomes element c of b */
    OP_VECTOR_SET, /* element b of a becomes c */
    OP_FUNCTION,   /* a becomes what function n (bits 0 to 15) makes of b, c and n (from bit 16 on) */
    OP_CALL,       /* call procedure a with the b arguments behind it; its result is a. It stands in a source where c isn't 0 */
    OP_TAIL_CALL,  /* the same of the first register, whose result is what the procedure that runs returns */
    OP_APPLY,      /* as a call, with a list of arguments behind the procedure */
    OP_TAIL_APPLY,
    OP_RETURN,       /* return a */
    OP_CONTINUATION, /* a becomes what returns as the procedure that runs would */
    OP_RESUME        /* return b where continuation a says; what is to be done on the way is done */
} Opcode;

typedef struct instruction {
    uint8_t op, a, b, c;
    int32_t n;
} Instruction;

/* Where an instruction stands in a source. Where it calls or makes something: the registers that are needed by it, or after it. */
typedef struct site {
    Position at;
    Registers needed;
} Site;

/* What is called: where its code begins, which arguments it takes, and how many registers its window takes. Where it has a rest parameter,
 * there may be other code that does the same for just so many arguments as that has parameters. */
typedef struct code {
    size_t entry;
    unsigned parameters;
    bool has_rest;
    unsigned registers;
    unsigned otherwise; /* 0: none */
    Symbol name;
} Code;

/* A record's type; a field of a type is told by their numbers, `type * RECORD_FIELDS_MOST + field`. */
typedef struct record_type {
    Symbol name;
    unsigned fields;
} RecordType;

/*
 * What all threads share: code, and the words of globals. Code is compiled by the first thread alone. Where there are others, an array that
 * grows becomes another one, and the old one stays as it is, so that who reads there may go on; each reads by PUBLISHED where the array is.
 */
typedef struct program {
    Instruction *instructions;
    Site *sites; /* of instructions */
    size_t instruction_count, instruction_room;
    Code *codes;
    size_t code_count, code_room;
    RecordType *records;
    size_t record_count, record_room;
    Word *words; /* constants that aren't operands */
    size_t word_count, word_room;
    Word *table; /* words of the table */
    Symbol *table_names;
    size_t table_count, table_room;
    unsigned raise, go_on, run_thread; /* entries of the table: the prelude's procedures for faults, continuations and threads */
    bool is_shared;                    /* there is, or was, a second thread */
} Program;

extern Program program;

#ifdef THREADS
#define PUBLISHED(array) __atomic_load_n(&(array), __ATOMIC_ACQUIRE)
#else
#define PUBLISHED(array) (array)
#endif

/* The first entries of the table are each thread's own: the dynamic state, parameters, the port of output, and the thread itself. */
enum { OWN_STATE, OWN_BINDINGS, OWN_OUTPUT, OWN_THREAD, OWN_ENTRIES };

/* A fault that is raised: where it goes to, and what is told of it. */
typedef struct trouble {
    jmp_buf raised;
    char text[1024];
} Trouble;

struct waiter;

/* A caller on the stack: the instruction that it goes on with, and where its window begins. */
typedef struct caller {
    uint32_t resume, window;
} Caller;

/* What a thread of the program has. */
typedef struct machine {
    Word word[REGISTERS + CONSTANTS];
    Caller callers[REGISTERS];
    unsigned depth;     /* callers on the stack */
    unsigned window;    /* the register that the window begins with */
    unsigned end;       /* registers of the stack end here, but for some to spare */
    unsigned begins;    /* registers that a procedure that begins has, itself and its arguments; 0: none begins */
    unsigned constants; /* how many there are behind the registers */
    size_t at;          /* the instruction that runs, where it may fault or make something */
    size_t called_at;   /* the last call that stands in a source */
    char *text;         /* bytes of strings that are worked on */
    size_t text_room;
    FILE *output;
    int exit_status; /* -1 while the program goes on */
    Trouble *trouble;
#ifdef THREADS
    Word own[OWN_ENTRIES];  /* words of its own entries of the table */
    unsigned place;         /* where what these refer to stands in the directory */
    MemoryPlace *registers; /* which the thread has as it begins */
    struct waiter *waiter;  /* threads.c */
    bool is_busy;           /* it is about what another thread would wait for in vain, so it ends only after that */
#endif
} Machine;

/* The machine of the first thread, beside which there may be so many; the heap has so many registers for each. */
void machine_open(Machine *machine, unsigned threads, unsigned registers);
void machine_close(Machine *machine);

/* Adds what a compiled program consists of. */
size_t machine_add_instruction(Instruction instruction, Site site);
unsigned machine_add_code(Code code);
size_t machine_add_word(Word word);
unsigned machine_add_record(RecordType type);

/* The operand of a constant, or 0 where there is none and all are taken. */
unsigned machine_constant(Machine *machine, Word word);

/* Runs code without parameters to its end. */
void machine_run(Machine *machine, unsigned code);

/* Forgets what a program left that has ended in a fault. */
void machine_reset(Machine *machine);

/* A fault of the instruction that runs: an error object is raised, or where no handler is, the fault is told. */
__attribute__((noreturn, format(printf, 2, 3))) void machine_fault(const Machine *machine, const char *format, ...);
Position machine_position(const Machine *machine);

/* Tells that the heap is full, of which no handler learns: it could make nothing. */
__attribute__((noreturn)) void machine_full(const Machine *machine);

#ifdef THREADS
/* Runs a thread that was started, from its beginning to its end. */
void machine_run_thread(Machine *machine);

/* Whether there was no second thread yet. A thread that starts one sets this before. */
static inline bool is_alone(void) { return !__atomic_load_n(&program.is_shared, __ATOMIC_RELAXED); }
#endif

/* All registers of the stack that are needed no more let go of what they hold. */
void machine_let_go(const Machine *machine);

/* The heap had no room: what can't be reached is reclaimed. */
void machine_make_room(const Machine *machine);

/* A register becomes a word; where that has a reference, the heap's register holds that already. */
static inline void machine_set(Machine *machine, unsigned dest, Word word) { machine->word[dest] = word; }

static inline void machine_move(Machine *machine, unsigned dest, unsigned source) {
    machine->word[dest] = machine->word[source];
    if (is_reference(machine->word[dest]) && dest != source) memory_move(dest, source);
}

/* The register that a field's reference is stored from: one that is nil, where the value has none. */
static inline uint32_t machine_source(const Machine *machine, unsigned operand) {
    return is_reference(machine->word[operand]) ? operand : REGISTER_NIL;
}

static inline void machine_new(const Machine *machine, unsigned dest, unsigned references, unsigned words) {
    if (memory_new(dest, references, words)) return;
    machine_make_room(machine);
    if (!memory_new(dest, references, words)) machine_full(machine);
}

static inline void machine_new_with(const Machine *machine, unsigned dest, const uint32_t *sources, size_t references, const Word *data,
                                    size_t words) {
    if (memory_new_with(dest, sources, references, data, words)) return;
    machine_make_room(machine);
    if (!memory_new_with(dest, sources, references, data, words)) machine_full(machine);
}

#include "words.h"

#include "fields.h"

#endif
