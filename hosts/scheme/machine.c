/*
 * The machine that runs compiled programs. SPDX: MIT OR Apache-2.0
 */
#include "machine.h"
#include "primitives.h"
#include "stack.h"
#include "table.h"
#ifdef THREADS
#include "threads.h"
#endif
#include <stdarg.h>
#include <stdlib.h>
#include <string.h>

Program program;

/* What begins all others: a form, which is called without arguments, or with one, and then halts. */
enum { START_FORM = 0, START_WITH_ARGUMENT = 2 };

/* Arrays that have become others, and are kept for threads that read there: each begins with the one before. */
static void **outgrown;

/* An array has room for more items. */
static void *grown(void *array, size_t count, size_t room, size_t size) {
#ifdef THREADS
    void **const more = more_memory(NULL, sizeof(void *) + room * size);
    if (array) memcpy(more + 1, array, count * size);
    more[0] = outgrown;
    outgrown = more;
    return more + 1;
#else
    (void)count;
    return more_memory(array, room * size);
#endif
}

static void free_array(void *array) {
#ifdef THREADS
    (void)array;
#else
    free(array);
#endif
}

static void free_outgrown(void) {
    while (outgrown) {
        void **const before = outgrown[0];
        free(outgrown);
        outgrown = before;
    }
}

/* Where others read an array, they find it as it is. */
#ifdef THREADS
#define PUBLISH(array, value) __atomic_store_n(&(array), (value), __ATOMIC_RELEASE)
#else
#define PUBLISH(array, value) ((array) = (value))
#endif

/* Makes room for one more in an array. */
#define GROW(array, count, room, least) \
    do { \
        if ((count) == (room)) { \
            (room) = (room) ? 2 * (room) : (least); \
            PUBLISH(array, grown((array), (count), (room), sizeof *(array))); \
        } \
    } while (0)

Position machine_position(const Machine *machine) {
    const Site *const sites = PUBLISHED(program.sites);
    const Position at = sites[machine->at].at;
    return at.line ? at : sites[machine->called_at].at;
}

/* The word of the dynamic state. */
static Word state_word(const Machine *machine) {
#ifdef THREADS
    return machine->own[OWN_STATE];
#else
    (void)machine;
    return program.table[OWN_STATE];
#endif
}

void machine_fault(const Machine *machine, const char *format, ...) {
    Trouble *const trouble = machine->trouble;
    va_list arguments;
    va_start(arguments, format);
    vsnprintf(trouble->text, sizeof trouble->text, format, arguments);
    va_end(arguments);
    if (state_word(machine) != EMPTY_LIST) longjmp(trouble->raised, 1);
    fault(machine_position(machine), "%s", trouble->text);
}

void machine_full(const Machine *machine) { fault(machine_position(machine), "the heap is full"); }

size_t machine_add_instruction(Instruction instruction, Site site) {
    size_t room = program.instruction_room;
    GROW(program.sites, program.instruction_count, room, 4096); /* before the instructions: none is without a site */
    GROW(program.instructions, program.instruction_count, program.instruction_room, 4096);
    program.instructions[program.instruction_count] = instruction;
    program.sites[program.instruction_count] = site;
    return program.instruction_count++;
}

unsigned machine_add_code(Code code) {
    GROW(program.codes, program.code_count, program.code_room, 256);
    program.codes[program.code_count] = code;
    return (unsigned)program.code_count++;
}

size_t machine_add_word(Word word) {
    GROW(program.words, program.word_count, program.word_room, 256);
    program.words[program.word_count] = word;
    return program.word_count++;
}

unsigned machine_add_record(RecordType type) {
    GROW(program.records, program.record_count, program.record_room, 256);
    program.records[program.record_count] = type;
    return (unsigned)program.record_count++;
}

/* Constants stay as they are once there are several threads. */
unsigned machine_constant(Machine *machine, Word word) {
    for (unsigned i = 0; i < machine->constants; i++) {
        if (machine->word[REGISTERS + i] == word) return WINDOW_REGISTERS + i;
    }
    if (machine->constants == CONSTANTS || program.is_shared) return 0;
    machine->word[REGISTERS + machine->constants] = word;
    return WINDOW_REGISTERS + machine->constants++;
}

static void table_get(Machine *machine, unsigned dest, unsigned entry) {
    if (!machine_get_entry(machine, dest, entry)) machine_fault(machine, "%s isn't defined", symbol_name(program.table_names[entry]));
}

static void want_entry(const Machine *machine, unsigned entry) {
    if (!machine_is_defined(entry)) machine_fault(machine, "%s isn't defined", symbol_name(program.table_names[entry]));
}

/* The first instructions call what stands behind the window's first register, and end. */
static void add_start(unsigned arguments) {
    const Site nowhere = {.at = {0}};
    machine_add_instruction((Instruction){.op = OP_CALL, .a = 1, .b = (uint8_t)arguments}, nowhere);
    machine_add_instruction((Instruction){.op = OP_HALT}, nowhere);
}

void machine_open(Machine *machine, unsigned threads, unsigned registers) {
    static Trouble trouble;
    *machine = (Machine){.window = REGISTER_FIRST, .output = stdout, .exit_status = -1, .trouble = &trouble};
    machine->end = registers - STACK_SPARE;
#ifdef THREADS
    machine_open_directory(threads + 1);
#else
    (void)threads;
    if (!memory_new(REGISTER_TABLE, OBJECT_MOST, 0)) fault((Position){0}, "the heap is full");
#endif
    add_start(0);
    add_start(1);
}

void machine_close(Machine *machine) {
    free_array(program.instructions);
    free_array(program.sites);
    free_array(program.codes);
    free_array(program.records);
    free_array(program.words);
    free_outgrown();
    free(program.table);
    free(program.table_names);
    free(machine->text);
}

#ifdef THREADS

/* The register that is nil holds the field's object, and then a box, and is nil again. */
void machine_store_boxed(const Machine *machine, Field field, Word word) {
    const Word boxed = word == integer(0) ? BOXED_ZERO : word;
    Word head;
    field_load(REGISTER_NIL, field);
    if (memory_first(REGISTER_NIL, &head) && head && !is_reference(head)) {
        memory_put(REGISTER_NIL, 0, boxed);
    } else {
        machine_new(machine, REGISTER_NIL, 0, 1);
        memory_put(REGISTER_NIL, 0, boxed);
        field_store(field, REGISTER_NIL);
    }
    memory_nil(REGISTER_NIL);
}

#endif

static void make_pair(Machine *machine, unsigned dest, unsigned first, unsigned second) {
    const bool is_direct = dest != first && dest != second;
    const unsigned pair = is_direct ? dest : REGISTER_SCRATCH;
    const uint32_t sources[] = {machine_source(machine, first), machine_source(machine, second)};
    const Word data[] = {machine->word[first], machine->word[second]};
    machine_make(machine, pair, PAIR, sources, data, 2);
    if (!is_direct) machine_move(machine, dest, pair);
}

/* What a register holds is returned where a continuation says. */
static size_t resume(Machine *machine, unsigned continuation, unsigned source) {
    if (machine->word[continuation] == CONTINUATION) {
        memory_move(REGISTER_FRAME, continuation);
    } else {
        memory_load(REGISTER_FRAME, continuation, 0);
    }
    machine->depth = 0;
    return stack_return_to_frame(machine, source);
}

/* Arguments from some parameter on become a list, which is the rest parameter. It is made from its end on, one register behind its items.
 */
static void collect_rest(Machine *machine, unsigned parameters, unsigned arguments) {
    const unsigned first = machine->window + OWN_ARGUMENT;
    machine->begins = OWN_ARGUMENT + arguments + 2;
    machine_set(machine, first + arguments, EMPTY_LIST);
    machine_set(machine, first + arguments + 1, EMPTY_LIST);
    if (memory_is_due()) stack_pause(machine);
    for (unsigned i = arguments; i > parameters; i--) make_pair(machine, first + i, first + i - 1, first + i + 1);
    machine_move(machine, first + parameters, first + parameters + 1);
}

__attribute__((noreturn)) static void fault_arguments(const Machine *machine, const Code *code, unsigned arguments) {
    machine_fault(machine, "%s takes %s%u arguments, and was given %u", symbol_name(code->name), code->has_rest ? "at least " : "",
                  code->parameters, arguments);
}

__attribute__((noreturn)) static void fault_procedure(const Machine *machine) {
    static const char *const what[] = {
        [KIND_INTEGER] = "an integer",    [KIND_CONSTANT] = "a constant", [KIND_CHARACTER] = "a character", [KIND_SYMBOL] = "a symbol",
        [KIND_PAIR] = "a pair",           [KIND_VECTOR] = "a vector",     [KIND_STRING] = "a string",       [KIND_RECORD] = "a record",
        [KIND_VALUES] = "several values", [KIND_PORT] = "a port",         [KIND_REAL] = "a number"};
    machine_fault(machine, "%s was called, which is no procedure", what[kind_of(machine->word[machine->window + OWN_PROCEDURE])]);
}

static size_t call(Machine *machine, unsigned arguments);

/* A continuation gets a value. Where it leaves dynamic states or enters some, the prelude does what is to be done on the way. */
static size_t go_on(Machine *machine) {
    const unsigned continuation = machine->window + OWN_PROCEDURE, value = machine->window + OWN_ARGUMENT;
    const bool is_frame = machine->word[continuation] == CONTINUATION;
    if (state_word(machine) == EMPTY_LIST && (is_frame || (HEAD_WORDS && memory_get(continuation, 1 + HEAD_WORDS) == EMPTY_LIST))) {
        return resume(machine, continuation, value);
    }
    machine_move(machine, value + 1, value);
    machine_move(machine, value, continuation);
    table_get(machine, continuation, program.go_on);
    return call(machine, 2);
}

/* A procedure begins whose arguments aren't just as many as its parameters, or for whose window there is no room. */
__attribute__((noinline)) static size_t call_otherwise(Machine *machine, unsigned arguments) {
    const Word procedure = machine->word[machine->window + OWN_PROCEDURE];
    if (kind_of(procedure) != KIND_PROCEDURE && kind_of(procedure) != KIND_CONTINUATION) fault_procedure(machine);
    if (kind_of(procedure) == KIND_CONTINUATION) {
        if (arguments != 1) {
            collect_rest(machine, 0, arguments);
            values_of_list(machine, machine->window + OWN_ARGUMENT, machine->window + OWN_ARGUMENT);
        }
        machine->begins = 0;
        return go_on(machine);
    }
    const Code *code = &PUBLISHED(program.codes)[payload(procedure)];
    if (code->otherwise) {
        const Code *const other = &PUBLISHED(program.codes)[code->otherwise];
        if (other->parameters == arguments) code = other;
    }
    if (code->has_rest && arguments >= code->parameters) {
        collect_rest(machine, code->parameters, arguments);
        arguments = code->parameters + 1;
    } else if (arguments != code->parameters || code->has_rest) {
        fault_arguments(machine, code, arguments);
    }
    if (machine->window + code->registers > machine->end) stack_make_room(machine, OWN_ARGUMENT + arguments);
    machine->begins = 0;
    return code->entry;
}

/* The procedure that the window begins with gets the arguments that stand behind it. Answers where to go on. */
static inline size_t call(Machine *machine, unsigned arguments) {
    const Word procedure = machine->word[machine->window + OWN_PROCEDURE];
    if (kind_of(procedure) == KIND_PROCEDURE) {
        const Code *const code = &PUBLISHED(program.codes)[payload(procedure)];
        const bool fits = machine->window + code->registers <= machine->end;
        if (arguments == code->parameters && !code->has_rest && fits) return code->entry;
    }
    return call_otherwise(machine, arguments);
}

/* Puts the items of a list where arguments stand, as far as there are parameters; what is left is the rest parameter. */
static void spread_list(Machine *machine, const Code *code) {
    const unsigned first = machine->window + OWN_ARGUMENT;
    machine_move(machine, REGISTER_SCRATCH, first);
    for (unsigned i = 0; i < code->parameters; i++) {
        if (machine->word[REGISTER_SCRATCH] != PAIR) fault_arguments(machine, code, i);
        machine_load(machine, first + i, REGISTER_SCRATCH, 0);
        machine_load(machine, REGISTER_SCRATCH, REGISTER_SCRATCH, 1);
    }
    if (code->has_rest) {
        machine_move(machine, first + code->parameters, REGISTER_SCRATCH);
    } else if (machine->word[REGISTER_SCRATCH] == PAIR) {
        fault_arguments(machine, code, code->parameters + 1);
    }
}

/* As a call, where a list of the arguments stands behind the procedure. */
static size_t apply(Machine *machine) {
    const Word procedure = machine->word[machine->window + OWN_PROCEDURE];
    if (kind_of(procedure) != KIND_PROCEDURE) {
        machine->begins = OWN_ARGUMENT + 1;
        if (kind_of(procedure) == KIND_CONTINUATION) {
            values_of_list(machine, machine->window + OWN_ARGUMENT, machine->window + OWN_ARGUMENT);
        }
        machine->begins = 0;
        return call(machine, 1);
    }
    const Code *const code = &PUBLISHED(program.codes)[payload(procedure)];
    if (machine->window + code->registers > machine->end) stack_make_room(machine, OWN_ARGUMENT + 1);
    spread_list(machine, code);
    return code->entry;
}

static bool are_same(const Machine *machine, unsigned left, unsigned right) {
    const Word word = machine->word[left];
    return word == machine->word[right] && (!is_reference(word) || left == right || memory_same(left, right));
}

static int64_t modulo(int64_t dividend, int64_t divisor) {
    const int64_t rest = dividend % divisor;
    return rest && (rest < 0) != (divisor < 0) ? rest + divisor : rest;
}

/* Whether one integer can be divided by another, and the result is one of 62 bits. */
static bool divides(Word left, Word right) {
    return is_integer(left | right) && right != integer(0) && (right != integer(-1) || left != integer(INTEGER_LEAST));
}

/* What returns as the procedure that runs would: its caller's frame alone, or where there is a dynamic state an object that has both. Where
 * threads share the heap it is always the object, since that tells which value it is. */
static void make_continuation(Machine *machine, unsigned dest) {
    stack_make_frames(machine);
    if (!HEAD_WORDS && state_word(machine) == EMPTY_LIST) {
        memory_move(dest, REGISTER_FRAME);
        machine_set(machine, dest, CONTINUATION);
        return;
    }
    machine_make_empty(machine, dest, CONTINUATION_WITH_STATE, 2);
    memory_store(dest, 0, REGISTER_FRAME);
    table_get(machine, REGISTER_SCRATCH, OWN_STATE);
    machine_begin(machine, dest, 1, REGISTER_SCRATCH);
}

static void make_slots(Machine *machine, unsigned dest, unsigned count) {
    Word undefined[OBJECT_MOST];
    machine_new(machine, dest, count, count + HEAD_WORDS);
    for (unsigned i = 0; i < count; i++) undefined[i] = UNDEFINED;
    memory_put_many(dest, HEAD_WORDS, undefined, count);
    machine_set(machine, dest, SLOTS);
}

static void make_box(Machine *machine, unsigned place) {
    const uint32_t source = machine_source(machine, place);
    machine_make(machine, REGISTER_SCRATCH, SLOTS, &source, &machine->word[place], 1);
    machine_move(machine, place, REGISTER_SCRATCH);
}

/* Makes a procedure that captures values. Where these stand in registers, the next instructions say which, and it is made with them.
 * Answers how many of those instructions are done. */
static unsigned make_closure(Machine *machine, Instruction closure, const Instruction *next) {
    const unsigned dest = machine->window + closure.a;
    uint32_t sources[WINDOW_REGISTERS];
    Word data[WINDOW_REGISTERS];
    unsigned known = 0;
    for (; known < closure.b && known < WINDOW_REGISTERS; known++) {
        const Instruction put = next[known];
        if (put.op != OP_CLOSURE_PUT || put.a != closure.a || put.b == closure.a || put.n != (int32_t)known) break;
        sources[known] = machine_source(machine, machine->window + put.b);
        data[known] = machine->word[machine->window + put.b];
    }
    const bool is_whole = known == closure.b;
    if (is_whole) {
        machine_make(machine, dest, REFERENCE(KIND_PROCEDURE, closure.n), sources, data, known);
    } else {
        machine_make_empty(machine, dest, REFERENCE(KIND_PROCEDURE, closure.n), closure.b);
    }
    return is_whole ? known : 0;
}

/* The instruction that runs is named before what may fault. */
#define AT() (machine->at = (size_t)(next - base) - 1)

/* So too before a change of a field or a global, which makes a box at times where there are several threads. */
#ifdef THREADS
#define AT_CHANGE() AT()
#else
#define AT_CHANGE() (void)0
#endif

/* Before an instruction that makes something is where registers let go, and where pauses come. */
#define AT_MAKING() \
    do { \
        AT(); \
        if (memory_is_due()) stack_pause(machine); \
    } while (0)

/* Goes on at an instruction, in the window that there is then. */
#define GO(to) \
    do { \
        const size_t at = (to); \
        base = PUBLISHED(program.instructions); \
        next = base + at; \
        window = machine->window; \
    } while (0)

/* A loop may make no call of the heap, and others may wait for a pause, or for the thread's end: so it asks now and then. */
#ifdef THREADS
enum { PATIENCE = 1000 };
#define POLL() \
    do { \
        if (!--patience) { \
            patience = PATIENCE; \
            memory_poll(); \
            if (threads_end_here(machine)) return; \
        } \
    } while (0)
#else
#define POLL() (void)0
#endif

/* A register of the window, and an operand, which may be a constant. */
#define REGISTER(operand) (window + (operand))
#define OPERAND(operand) ((operand) + ((operand) < WINDOW_REGISTERS ? window : REGISTERS - WINDOW_REGISTERS))
#define A OPERAND(i.a)
#define B OPERAND(i.b)
#define C OPERAND(i.c)

/* A test's instruction jumps where it fails. */
#define TEST(condition) \
    do { \
        if (!(condition)) next += i.n; \
    } while (0)

#define TEST_NUMBERS(op, operator) \
    do { \
        const Word left = word[A], right = word[B]; \
        if (is_integer(left | right)) { \
            TEST((int64_t)left operator(int64_t) right); \
        } else { \
            AT(); \
            TEST(test_numbers(machine, op, A, B)); \
        } \
    } while (0)

/* Sums of words are words of sums, as an integer's last two bits are 0. */
#define COMPUTE(op, function, of_left) \
    do { \
        const Word left = word[B], right = word[C]; \
        int64_t result; \
        if (is_integer(left | right) && !function(of_left(left), (int64_t)right, &result)) { \
            word[REGISTER(i.a)] = (Word)result; \
        } else { \
            AT_MAKING(); \
            compute_numbers(machine, op, REGISTER(i.a), B, C); \
        } \
    } while (0)

#define DIVIDE(op, result) \
    do { \
        const Word left = word[B], right = word[C]; \
        if (divides(left, right)) { \
            word[REGISTER(i.a)] = integer(result); \
        } else { \
            AT_MAKING(); \
            divide_numbers(machine, op, REGISTER(i.a), B, C); \
        } \
    } while (0)

#define WANT(register, value, name, what) \
    do { \
        if (word[register] != (value)) { \
            AT(); \
            machine_fault(machine, "%s: not %s", name, what); \
        } \
    } while (0)

/* The last call that stands in a source is known where a fault is told in what doesn't. */
#define AT_CALL() \
    do { \
        AT(); \
        if (i.c) machine->called_at = machine->at; \
    } while (0)

__attribute__((noinline)) static void run(Machine *machine, size_t from) {
    Word *const word = machine->word;
    const Instruction *base, *next; /* the first instruction, and the next one */
    unsigned window;
#ifdef THREADS
    unsigned patience = PATIENCE;
#endif
    GO(from);
    for (;;) {
        const Instruction i = *next++;
        switch ((Opcode)i.op) {
        case OP_HALT: return;
        case OP_WORD: word[REGISTER(i.a)] = PUBLISHED(program.words)[i.n]; break;
        case OP_TABLE_GET: {
            const Word entry = machine_entry_word((unsigned)i.n);
            if (is_code(entry)) { /* as most that are called */
                word[REGISTER(i.a)] = entry;
            } else {
                AT();
                table_get(machine, REGISTER(i.a), (unsigned)i.n);
            }
            break;
        }
        case OP_TABLE_SET:
            AT();
            if (i.b) want_entry(machine, (unsigned)i.n);
            machine_set_entry(machine, (unsigned)i.n, A);
            break;
        case OP_MOVE: machine_move(machine, REGISTER(i.a), B); break;
        case OP_CAPTURED:
            if (i.b) {
                memory_load(REGISTER(i.a), window + OWN_PROCEDURE, (unsigned)i.n);
                word[REGISTER(i.a)] = SLOTS;
            } else {
                machine_load_fixed(machine, REGISTER(i.a), window + OWN_PROCEDURE, (unsigned)i.n);
            }
            break;
        case OP_CLOSURE:
            AT_MAKING();
            next += make_closure(machine, i, next);
            break;
        case OP_CLOSURE_PUT: machine_begin(machine, REGISTER(i.a), (unsigned)i.n, REGISTER(i.b)); break;
        case OP_SLOTS:
            AT_MAKING();
            make_slots(machine, REGISTER(i.a), (unsigned)i.n);
            break;
        case OP_BOX:
            AT_MAKING();
            make_box(machine, REGISTER(i.a));
            break;
        case OP_SLOT_GET:
            machine_load(machine, REGISTER(i.a), REGISTER(i.b), (unsigned)i.n);
            if (word[REGISTER(i.a)] == UNDEFINED) {
                AT();
                machine_fault(machine, "a variable is used before its definition");
            }
            break;
        case OP_SLOT_SET:
            AT_CHANGE();
            machine_store(machine, REGISTER(i.a), (unsigned)i.n, B);
            break;
        case OP_JUMP:
            if (i.n < 0) POLL();
            next += i.n;
            break;
        case OP_UNLESS: TEST(word[A] != FALSE); break;
        case OP_LESS: TEST_NUMBERS(OP_LESS, <); break;
        case OP_NOT_GREATER: TEST_NUMBERS(OP_NOT_GREATER, <=); break;
        case OP_NUMBERS_EQUAL: TEST_NUMBERS(OP_NUMBERS_EQUAL, ==); break;
        case OP_SAME: TEST(are_same(machine, A, B)); break;
        case OP_IS: TEST(kind_of(word[A]) == (Kind)i.b); break;
        case OP_EQUIVALENT: TEST(are_same(machine, A, B) || are_equivalent(machine, A, B)); break;
        case OP_IS_NUMBER: TEST(is_integer(word[A]) || word[A] == REAL); break;
        case OP_IS_WHOLE: TEST(is_whole_number(machine, A)); break;
        case OP_RECORD_IS: TEST(word[A] == record_of_type(word[B])); break;
        case OP_ADD: COMPUTE(OP_ADD, __builtin_add_overflow, (int64_t)); break;
        case OP_SUBTRACT: COMPUTE(OP_SUBTRACT, __builtin_sub_overflow, (int64_t)); break;
        case OP_MULTIPLY: COMPUTE(OP_MULTIPLY, __builtin_mul_overflow, number); break;
        case OP_QUOTIENT: DIVIDE(OP_QUOTIENT, number(left) / number(right)); break;
        case OP_REMAINDER: DIVIDE(OP_REMAINDER, number(left) % number(right)); break;
        case OP_MODULO: DIVIDE(OP_MODULO, modulo(number(left), number(right))); break;
        case OP_CONS:
            AT_MAKING();
            make_pair(machine, REGISTER(i.a), B, C);
            break;
        case OP_CAR:
            WANT(B, PAIR, "car", "a pair");
            machine_load(machine, REGISTER(i.a), B, 0);
            break;
        case OP_CDR:
            WANT(B, PAIR, "cdr", "a pair");
            machine_load(machine, REGISTER(i.a), B, 1);
            break;
        case OP_SET_CAR:
            WANT(A, PAIR, "set-car!", "a pair");
            AT_CHANGE();
            machine_store(machine, A, 0, B);
            break;
        case OP_SET_CDR:
            WANT(A, PAIR, "set-cdr!", "a pair");
            AT_CHANGE();
            machine_store(machine, A, 1, B);
            break;
        case OP_VECTOR_REF:
            AT();
            vector_ref(machine, REGISTER(i.a), B, C);
            break;
        case OP_VECTOR_SET:
            AT();
            vector_set(machine, A, B, C);
            break;
        case OP_FUNCTION:
            AT_MAKING();
            primitives[i.n & 0xffff].function(machine, REGISTER(i.a), B, C, OPERAND((unsigned)(i.n >> 16)));
            if (machine->exit_status >= 0) return;
            break;
        case OP_CALL:
            AT_CALL();
            stack_push(machine, machine->at + 1, i.a);
            GO(call(machine, i.b));
            POLL();
            break;
        case OP_TAIL_CALL:
            AT_CALL();
            GO(call(machine, i.b));
            POLL();
            break;
        case OP_APPLY:
            AT_CALL();
            stack_push(machine, machine->at + 1, i.a);
            GO(apply(machine));
            POLL();
            break;
        case OP_TAIL_APPLY:
            AT_CALL();
            GO(apply(machine));
            POLL();
            break;
        case OP_RETURN:
            machine_move(machine, window + OWN_PROCEDURE, A);
            GO(stack_pop(machine));
            break;
        case OP_CONTINUATION:
            AT_MAKING();
            make_continuation(machine, REGISTER(i.a));
            break;
        case OP_RESUME: GO(resume(machine, A, B)); break;
        default: __builtin_unreachable();
        }
    }
}

/* The stack is empty, and no register holds anything but the first. */
static void begin(Machine *machine) {
    machine->depth = machine->begins = 0;
    machine->window = REGISTER_FIRST;
    machine->at = START_FORM;
    memory_registers_in_use(REGISTER_TABLE + 1);
}

/* A handler learns of a fault: the prelude's procedure gets what would be told, and where. Answers where to go on. */
static size_t raise_fault(Machine *machine) {
    const Word at = position_word(machine_position(machine));
    const unsigned window = machine->window;
    machine->begins = OWN_ARGUMENT; /* the procedure that failed needs nothing more */
    memory_nil(REGISTER_NIL);
    make_string_of(machine, window + OWN_ARGUMENT, machine->trouble->text, strlen(machine->trouble->text));
    machine_set(machine, window + OWN_ARGUMENT + 1, at);
    machine->begins = 0;
    table_get(machine, window + OWN_PROCEDURE, program.raise);
    return call(machine, 2);
}

/* Runs from an instruction on to its end, and goes on after each fault that a handler learns of. */
static void run_all(Machine *machine, size_t from) {
    if (setjmp(machine->trouble->raised)) {
        run(machine, raise_fault(machine));
    } else {
        run(machine, from);
    }
}

void machine_run(Machine *machine, unsigned code) {
    begin(machine);
    machine->called_at = program.codes[code].entry;
    machine_set(machine, REGISTER_FIRST + 1, PLAIN(KIND_PROCEDURE, code));
    run_all(machine, START_FORM);
    begin(machine); /* between forms no register holds anything */
}

#ifdef THREADS

void machine_run_thread(Machine *machine) {
    begin(machine);
    table_get(machine, REGISTER_FIRST + 1, program.run_thread);
    table_get(machine, REGISTER_FIRST + 2, OWN_THREAD);
    run_all(machine, START_WITH_ARGUMENT);
}

#endif

void machine_reset(Machine *machine) {
    machine->output = stdout;
    memory_nil(REGISTER_NIL);
    begin(machine);
    machine_set(machine, REGISTER_SCRATCH, EMPTY_LIST);
    machine_set_entry(machine, OWN_STATE, REGISTER_SCRATCH);
    machine_set_entry(machine, OWN_BINDINGS, REGISTER_SCRATCH);
    machine_set(machine, REGISTER_SCRATCH, STANDARD_OUTPUT);
    machine_set_entry(machine, OWN_OUTPUT, REGISTER_SCRATCH);
}
