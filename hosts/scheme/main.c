/*
 * The program: reads a file, or a prompt, and runs what it reads. SPDX: MIT OR Apache-2.0
 */
#define _POSIX_C_SOURCE 200809L
#include "arena.h"
#include "compiler.h"
#include "fault.h"
#include "machine.h"
#include "prelude.h"
#include "primitives.h"
#include "reader.h"
#include "syntax.h"
#include <errno.h>
#include <stdio.h>
#include <stdlib.h>
#include <string.h>
#include <unistd.h>

#ifdef THREADS
#include "threads.h"
#include <lxr_threads.h>
#endif

static const char usage[] =
    "usage: scheme [--heap BLOCKS] [--bodies BLOCKS] [--every BYTES] [--registers N] [--pauses] [--threads N] [--helpers N] [FILE]\n"
    "\n"
    "Runs FILE, or what is typed where there is none. A block has 32 KB.\n"
    "\n"
    "--heap BLOCKS    size of the heap, 1 to 65536 (2048)\n"
    "--bodies BLOCKS  room for strings of more than 8184 bytes and vectors of more than 1023 elements, 1 to 65536 (2048)\n"
    "--every BYTES    new objects between two plain pauses of the proved collector (chosen by what pauses keep)\n"
    "--registers N    registers of the heap that a thread has, up to 254 (254); it calls deeper without frames by more\n"
    "--pauses         tells at the end how many pauses there were, and how long they took, on the standard error output\n"
    "--threads N      runs on a heap that threads share, with up to N threads at once beside the first\n"
    "--helpers N      runs on such a heap, with N threads that help the collector\n"
    "\n"
    "A heap that threads share may be smaller, and has long strings and vectors among its other objects; how large the numbers may be is "
    "told.\n";

#ifdef THREADS
enum { BLOCKS_MOST = LXR_MOST_SHARED_BLOCKS, THREADS_MOST = LXR_MOST_MUTATORS - 1, HELPERS_MOST = LXR_MOST_HELPERS };
#else
enum { BLOCKS_MOST = 65536 };
#endif
enum { REGISTERS_LEAST = REGISTER_FIRST + WINDOW_REGISTERS + STACK_SPARE };
enum { BODY_BLOCKS_IN_ALL = 65536, BLOCKS_CHOSEN = BLOCKS_MOST < 2048 ? BLOCKS_MOST : 2048 };

typedef struct options {
    MemoryOptions memory;
    const char *file;
} Options;

/* A text that grows. */
typedef struct text {
    char *bytes;
    size_t length, room;
} Text;

static void add_text(Text *text, const char *bytes, size_t length) {
    if (text->length + length > text->room) {
        text->room = 2 * (text->length + length);
        text->bytes = more_memory(text->bytes, text->room);
    }
    memcpy(text->bytes + text->length, bytes, length);
    text->length += length;
}

static void run_form(Machine *machine, const Datum *form) { machine_run(machine, compile(machine, syntax_of(form))); }

/* Runs all forms of a text. */
static void run_text(Machine *machine, const char *text, size_t length) {
    Reader reader = reader_of(text, length);
    Datum *form;
    while (machine->exit_status < 0 && read_datum(&reader, &form) == READ_DATUM) {
        run_form(machine, form);
        arena_clear();
    }
}

/* The code of a procedure of the prelude that captures nothing; whether there is one of that name. */
static bool has_code(const char *name, unsigned *code) {
    const Word word = program.table[syntax_entry(name)];
    *code = (unsigned)payload(word);
    return kind_of(word) == KIND_PROCEDURE && !is_reference(word);
}

/* A procedure that does what a call of its name is compiled to: `(define (car a) (car a))`. */
static void define_itself(Machine *machine, const char *name, unsigned parameters) {
    static const char *const names[] = {"", " a", " a b", " a b c"};
    char text[128];
    const int length = snprintf(text, sizeof text, "(define (%s%s) (%s%s))", name, names[parameters], name, names[parameters]);
    run_text(machine, text, (size_t)length);
}

/* What the machine and the prelude know of each other: the dynamic state, errors, and two procedures. */
static void define_state(void) {
    syntax_define("%state", EMPTY_LIST); /* the first are each thread's own */
    syntax_define("%bindings", EMPTY_LIST);
    syntax_define("%output", STANDARD_OUTPUT);
    syntax_define("%thread", FALSE);
    program.raise = syntax_entry("%raise-fault");
    program.go_on = syntax_entry("%go-on");
    syntax_define("%error", PLAIN(KIND_RECORD, machine_add_record((RecordType){.name = symbol_of("error", 5), .fields = 4})));
    syntax_define("%errors", STANDARD_ERROR);
    syntax_define("%input", STANDARD_INPUT);
    syntax_define("%end", END_OF_FILE);
    syntax_define("%dot", DOT);
}

/* A procedure of instructions that are written here, each of which needs all its registers. */
static Word procedure_of(const char *name, unsigned parameters, const Instruction *instructions, size_t count) {
    Code code = {.entry = program.instruction_count, .parameters = parameters, .name = symbol_of(name, strlen(name))};
    code.registers = OWN_ARGUMENT + parameters;
    for (size_t i = 0; i < count; i++) machine_add_instruction(instructions[i], (Site){.needed = ((Registers)1 << code.registers) - 1});
    return PLAIN(KIND_PROCEDURE, machine_add_code(code));
}

/* The procedure that returns a value where a continuation says, and those that call another with what returns to their own caller. */
static void define_continuations(void) {
    static const Instruction resume[] = {{.op = OP_RESUME, .a = OWN_ARGUMENT, .b = OWN_ARGUMENT + 1}};
    static const Instruction call[] = {
        {.op = OP_MOVE, .a = OWN_PROCEDURE, .b = OWN_ARGUMENT}, {.op = OP_CONTINUATION, .a = OWN_ARGUMENT}, {.op = OP_TAIL_CALL, .b = 1}};
    const Word procedure = procedure_of("call/cc", 1, call, sizeof call / sizeof *call);
    syntax_define("call/cc", procedure);
    syntax_define("call-with-current-continuation", procedure);
    syntax_define("%resume", procedure_of("%resume", 2, resume, sizeof resume / sizeof *resume));
}

#ifdef THREADS
/* A type of records, and its fields: what stands in a program's place for them are their numbers. */
static void define_record(const char *type_name, const char *name, const char *const *fields) {
    unsigned count = 0;
    while (fields[count]) count++;
    const unsigned type = machine_add_record((RecordType){.name = symbol_of(name, strlen(name)), .fields = count});
    syntax_define(type_name, PLAIN(KIND_RECORD, type));
    for (unsigned i = 0; i < count; i++) syntax_define(fields[i], integer((int64_t)type * RECORD_FIELDS_MOST + i));
}

static void define_threads(void) {
    static const char *const thread[] = {"%thread.number",   "%thread.name",   "%thread.specific",  "%thread.thunk",
                                         "%thread.bindings", "%thread.result", "%thread.failed-at", NULL};
    static const char *const mutex[] = {"%mutex.number", "%mutex.name", "%mutex.specific", "%mutex.owner", NULL};
    static const char *const condition[] = {"%condition.number", "%condition.name", "%condition.specific", NULL};
    static const char *const time[] = {"%time.seconds", NULL};
    define_record("%thread-type", "thread", thread);
    define_record("%mutex-type", "mutex", mutex);
    define_record("%condition-type", "condition-variable", condition);
    define_record("%time-type", "time", time);
    program.run_thread = syntax_entry("%run-thread");
}

/* The first thread is a thread as others are, which has begun. */
static void define_first_thread(Machine *machine) {
    static const char text[] = "(define %thread (%record-new %thread.number)) (%record-set! %thread %thread.number 1)"
                               "(%record-set! %thread %thread.name 'primordial)";
    run_text(machine, text, sizeof text - 1);
}
#endif

static void run_prelude(Machine *machine) {
    define_continuations();
#ifdef THREADS
    define_threads();
#endif
    unsigned *const codes = more_memory(NULL, primitive_count * sizeof *codes);
    for (unsigned i = 0; i < primitive_count; i++) {
        define_itself(machine, primitives[i].name, primitives[i].most);
        has_code(primitives[i].name, &codes[i]);
    }
    for (unsigned path = 0; syntax_path(path); path++) define_itself(machine, syntax_path(path), 1);
    for (size_t i = 0; prelude[i]; i++) run_text(machine, prelude[i], strlen(prelude[i]));
    for (unsigned i = 0; i < primitive_count; i++) { /* where the prelude defines it for any number of arguments */
        unsigned code;
        if (has_code(primitives[i].name, &code) && program.codes[code].has_rest) program.codes[code].otherwise = codes[i];
    }
    free(codes);
#ifdef THREADS
    define_first_thread(machine);
#endif
    syntax_end_prelude();
}

static void read_file(FILE *file, const char *name, Text *text) {
    char bytes[65536];
    for (size_t got = fread(bytes, 1, sizeof bytes, file); got; got = fread(bytes, 1, sizeof bytes, file)) add_text(text, bytes, got);
    if (ferror(file)) {
        fprintf(stderr, "scheme: %s: %s\n", name, strerror(errno));
        exit(1);
    }
}

/* What was typed at a prompt and isn't read yet. */
typedef struct prompt {
    Text typed;
    Position at;    /* of its first byte */
    uint32_t lines; /* how many were typed */
} Prompt;

static void forget_typed(Prompt *prompt) {
    prompt->typed.length = 0;
    prompt->at = (Position){.line = prompt->lines + 1, .column = 1};
}

/* Runs the first form that was typed; whether there is a whole one. */
static bool run_typed(Machine *machine, Prompt *prompt) {
    Text *const typed = &prompt->typed;
    Reader reader = reader_of(typed->bytes, typed->length);
    Datum *form;
    reader.at = prompt->at;
    reader.has_more = true;
    arena_clear();
    const Read read = typed->length ? read_datum(&reader, &form) : READ_END;
    if (read == READ_END) forget_typed(prompt);
    if (read != READ_DATUM) return false;
    typed->length -= reader.next;
    memmove(typed->bytes, typed->bytes + reader.next, typed->length);
    prompt->at = reader.at;
    machine_run(machine, compile(machine, syntax_prompt(form)));
    return true;
}

/* A prompt reads lines until a form ends, and then runs it. A fault forgets what was typed. */
static void run_prompt(Machine *machine) {
    static Prompt prompt; /* static, as a fault comes back to this function */
    const bool is_terminal = isatty(STDIN_FILENO) && isatty(STDOUT_FILENO);
    char line[4096];
    fault_source("prompt");
    if (setjmp(fault_exit)) {
        fault_forget();
        machine_reset(machine);
    }
    forget_typed(&prompt);
    for (;;) {
        if (run_typed(machine, &prompt)) {
            if (machine->exit_status >= 0) break;
            continue;
        }
        memory_rest();
        if (is_terminal) fputs(prompt.typed.length ? "... " : "> ", stdout);
        fflush(stdout);
        const char *const typed = fgets(line, sizeof line, stdin);
        memory_wake();
        if (!typed) break;
        add_text(&prompt.typed, line, strlen(line));
        if (strchr(line, '\n')) prompt.lines++;
    }
    if (is_terminal) fputc('\n', stdout);
    free(prompt.typed.bytes);
}

static int run_program(Machine *machine, const char *name) {
    static Text text;
    FILE *const file = fopen(name, "r");
    if (!file) {
        fprintf(stderr, "scheme: %s: %s\n", name, strerror(errno));
        return 1;
    }
    read_file(file, name, &text);
    fclose(file);
    fault_source(name);
    int status = 1;
    if (!setjmp(fault_exit)) {
        run_text(machine, text.bytes, text.length);
        status = machine->exit_status < 0 ? 0 : machine->exit_status;
    }
    free(text.bytes);
    return status;
}

static uint32_t want_number(const char *option, const char *text, unsigned long least, unsigned long most) {
    char *end;
    if (!text || *text < '0' || *text > '9') goto wrong;
    errno = 0;
    const unsigned long number = strtoul(text, &end, 10);
    if (!errno && !*end && number >= least && number <= most) return (uint32_t)number;
wrong:
    fprintf(stderr, "scheme: %s wants a number from %lu to %lu\n", option, least, most);
    exit(1);
}

static void tell_usage(bool is_wanted) {
    fputs(usage, is_wanted ? stdout : stderr);
    exit(is_wanted ? 0 : 1);
}

static void want_option(Options *options, const char *word, const char *value) {
    if (strcmp(word, "--heap") == 0) {
        options->memory.blocks = want_number(word, value, 1, BLOCKS_MOST);
    } else if (strcmp(word, "--bodies") == 0) {
        options->memory.body_blocks = want_number(word, value, 1, BODY_BLOCKS_IN_ALL);
    } else if (strcmp(word, "--every") == 0) {
        options->memory.every = want_number(word, value, 1, UINT32_MAX);
    } else if (strcmp(word, "--registers") == 0) {
        options->memory.registers = want_number(word, value, REGISTERS_LEAST, REGISTERS);
#ifdef THREADS
    } else if (strcmp(word, "--threads") == 0) {
        options->memory.threads = want_number(word, value, 1, THREADS_MOST);
    } else if (strcmp(word, "--helpers") == 0) {
        options->memory.helpers = want_number(word, value, 1, HELPERS_MOST);
#endif
    } else {
        tell_usage(strcmp(word, "--help") == 0);
    }
}

static Options options_of(int count, char **words) {
    Options options = {.memory = {.blocks = BLOCKS_CHOSEN, .body_blocks = 2048, .registers = REGISTERS}};
    for (int i = 1; i < count; i++) {
        const char *const word = words[i];
        if (strcmp(word, "--pauses") == 0) {
            options.memory.pauses = true;
        } else if (*word == '-') {
            want_option(&options, word, words[i + 1]);
            i++;
        } else if (options.file) {
            tell_usage(false);
        } else {
            options.file = word;
        }
    }
    return options;
}

#ifndef THREADS
/* Where the words ask for threads, another program goes on in this one's place: the same on a heap that threads share, which stands beside
 * it and has its name with `-threads` behind. */
static void give_way_to_threads(int count, char **words) {
    static const char behind[] = "-threads";
    char path[4096];
    bool are_wanted = false;
    for (int i = 1; i < count; i++) are_wanted = are_wanted || strcmp(words[i], "--threads") == 0 || strcmp(words[i], "--helpers") == 0;
    if (!are_wanted) return;
    const ssize_t length = readlink("/proc/self/exe", path, sizeof path - sizeof behind);
    if (length > 0) {
        memcpy(path + length, behind, sizeof behind);
        execv(path, words);
    }
    fputs("scheme: this program has no heap that threads share: there is none of its name with -threads behind\n", stderr);
    exit(1);
}
#endif

static bool is_output_lost(void) {
    if (!fflush(stdout) && !ferror(stdout)) return false;
    fputs("scheme: the output can't be written\n", stderr);
    return true;
}

#ifdef THREADS
static bool tells_pauses;

/* Ends the program from any thread; others go on until it is over. The first that calls ends it, but for one that tells a fault. */
static void end_program(int status) {
    fault_no_more();
    if (is_output_lost()) status = 1;
    if (tells_pauses) memory_report(stderr);
    _exit(status);
}
#endif

int main(int count, char **words) {
    static Machine machine;
#ifndef THREADS
    give_way_to_threads(count, words);
#endif
    const Options options = options_of(count, words);
    if (!memory_open(&options.memory)) {
        fputs("scheme: the machine has no memory for such a heap\n", stderr);
        return 1;
    }
    if (setjmp(fault_exit)) return 1; /* the heap is too small for what is always there */
    machine_open(&machine, options.memory.threads, options.memory.registers);
#ifdef THREADS
    tells_pauses = options.memory.pauses;
    threads_open(&machine, options.memory.threads, end_program);
#endif
    syntax_open(&machine);
    define_state();
    run_prelude(&machine);
    int status = 0;
    if (options.file) {
        status = run_program(&machine, options.file);
    } else {
        run_prompt(&machine);
        if (machine.exit_status > 0) status = machine.exit_status;
    }
#ifdef THREADS
    if (threads_are_left()) end_program(status);
#endif
    if (is_output_lost()) status = 1;
    if (options.memory.pauses) memory_report(stderr);
    arena_close();
    syntax_close();
#ifdef THREADS
    threads_close(&machine);
#endif
    machine_close(&machine);
    symbols_free();
    memory_close();
    return status;
}
