/*
 * The procedures that the machine has itself. SPDX: MIT OR Apache-2.0
 */
#include "primitives.h"
#ifdef THREADS
#include "threads.h"
#endif
#include <ctype.h>
#include <inttypes.h>
#include <stdlib.h>
#include <string.h>

/* What a function does not ask for. */
#define UNUSED(operand) (void)(operand)

size_t want_index(const Machine *machine, const char *name, Word word, uint64_t limit) {
    if (!is_integer(word)) machine_fault(machine, "%s: not an integer", name);
    if (number(word) < 0 || (uint64_t)number(word) >= limit) machine_fault(machine, "%s: %" PRId64 " is out of range", name, number(word));
    return (size_t)number(word);
}

/* An index that is at most a limit, in what has a name. */
static void index_within(Machine *machine, unsigned dest, unsigned name, unsigned index, unsigned limit) {
    const uint64_t most = (uint64_t)number(machine->word[limit]);
    want_index(machine, symbol_name((Symbol)payload(machine->word[name])), machine->word[index], most + 1);
    machine_set(machine, dest, machine->word[index]);
}

static int64_t want_integer(const Machine *machine, const char *name, unsigned operand) {
    if (!is_integer(machine->word[operand])) machine_fault(machine, "%s: not an integer", name);
    return number(machine->word[operand]);
}

static int want_character(const Machine *machine, const char *name, unsigned operand) {
    if (kind_of(machine->word[operand]) != KIND_CHARACTER) machine_fault(machine, "%s: not a character", name);
    return (int)payload(machine->word[operand]);
}

static void bitwise_and(Machine *machine, unsigned dest, unsigned a, unsigned b, unsigned c) {
    UNUSED(c);
    machine_set(machine, dest, integer(want_integer(machine, "bitwise-and", a) & want_integer(machine, "bitwise-and", b)));
}

static void bitwise_or(Machine *machine, unsigned dest, unsigned a, unsigned b, unsigned c) {
    UNUSED(c);
    machine_set(machine, dest, integer(want_integer(machine, "bitwise-or", a) | want_integer(machine, "bitwise-or", b)));
}

static void bitwise_xor(Machine *machine, unsigned dest, unsigned a, unsigned b, unsigned c) {
    UNUSED(c);
    machine_set(machine, dest, integer(want_integer(machine, "bitwise-xor", a) ^ want_integer(machine, "bitwise-xor", b)));
}

static void is_boolean(Machine *machine, unsigned dest, unsigned a, unsigned b, unsigned c) {
    UNUSED(b);
    UNUSED(c);
    machine_set(machine, dest, boolean(machine->word[a] == TRUE || machine->word[a] == FALSE));
}

static void is_procedure(Machine *machine, unsigned dest, unsigned a, unsigned b, unsigned c) {
    UNUSED(b);
    UNUSED(c);
    const Kind kind = kind_of(machine->word[a]);
    machine_set(machine, dest, boolean(kind == KIND_PROCEDURE || kind == KIND_CONTINUATION));
}

static void character_to_integer(Machine *machine, unsigned dest, unsigned a, unsigned b, unsigned c) {
    UNUSED(b);
    UNUSED(c);
    machine_set(machine, dest, integer(want_character(machine, "char->integer", a)));
}

static void integer_to_character(Machine *machine, unsigned dest, unsigned a, unsigned b, unsigned c) {
    UNUSED(b);
    UNUSED(c);
    machine_set(machine, dest, PLAIN(KIND_CHARACTER, want_index(machine, "integer->char", machine->word[a], 256)));
}

static void character_equal(Machine *machine, unsigned dest, unsigned a, unsigned b, unsigned c) {
    UNUSED(c);
    machine_set(machine, dest, boolean(want_character(machine, "char=?", a) == want_character(machine, "char=?", b)));
}

static void character_less(Machine *machine, unsigned dest, unsigned a, unsigned b, unsigned c) {
    UNUSED(c);
    machine_set(machine, dest, boolean(want_character(machine, "char<?", a) < want_character(machine, "char<?", b)));
}

static void is_alphabetic(Machine *machine, unsigned dest, unsigned a, unsigned b, unsigned c) {
    UNUSED(b);
    UNUSED(c);
    machine_set(machine, dest, boolean(isalpha(want_character(machine, "char-alphabetic?", a))));
}

static void is_numeric(Machine *machine, unsigned dest, unsigned a, unsigned b, unsigned c) {
    UNUSED(b);
    UNUSED(c);
    machine_set(machine, dest, boolean(isdigit(want_character(machine, "char-numeric?", a))));
}

static void is_whitespace(Machine *machine, unsigned dest, unsigned a, unsigned b, unsigned c) {
    UNUSED(b);
    UNUSED(c);
    machine_set(machine, dest, boolean(isspace(want_character(machine, "char-whitespace?", a))));
}

static void upcase(Machine *machine, unsigned dest, unsigned a, unsigned b, unsigned c) {
    UNUSED(b);
    UNUSED(c);
    machine_set(machine, dest, PLAIN(KIND_CHARACTER, toupper(want_character(machine, "char-upcase", a))));
}

static void downcase(Machine *machine, unsigned dest, unsigned a, unsigned b, unsigned c) {
    UNUSED(b);
    UNUSED(c);
    machine_set(machine, dest, PLAIN(KIND_CHARACTER, tolower(want_character(machine, "char-downcase", a))));
}

static void collect(Machine *machine, unsigned dest, unsigned a, unsigned b, unsigned c) {
    UNUSED(machine);
    UNUSED(dest);
    UNUSED(a);
    UNUSED(b);
    UNUSED(c);
    memory_collect();
}

#define VALUE(text, arguments, code) \
    { .name = text, .shape = SHAPE_VALUE, .least = arguments, .most = arguments, .op = code }
#define FOLD(text, code, does) \
    { .name = text, .shape = SHAPE_VALUE, .least = 2, .most = 2, .op = code, .folds = true, .function = does }
#define EFFECT(text, arguments, code) \
    { .name = text, .shape = SHAPE_EFFECT, .least = arguments, .most = arguments, .op = code }
#define COMPARE(text, code, turned) \
    { .name = text, .shape = SHAPE_TEST, .least = 2, .most = 2, .op = code, .swaps = turned }
#define COMPARE_WITH(text, code, word, turned) \
    { .name = text, .shape = SHAPE_TEST, .least = 1, .most = 1, .op = code, .adds_other = true, .swaps = turned, .other = word }
#define IS(text, which) \
    { .name = text, .shape = SHAPE_TEST, .least = 1, .most = 1, .op = OP_IS, .kind = which }
#define TEST_ONE(text, code) \
    { .name = text, .shape = SHAPE_TEST, .least = 1, .most = 1, .op = code }
#define CALL(text, from, to, word, does) \
    { .name = text, .shape = SHAPE_VALUE, .least = from, .most = to, .op = OP_FUNCTION, .other = word, .function = does }
#define CALL_EFFECT(text, arguments, does) \
    { .name = text, .shape = SHAPE_EFFECT, .least = arguments, .most = arguments, .op = OP_FUNCTION, .function = does }

const Primitive primitives[] = {
    FOLD("+", OP_ADD, NULL),
    FOLD("-", OP_SUBTRACT, NULL),
    FOLD("*", OP_MULTIPLY, NULL),
    VALUE("quotient", 2, OP_QUOTIENT),
    VALUE("remainder", 2, OP_REMAINDER),
    VALUE("modulo", 2, OP_MODULO),
    VALUE("cons", 2, OP_CONS),
    VALUE("car", 1, OP_CAR),
    VALUE("cdr", 1, OP_CDR),
    VALUE("vector-ref", 2, OP_VECTOR_REF),
    EFFECT("set-car!", 2, OP_SET_CAR),
    EFFECT("set-cdr!", 2, OP_SET_CDR),
    EFFECT("vector-set!", 3, OP_VECTOR_SET),
    COMPARE("<", OP_LESS, false),
    COMPARE(">", OP_LESS, true),
    COMPARE("<=", OP_NOT_GREATER, false),
    COMPARE(">=", OP_NOT_GREATER, true),
    COMPARE("=", OP_NUMBERS_EQUAL, false),
    COMPARE("eq?", OP_SAME, false),
    COMPARE("eqv?", OP_EQUIVALENT, false),
    COMPARE_WITH("zero?", OP_NUMBERS_EQUAL, 0, false),
    COMPARE_WITH("negative?", OP_LESS, 0, false),
    COMPARE_WITH("positive?", OP_LESS, 0, true),
    COMPARE_WITH("null?", OP_SAME, EMPTY_LIST, false),
    COMPARE_WITH("not", OP_SAME, FALSE, false),
    IS("pair?", KIND_PAIR),
    IS("vector?", KIND_VECTOR),
    IS("string?", KIND_STRING),
    IS("symbol?", KIND_SYMBOL),
    IS("char?", KIND_CHARACTER),
    IS("exact-integer?", KIND_INTEGER),
    TEST_ONE("integer?", OP_IS_WHOLE),
    TEST_ONE("number?", OP_IS_NUMBER),
    TEST_ONE("complex?", OP_IS_NUMBER),
    TEST_ONE("real?", OP_IS_NUMBER),
    CALL("exact?", 1, 1, 0, is_exact),
    CALL("finite?", 1, 1, 0, is_finite),
    CALL("nan?", 1, 1, 0, is_nan),
    CALL("exact", 1, 1, 0, to_exact),
    CALL("inexact", 1, 1, 0, to_inexact),
    CALL("inexact->exact", 1, 1, 0, to_exact),
    CALL("exact->inexact", 1, 1, 0, to_inexact),
    CALL("floor", 1, 1, 0, round_down),
    CALL("ceiling", 1, 1, 0, round_up),
    CALL("truncate", 1, 1, 0, round_to_zero),
    CALL("round", 1, 1, 0, round_to_even),
    CALL("exp", 1, 1, 0, exponential),
    CALL("log", 1, 2, UNSPECIFIED, logarithm),
    CALL("sin", 1, 1, 0, sine),
    CALL("cos", 1, 1, 0, cosine),
    CALL("tan", 1, 1, 0, tangent),
    CALL("asin", 1, 1, 0, arc_sine),
    CALL("acos", 1, 1, 0, arc_cosine),
    CALL("atan", 1, 2, UNSPECIFIED, arc_tangent),
    CALL("sqrt", 1, 1, 0, square_root),
    CALL("%root", 1, 1, 0, whole_root),
    CALL("%power", 2, 2, 0, power),
    FOLD("/", OP_FUNCTION, divide),
    CALL("boolean?", 1, 1, 0, is_boolean),
    CALL("procedure?", 1, 1, 0, is_procedure),
    CALL("even?", 1, 1, 0, is_even),
    CALL("odd?", 1, 1, 0, is_odd),
    FOLD("min", OP_FUNCTION, minimum),
    FOLD("max", OP_FUNCTION, maximum),
    FOLD("bitwise-and", OP_FUNCTION, bitwise_and),
    FOLD("bitwise-or", OP_FUNCTION, bitwise_or),
    FOLD("bitwise-xor", OP_FUNCTION, bitwise_xor),
    CALL("char->integer", 1, 1, 0, character_to_integer),
    CALL("integer->char", 1, 1, 0, integer_to_character),
    CALL("char=?", 2, 2, 0, character_equal),
    CALL("char<?", 2, 2, 0, character_less),
    CALL("char-alphabetic?", 1, 1, 0, is_alphabetic),
    CALL("char-numeric?", 1, 1, 0, is_numeric),
    CALL("char-whitespace?", 1, 1, 0, is_whitespace),
    CALL("char-upcase", 1, 1, 0, upcase),
    CALL("char-downcase", 1, 1, 0, downcase),
    CALL("%index", 3, 3, 0, index_within),
    CALL("make-vector", 1, 2, 0, make_vector),
    CALL("vector-length", 1, 1, 0, vector_length),
    CALL("%fill-at-once!", 3, 3, 0, fill_at_once),
    CALL("%copy-at-once!", 3, 3, 0, copy_at_once),
    CALL("make-string", 1, 2, PLAIN(KIND_CHARACTER, ' '), make_string),
    CALL("string-length", 1, 1, 0, string_length),
    CALL("string-ref", 2, 2, 0, string_ref),
    CALL_EFFECT("string-set!", 3, string_set),
    FOLD("string-append", OP_FUNCTION, string_append),
    CALL("substring", 2, 3, UNSPECIFIED, substring),
    CALL("string=?", 2, 2, 0, string_equal),
    CALL("string<?", 2, 2, 0, string_less),
    CALL("symbol->string", 1, 1, 0, symbol_to_string),
    CALL("string->symbol", 1, 1, 0, string_to_symbol),
    CALL("number->string", 1, 2, (Word)10 << 2, number_to_string),
    CALL("string->number", 1, 2, (Word)10 << 2, string_to_number),
    CALL_EFFECT("write-char", 2, write_char),
    CALL_EFFECT("%write-atom", 3, write_atom),
    CALL("open-input-string", 1, 1, 0, open_input_string),
    CALL("open-output-string", 0, 0, 0, open_output_string),
    CALL("get-output-string", 1, 1, 0, get_output_string),
    CALL("read-char", 0, 1, STANDARD_INPUT, read_char),
    CALL("peek-char", 0, 1, STANDARD_INPUT, peek_char),
    CALL("read-line", 0, 1, STANDARD_INPUT, read_line),
    CALL("read-string", 1, 2, STANDARD_INPUT, read_string),
    CALL("%datum-text", 0, 0, 0, datum_text),
    CALL("%named-character", 1, 1, 0, named_character),
    CALL("input-port?", 1, 1, 0, is_input_port),
    CALL("output-port?", 1, 1, 0, is_output_port),
    IS("port?", KIND_PORT),
    COMPARE_WITH("eof-object?", OP_SAME, END_OF_FILE, false),
    COMPARE("%record?", OP_RECORD_IS, false),
    CALL("%record-new", 1, 1, 0, record_new),
    CALL("%record-ref", 2, 2, 0, record_ref),
    CALL_EFFECT("%record-set!", 3, record_set),
    CALL("%list->values", 1, 1, 0, values_of),
    CALL("%values->list", 1, 1, 0, list_of_values),
    CALL("%continuation-state", 1, 1, 0, continuation_state),
    CALL("%position", 0, 0, 0, position),
    CALL_EFFECT("%begin-fault", 1, begin_fault),
    CALL_EFFECT("%end-fault", 0, end_fault),
    CALL_EFFECT("%exit", 1, leave),
    CALL_EFFECT("collect", 0, collect),
#ifdef THREADS
    CALL("thread-limit", 0, 0, 0, threads_limit),
    CALL("%thread-new", 0, 0, 0, threads_new),
    CALL_EFFECT("%thread-start", 2, threads_start),
    CALL_EFFECT("%thread-end", 0, threads_end),
    CALL("%thread-join", 2, 2, 0, threads_join),
    CALL_EFFECT("%thread-terminate", 1, threads_terminate),
    CALL("%thread-find", 1, 1, 0, threads_find),
    CALL_EFFECT("thread-yield!", 0, threads_yield),
    CALL_EFFECT("%thread-sleep", 1, threads_sleep),
    CALL("%now", 0, 0, 0, threads_now),
    CALL("%new-number", 0, 0, 0, threads_new_number),
    CALL("%mutex-lock", 3, 3, 0, threads_lock),
    CALL_EFFECT("%mutex-name-owner", 1, threads_name_owner),
    CALL_EFFECT("%mutex-unlock", 1, threads_unlock),
    CALL("%mutex-state", 1, 1, 0, threads_state),
    CALL("%mutex-wait", 3, 3, 0, threads_wait),
    CALL_EFFECT("%condition-signal", 2, threads_signal),
#endif
};

const unsigned primitive_count = sizeof primitives / sizeof *primitives;
