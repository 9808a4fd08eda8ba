/*
 * Arithmetic with real numbers, and what the machine's instructions leave to it. SPDX: MIT OR Apache-2.0
 *
 * A real number is an object of one word, its double. The machine's instructions compute with two integers themselves; where an operand is
 * a real number, or the result is no integer of 62 bits, they come here.
 */
#include "decimal.h"
#include "primitives.h"
#include "reader.h"
#include <inttypes.h>
#include <math.h>
#include <string.h>

/* What a function does not ask for. */
#define UNUSED(operand) (void)(operand)

static const char *const names[] = {
    [OP_LESS] = "<",     [OP_NOT_GREATER] = "<=",    [OP_NUMBERS_EQUAL] = "=",     [OP_ADD] = "+",        [OP_SUBTRACT] = "-",
    [OP_MULTIPLY] = "*", [OP_QUOTIENT] = "quotient", [OP_REMAINDER] = "remainder", [OP_MODULO] = "modulo"};

void make_real(Machine *machine, unsigned dest, double real) {
    Word word;
    memcpy(&word, &real, sizeof word);
    static const uint32_t no_sources[1];
    const Word data[] = {REAL, word}; /* the first where an object says which value it is */
    machine_new_with(machine, dest, no_sources, 0, data + 1 - HEAD_WORDS, 1 + HEAD_WORDS);
    machine_set(machine, dest, REAL);
}

static double real_of(unsigned operand) {
    const Word word = memory_get(operand, HEAD_WORDS);
    double real;
    memcpy(&real, &word, sizeof real);
    return real;
}

/* An operand as a real number. */
static double want_real(const Machine *machine, const char *name, unsigned operand) {
    const Word word = machine->word[operand];
    if (is_integer(word)) return (double)number(word);
    if (word != REAL) machine_fault(machine, "%s: not a number", name);
    return real_of(operand);
}

static bool are_integers(const Machine *machine, unsigned left, unsigned right) {
    return is_integer(machine->word[left] | machine->word[right]);
}

__attribute__((noreturn)) static void fault_overflow(const Machine *machine, const char *name) {
    machine_fault(machine, "%s: integer overflow", name);
}

/* Comparing */

/* Below, at or above 0 as an integer is below, at or above a real number that is one; no digit of either is lost. */
static int compare_with_real(int64_t left, double right) {
    if (right >= (double)INTEGER_MOST) return -1;
    if (right < (double)INTEGER_LEAST) return 1;
    const double whole = floor(right);
    if (left != (int64_t)whole) return left < (int64_t)whole ? -1 : 1;
    return right > whole ? -1 : 0;
}

/* As above for any two numbers, neither of which is the one that none equals. */
static int compare_numbers(const Machine *machine, unsigned left, unsigned right) {
    const Word left_word = machine->word[left], right_word = machine->word[right];
    if (is_integer(left_word) && is_integer(right_word))
        return (left_word != right_word) * (number(left_word) < number(right_word) ? -1 : 1);
    if (is_integer(left_word)) return compare_with_real(number(left_word), real_of(right));
    if (is_integer(right_word)) return -compare_with_real(number(right_word), real_of(left));
    return (real_of(left) > real_of(right)) - (real_of(left) < real_of(right));
}

bool test_numbers(const Machine *machine, Opcode op, unsigned left, unsigned right) {
    const double left_real = want_real(machine, names[op], left), right_real = want_real(machine, names[op], right);
    if (isnan(left_real) || isnan(right_real)) return false;
    const int order = compare_numbers(machine, left, right);
    return op == OP_LESS ? order < 0 : op == OP_NOT_GREATER ? order <= 0 : order == 0;
}

bool are_equivalent(const Machine *machine, unsigned left, unsigned right) {
    return machine->word[left] == REAL && machine->word[right] == REAL && memory_get(left, HEAD_WORDS) == memory_get(right, HEAD_WORDS);
}

static bool is_whole(double real) { return isfinite(real) && real == floor(real); }

bool is_whole_number(const Machine *machine, unsigned operand) {
    return is_integer(machine->word[operand]) || (machine->word[operand] == REAL && is_whole(real_of(operand)));
}

/* Computing */

void compute_numbers(Machine *machine, Opcode op, unsigned dest, unsigned left, unsigned right) {
    const double left_real = want_real(machine, names[op], left), right_real = want_real(machine, names[op], right);
    if (are_integers(machine, left, right)) fault_overflow(machine, names[op]);
    switch (op) {
    case OP_ADD: make_real(machine, dest, left_real + right_real); break;
    case OP_SUBTRACT: make_real(machine, dest, left_real - right_real); break;
    default: make_real(machine, dest, left_real * right_real); break;
    }
}

static double want_whole(const Machine *machine, const char *name, unsigned operand) {
    const double real = want_real(machine, name, operand);
    if (!is_whole(real)) machine_fault(machine, "%s: not an integer", name);
    return real;
}

static double real_modulo(double dividend, double divisor) {
    const double rest = fmod(dividend, divisor);
    return rest != 0 && (rest < 0) != (divisor < 0) ? rest + divisor : rest;
}

void divide_numbers(Machine *machine, Opcode op, unsigned dest, unsigned left, unsigned right) {
    const bool are_exact = are_integers(machine, left, right);
    const double dividend = want_whole(machine, names[op], left), divisor = want_whole(machine, names[op], right);
    if (divisor == 0) machine_fault(machine, "%s: division by zero", names[op]);
    if (are_exact && op == OP_QUOTIENT) fault_overflow(machine, names[op]);
    if (are_exact) { /* the least integer by -1 */
        machine_set(machine, dest, integer(0));
        return;
    }
    const double rest = op == OP_MODULO ? real_modulo(dividend, divisor) : fmod(dividend, divisor);
    make_real(machine, dest, op == OP_QUOTIENT ? (dividend - rest) / divisor : rest);
}

/* A quotient of two integers is one where nothing is left; else it is a real number. */
void divide(Machine *machine, unsigned dest, unsigned left, unsigned right, unsigned unused) {
    UNUSED(unused);
    const double dividend = want_real(machine, "/", left), divisor = want_real(machine, "/", right);
    if (machine->word[right] == integer(0)) machine_fault(machine, "/: division by zero");
    if (!are_integers(machine, left, right) || number(machine->word[left]) % number(machine->word[right])) {
        make_real(machine, dest, dividend / divisor);
        return;
    }
    const int64_t quotient = number(machine->word[left]) / number(machine->word[right]);
    if (quotient > INTEGER_MOST) fault_overflow(machine, "/");
    machine_set(machine, dest, integer(quotient));
}

static void choose(Machine *machine, const char *name, unsigned dest, unsigned left, unsigned right, int wanted) {
    const double left_real = want_real(machine, name, left), right_real = want_real(machine, name, right);
    if (isnan(left_real) || isnan(right_real)) {
        make_real(machine, dest, NAN);
        return;
    }
    const bool is_left = compare_numbers(machine, left, right) * wanted >= 0;
    if (are_integers(machine, left, right)) {
        machine_move(machine, dest, is_left ? left : right);
    } else {
        make_real(machine, dest, is_left ? left_real : right_real);
    }
}

void minimum(Machine *machine, unsigned dest, unsigned left, unsigned right, unsigned unused) {
    UNUSED(unused);
    choose(machine, "min", dest, left, right, -1);
}

void maximum(Machine *machine, unsigned dest, unsigned left, unsigned right, unsigned unused) {
    UNUSED(unused);
    choose(machine, "max", dest, left, right, 1);
}

/* Kinds of numbers */

/* What is left of an integer by 2. */
static int64_t half_rest(const Machine *machine, const char *name, unsigned operand) {
    const Word word = machine->word[operand];
    return is_integer(word) ? number(word) % 2 : (int64_t)fmod(want_whole(machine, name, operand), 2);
}

void is_even(Machine *machine, unsigned dest, unsigned operand, unsigned unused, unsigned unused_too) {
    UNUSED(unused);
    UNUSED(unused_too);
    machine_set(machine, dest, boolean(half_rest(machine, "even?", operand) == 0));
}

void is_odd(Machine *machine, unsigned dest, unsigned operand, unsigned unused, unsigned unused_too) {
    UNUSED(unused);
    UNUSED(unused_too);
    machine_set(machine, dest, boolean(half_rest(machine, "odd?", operand) != 0));
}

void is_exact(Machine *machine, unsigned dest, unsigned operand, unsigned unused, unsigned unused_too) {
    UNUSED(unused);
    UNUSED(unused_too);
    want_real(machine, "exact?", operand);
    machine_set(machine, dest, boolean(is_integer(machine->word[operand])));
}

void is_finite(Machine *machine, unsigned dest, unsigned operand, unsigned unused, unsigned unused_too) {
    UNUSED(unused);
    UNUSED(unused_too);
    machine_set(machine, dest, boolean(isfinite(want_real(machine, "finite?", operand))));
}

void is_nan(Machine *machine, unsigned dest, unsigned operand, unsigned unused, unsigned unused_too) {
    UNUSED(unused);
    UNUSED(unused_too);
    machine_set(machine, dest, boolean(isnan(want_real(machine, "nan?", operand))));
}

void to_inexact(Machine *machine, unsigned dest, unsigned operand, unsigned unused, unsigned unused_too) {
    UNUSED(unused);
    UNUSED(unused_too);
    make_real(machine, dest, want_real(machine, "inexact", operand));
}

void to_exact(Machine *machine, unsigned dest, unsigned operand, unsigned unused, unsigned unused_too) {
    UNUSED(unused);
    UNUSED(unused_too);
    const double real = want_real(machine, "exact", operand);
    if (is_integer(machine->word[operand])) {
        machine_set(machine, dest, machine->word[operand]);
        return;
    }
    if (!is_whole(real)) machine_fault(machine, "exact: not an integer");
    if (real >= (double)INTEGER_MOST || real < (double)INTEGER_LEAST) fault_overflow(machine, "exact");
    machine_set(machine, dest, integer((int64_t)real));
}

/* Functions of real numbers */

static void apply_real(Machine *machine, const char *name, unsigned dest, unsigned operand, double (*function)(double)) {
    make_real(machine, dest, function(want_real(machine, name, operand)));
}

#define REAL_FUNCTION(function_name, name, function) \
    void function_name(Machine *machine, unsigned dest, unsigned operand, unsigned unused, unsigned unused_too) { \
        UNUSED(unused); \
        UNUSED(unused_too); \
        apply_real(machine, name, dest, operand, function); \
    }

REAL_FUNCTION(exponential, "exp", exp)
REAL_FUNCTION(sine, "sin", sin)
REAL_FUNCTION(cosine, "cos", cos)
REAL_FUNCTION(tangent, "tan", tan)
REAL_FUNCTION(arc_sine, "asin", asin)
REAL_FUNCTION(arc_cosine, "acos", acos)

/* An integer is what it is rounded to. */
static void round_real(Machine *machine, const char *name, unsigned dest, unsigned operand, double (*function)(double)) {
    if (is_integer(machine->word[operand])) {
        machine_set(machine, dest, machine->word[operand]);
    } else {
        apply_real(machine, name, dest, operand, function);
    }
}

#define ROUND_FUNCTION(function_name, name, function) \
    void function_name(Machine *machine, unsigned dest, unsigned operand, unsigned unused, unsigned unused_too) { \
        UNUSED(unused); \
        UNUSED(unused_too); \
        round_real(machine, name, dest, operand, function); \
    }

ROUND_FUNCTION(round_down, "floor", floor)
ROUND_FUNCTION(round_up, "ceiling", ceil)
ROUND_FUNCTION(round_to_zero, "truncate", trunc)
ROUND_FUNCTION(round_to_even, "round", nearbyint)

/* The logarithm of a number, or to a base. */
void logarithm(Machine *machine, unsigned dest, unsigned operand, unsigned base_operand, unsigned unused) {
    UNUSED(unused);
    const double real = want_real(machine, "log", operand);
    if (machine->word[base_operand] == UNSPECIFIED) {
        make_real(machine, dest, log(real));
        return;
    }
    const double base = want_real(machine, "log", base_operand);
    make_real(machine, dest, base == 2 ? log2(real) : base == 10 ? log10(real) : log(real) / log(base));
}

/* The angle of a quotient, or of a point. */
void arc_tangent(Machine *machine, unsigned dest, unsigned y, unsigned x, unsigned unused) {
    UNUSED(unused);
    const double height = want_real(machine, "atan", y);
    const bool is_quotient = machine->word[x] == UNSPECIFIED;
    make_real(machine, dest, is_quotient ? atan(height) : atan2(height, want_real(machine, "atan", x)));
}

/* The largest integer whose square is no more than another. */
static int64_t root_of(int64_t square) {
    int64_t root = (int64_t)sqrt((double)square);
    while (root * root > square) root--;
    while ((root + 1) * (root + 1) <= square) root++;
    return root;
}

void square_root(Machine *machine, unsigned dest, unsigned operand, unsigned unused, unsigned unused_too) {
    UNUSED(unused);
    UNUSED(unused_too);
    const Word word = machine->word[operand];
    const double real = want_real(machine, "sqrt", operand);
    if (real < 0) machine_fault(machine, "sqrt: a negative number");
    if (is_integer(word) && root_of(number(word)) * root_of(number(word)) == number(word)) {
        machine_set(machine, dest, integer(root_of(number(word))));
    } else {
        make_real(machine, dest, sqrt(real));
    }
}

void whole_root(Machine *machine, unsigned dest, unsigned operand, unsigned unused, unsigned unused_too) {
    UNUSED(unused);
    UNUSED(unused_too);
    const Word word = machine->word[operand];
    if (!is_integer(word) || number(word) < 0) machine_fault(machine, "exact-integer-sqrt: not an exact integer from 0 on");
    machine_set(machine, dest, integer(root_of(number(word))));
}

void power(Machine *machine, unsigned dest, unsigned base, unsigned exponent, unsigned unused) {
    UNUSED(unused);
    make_real(machine, dest, pow(want_real(machine, "expt", base), want_real(machine, "expt", exponent)));
}

/* Texts */

static int want_base(const Machine *machine, const char *name, unsigned base) {
    const Word word = machine->word[base];
    if (!is_integer(word) || number(word) < 2 || number(word) > 36) machine_fault(machine, "%s: a base is 2 to 36", name);
    return (int)number(word);
}

/* Writes an integer in a base, at the end of so many characters. Answers how many it takes. */
static size_t integer_text(int64_t left, int base, char *into, size_t room) {
    const bool is_negative = left < 0;
    size_t at = room;
    do {
        const int64_t digit = left % base;
        into[--at] = "0123456789abcdefghijklmnopqrstuvwxyz"[digit < 0 ? -digit : digit];
        left /= base;
    } while (left);
    if (is_negative) into[--at] = '-';
    return room - at;
}

size_t number_text(const Machine *machine, unsigned operand, char *into) {
    if (machine->word[operand] == REAL) return real_text(real_of(operand), into);
    return (size_t)snprintf(into, REAL_TEXT_MOST, "%" PRId64, number(machine->word[operand]));
}

void number_to_string(Machine *machine, unsigned dest, unsigned operand, unsigned base_operand, unsigned unused) {
    UNUSED(unused);
    const int base = want_base(machine, "number->string", base_operand);
    const double real = want_real(machine, "number->string", operand);
    char text[64];
    if (is_integer(machine->word[operand])) {
        const size_t length = integer_text(number(machine->word[operand]), base, text, sizeof text);
        make_string_of(machine, dest, text + sizeof text - length, length);
        return;
    }
    if (base != 10) machine_fault(machine, "number->string: a real number has base 10");
    make_string_of(machine, dest, text, real_text(real, text));
}

void string_to_number(Machine *machine, unsigned dest, unsigned string, unsigned base_operand, unsigned unused) {
    UNUSED(unused);
    const int base = want_base(machine, "string->number", base_operand);
    const Word word = machine->word[string];
    if (kind_of(word) != KIND_STRING) machine_fault(machine, "string->number: not a string");
    read_string_text(machine, string, 0, (size_t)payload(word), 0);
    const Number number_read = read_number(payload(word) ? machine->text : "", (size_t)payload(word), base);
    if (number_read.kind == NUMBER_REAL) {
        make_real(machine, dest, number_read.real);
    } else {
        machine_set(machine, dest, number_read.kind == NUMBER_INTEGER ? number_read.word : FALSE);
    }
}
