/*
 * The procedures that the machine has itself. SPDX: MIT OR Apache-2.0
 */
#ifndef PRIMITIVES_H
#define PRIMITIVES_H

#include "machine.h"

/* Writes the value of up to three operands to a register, which may be one of them. */
typedef void PrimitiveFunction(Machine *machine, unsigned dest, unsigned a, unsigned b, unsigned c);

typedef enum shape { SHAPE_VALUE, SHAPE_EFFECT, SHAPE_TEST } Shape;

/* How a call of a primitive becomes an instruction. */
typedef struct primitive {
    const char *name;
    Shape shape;
    unsigned least, most; /* arguments; where one is missing it is `other` */
    Opcode op;
    Kind kind;       /* OP_IS: which one */
    bool adds_other; /* behind its arguments stands `other` */
    bool swaps;      /* its two operands change places */
    bool folds;      /* with more arguments it is applied to the first two, then to the result and the third, .. */
    Word other;
    PrimitiveFunction *function; /* OP_FUNCTION */
} Primitive;

extern const Primitive primitives[];
extern const unsigned primitive_count;

/* vectors.c; they tell their own faults */
void vector_ref(Machine *machine, unsigned dest, unsigned vector, unsigned index);
void vector_set(Machine *machine, unsigned vector, unsigned index, unsigned value);
PrimitiveFunction make_vector, vector_length;

/* Elements become a value, or those of another vector, and the result is whether they do: false, and nothing is done, where they are to be
 * written one by one. The last operand is a list of where they begin and end, for a copy after where they go to; all of them are there. */
PrimitiveFunction fill_at_once, copy_at_once;

/* control.c */
PrimitiveFunction values_of, list_of_values, continuation_state, position, begin_fault, end_fault, leave;

/* A register becomes the only item of a list, or as many values as that has. */
void values_of_list(Machine *machine, unsigned dest, unsigned list);

/* A position as an integer. */
Word position_word(Position at);

/* numbers.c */
PrimitiveFunction divide, minimum, maximum, is_even, is_odd, is_exact, is_finite, is_nan, to_exact, to_inexact, round_down, round_up,
    round_to_zero, round_to_even, exponential, logarithm, sine, cosine, tangent, arc_sine, arc_cosine, arc_tangent, square_root, whole_root,
    power, number_to_string, string_to_number;

/* A register becomes a new real number. */
void make_real(Machine *machine, unsigned dest, double real);

/* Writes a number of base 10, for which there is room for REAL_TEXT_MOST characters. Answers how many it takes. */
size_t number_text(const Machine *machine, unsigned operand, char *into);

/* What instructions do with other operands than two integers; they tell their own faults. */
bool test_numbers(const Machine *machine, Opcode op, unsigned left, unsigned right);
bool are_equivalent(const Machine *machine, unsigned left, unsigned right);
bool is_whole_number(const Machine *machine, unsigned operand);
void compute_numbers(Machine *machine, Opcode op, unsigned dest, unsigned left, unsigned right);
void divide_numbers(Machine *machine, Opcode op, unsigned dest, unsigned left, unsigned right);

/* records.c */
PrimitiveFunction record_new, record_ref, record_set;

/* ports.c; the first writes a value that is neither a pair nor a vector, and whether as a source has it */
PrimitiveFunction write_atom, write_char, open_input_string, open_output_string, get_output_string, read_char, peek_char, read_line,
    read_string, datum_text, named_character, is_input_port, is_output_port;

/* strings.c */
PrimitiveFunction make_string, string_length, string_ref, string_set, string_append, substring, string_equal, string_less, symbol_to_string,
    string_to_symbol;

/* The bytes of the longest string. */
enum { STRING_MOST = 524286 * 8 };

/* The bytes of a string from one to another stand in the machine's text from some byte on. */
void read_string_text(Machine *machine, unsigned string, size_t from, size_t to, size_t at);

/* The machine's text has room for so many bytes. */
void want_text(Machine *machine, size_t bytes);

/* A new string of so many bytes, which aren't set yet. */
void make_string_room(Machine *machine, unsigned dest, size_t length);

/* A string's bytes from some one on become others. */
void write_string_text(const Machine *machine, unsigned string, size_t at, const char *bytes, size_t count);
unsigned char string_byte(const Machine *machine, unsigned string, size_t at);

/* A new string has the first bytes of the machine's text. */
void make_string_of_text(Machine *machine, unsigned dest, size_t length);

/* A new string of a constant. */
void make_string_of(Machine *machine, unsigned dest, const char *text, size_t length);

/* A number of a size, an index or a code; told as a fault where it isn't below a limit. */
size_t want_index(const Machine *machine, const char *name, Word word, uint64_t limit);

#endif
