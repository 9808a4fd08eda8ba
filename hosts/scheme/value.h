/*
 * What a value is. SPDX: MIT OR Apache-2.0
 *
 * A value is a word, and where the word says so a reference. The word alone tells the kind of the value, and what of it never changes: a
 * small integer, a character, the number of a symbol, the length of a vector, the code of a procedure. So only what an object holds has to
 * be asked of the heap. Words are plain data: they stand in C's memory or in data words of objects. References stand in registers of the
 * heap and in references of objects alone.
 *
 *     .... 62 bits ....  00    integer
 *     payload  kind      01    a value without a reference
 *     payload  kind      10    a value with a reference
 */
#ifndef VALUE_H
#define VALUE_H

#include <stdbool.h>
#include <stdint.h>

typedef uint64_t Word;

typedef enum kind {
    KIND_INTEGER,
    KIND_CONSTANT,     /* payload: which one */
    KIND_CHARACTER,    /* payload: its code */
    KIND_SYMBOL,       /* payload: its number */
    KIND_PROCEDURE,    /* payload: its code; a reference to what it captured, where it captured something */
    KIND_PAIR,         /* an object with two fields */
    KIND_VECTOR,       /* payload: its length */
    KIND_STRING,       /* payload: its length in bytes */
    KIND_CONTINUATION, /* a reference to its frame */
    KIND_SLOTS,        /* variables that are assigned; a program never sees one */
    KIND_VALUES,       /* several values, or none: a reference to the first pair of their list */
    KIND_RECORD,       /* payload: its type; the type itself has no reference */
    KIND_REAL,         /* an object of one word, a double */
    KIND_PORT          /* payload: which one; a reference where that reads or writes a string */
} Kind;

enum { TAG_INTEGER = 0, TAG_PLAIN = 1, TAG_REFERENCE = 2, TAG_MASK = 3, KIND_SHIFT = 2, KIND_MASK = 63, PAYLOAD_SHIFT = 8 };

#define PLAIN(kind, payload) (((Word)(payload) << PAYLOAD_SHIFT) | ((Word)(kind) << KIND_SHIFT) | TAG_PLAIN)
#define REFERENCE(kind, payload) (((Word)(payload) << PAYLOAD_SHIFT) | ((Word)(kind) << KIND_SHIFT) | TAG_REFERENCE)

#define EMPTY_LIST PLAIN(KIND_CONSTANT, 0)
#define FALSE PLAIN(KIND_CONSTANT, 1)
#define TRUE PLAIN(KIND_CONSTANT, 2)
#define UNSPECIFIED PLAIN(KIND_CONSTANT, 3)
#define UNDEFINED PLAIN(KIND_CONSTANT, 4) /* what a variable holds before its definition */
#define END_OF_FILE PLAIN(KIND_CONSTANT, 5)
#define DOT PLAIN(KIND_CONSTANT, 6)
#define CHANGED PLAIN(KIND_CONSTANT, 7) /* what stands for the word of a field whose object alone says what it is; no program sees one */
#define CLAIMED PLAIN(KIND_CONSTANT, 8) /* a global whose first definition goes on; as undefined */
#define BOXED_ZERO PLAIN(KIND_CONSTANT, 9)
#define STANDARD_OUTPUT PLAIN(KIND_PORT, 0)
#define STANDARD_ERROR PLAIN(KIND_PORT, 1)
#define STANDARD_INPUT PLAIN(KIND_PORT, 2)
#define OUTPUT_STRING REFERENCE(KIND_PORT, 0)
#define INPUT_STRING REFERENCE(KIND_PORT, 1)
#define PAIR REFERENCE(KIND_PAIR, 0)
#define CONTINUATION REFERENCE(KIND_CONTINUATION, 0)
#define CONTINUATION_WITH_STATE REFERENCE(KIND_CONTINUATION, 1) /* a reference to an object that has its frame and its dynamic state */
#define SLOTS REFERENCE(KIND_SLOTS, 0)
#define REAL REFERENCE(KIND_REAL, 0)
#define VALUES REFERENCE(KIND_VALUES, 0)
#define NO_VALUES PLAIN(KIND_VALUES, 0)

#define INTEGER_MOST (INT64_MAX >> 2)
#define INTEGER_LEAST (-INTEGER_MOST - 1)

static inline bool is_reference(Word word) { return (word & TAG_MASK) == TAG_REFERENCE; }

static inline bool is_integer(Word word) { return (word & TAG_MASK) == TAG_INTEGER; }

static inline Kind kind_of(Word word) { return is_integer(word) ? KIND_INTEGER : (Kind)(word >> KIND_SHIFT & KIND_MASK); }

static inline uint64_t payload(Word word) { return word >> PAYLOAD_SHIFT; }

/* The integer is within 62 bits. */
static inline Word integer(int64_t number) { return (Word)number << 2; }

static inline int64_t number(Word word) { return (int64_t)word >> 2; }

/* A procedure that captures nothing, which is a word alone. */
static inline bool is_code(Word word) { return (uint8_t)word == (uint8_t)PLAIN(KIND_PROCEDURE, 0); }

/* The word of all records of a type. */
static inline Word record_of_type(Word type) { return type ^ TAG_PLAIN ^ TAG_REFERENCE; }

static inline Word boolean(bool is) { return is ? TRUE : FALSE; }

#endif
