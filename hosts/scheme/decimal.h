/*
 * Numbers as texts. SPDX: MIT OR Apache-2.0
 */
#ifndef DECIMAL_H
#define DECIMAL_H

#include "value.h"
#include <stddef.h>

typedef enum number_kind { NUMBER_NONE, NUMBER_INTEGER, NUMBER_REAL, NUMBER_TOO_LARGE } NumberKind;

/* What a text says: no number, an integer, a real number, or an integer of more than 62 bits. */
typedef struct number {
    NumberKind kind;
    Word word;
    double real;
} Number;

/* Reads a number in a base, which prefixes as `#x` and `#i` may change. */
Number read_number(const char *text, size_t length, int base);

enum { REAL_TEXT_MOST = 40 };

/* Writes the shortest decimal text that is read as the same number. Answers its length. */
size_t real_text(double real, char *into);

#endif
