/*
 * The reader: from text to data. SPDX: MIT OR Apache-2.0
 */
#ifndef READER_H
#define READER_H

#include "fault.h"
#include "value.h"
#include <stddef.h>

typedef enum datum_kind { DATUM_WORD, DATUM_REAL, DATUM_STRING, DATUM_LIST, DATUM_VECTOR } DatumKind;

/* What was read. It is source, and no object of the heap: it is gone once its form is compiled. */
typedef struct datum {
    DatumKind kind;
    Position at;
    Word word;            /* DATUM_WORD: an integer, a character, a boolean or a symbol */
    double real;          /* DATUM_REAL */
    const char *text;     /* DATUM_STRING */
    struct datum **items; /* DATUM_LIST, DATUM_VECTOR */
    struct datum *tail;   /* DATUM_LIST: what stands behind the dot, or null */
    size_t count;         /* bytes of the text, or items */
} Datum;

typedef struct reader {
    const char *text;
    size_t length, next;
    Position at;   /* of what is read next */
    bool has_more; /* whether more text can come: then an unfinished datum is no fault */
} Reader;

typedef enum read { READ_DATUM, READ_END, READ_UNFINISHED } Read;

Reader reader_of(const char *text, size_t length);

/* Reads the next datum; tells a fault where there is one. */
Read read_datum(Reader *reader, Datum **datum);

/* The name that a character has in a source, or null; and the code of a character of a name, or less than 0. */
const char *character_name(unsigned char code);
int character_code(const char *name, size_t length);

/* Whether a source can have a symbol of this name without bars. */
bool is_plain_name(const char *name);

#endif
