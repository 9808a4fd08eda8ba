/*
 * Symbols: each name has a number, by which it is told from others. SPDX: MIT OR Apache-2.0
 */
#ifndef SYMBOLS_H
#define SYMBOLS_H

#include <stddef.h>
#include <stdint.h>

typedef uint32_t Symbol;

/* The symbol of this name. */
Symbol symbol_of(const char *name, size_t length);
const char *symbol_name(Symbol symbol);
void symbols_free(void);

#endif
