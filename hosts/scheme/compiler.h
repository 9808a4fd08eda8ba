/*
 * The compiler: from a tree of expressions to instructions. SPDX: MIT OR Apache-2.0
 */
#ifndef COMPILER_H
#define COMPILER_H

#include "syntax.h"

/* The code of an expression, without parameters. */
unsigned compile(Machine *machine, Node *node);

#endif
