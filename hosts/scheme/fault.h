/*
 * Faults of a program: where one stands, and what is said of it. SPDX: MIT OR Apache-2.0
 */
#ifndef FAULT_H
#define FAULT_H

#include <setjmp.h>
#include <stddef.h>
#include <stdint.h>

/* Where something stands in a source: from line 1 and column 1 on. Line 0: in no source. */
typedef struct position {
    uint32_t line, column;
} Position;

/* Names the source in which faults stand from now on. */
void fault_source(const char *name);

/* Where a fault of the first thread goes to, once it is told. Other threads tell none until the program ends, or goes on by fault_forget.
 */
extern jmp_buf fault_exit;
void fault_forget(void);

/* A fault of the thread that calls does this instead, which doesn't come back. */
void fault_ends_by(void (*end)(void));

/* Writes `SOURCE:LINE:COLUMN: ` to the standard error output. Other threads tell no fault meanwhile. */
void fault_begin(Position at);
__attribute__((noreturn)) void fault_end(void);

/* Tells what no program can go on from, and ends the program with status 1. */
__attribute__((noreturn)) void fault_at_once(const char *text);

#ifdef THREADS
/* The thread that calls ends the program, and no other tells a fault from here on. One that tells one now ends the program first. */
void fault_no_more(void);
#endif

/* Tells a fault in one line, and goes to `fault_exit`. */
__attribute__((noreturn, format(printf, 2, 3))) void fault(Position at, const char *format, ...);

/* Memory of C that is at least so large, or the end of the program. */
void *more_memory(void *old, size_t bytes);

#endif
