/*
 * Faults of a program: where one stands, and what is said of it. SPDX: MIT OR Apache-2.0
 */
#define _POSIX_C_SOURCE 200809L
#include "fault.h"
#include <inttypes.h>
#include <stdarg.h>
#include <stdio.h>
#include <stdlib.h>

jmp_buf fault_exit;

#ifdef THREADS
#include "memory.h"
#include <sched.h>
#include <unistd.h>

static __thread void (*ends)(void);
static __thread bool tells; /* this thread tells a fault .. */
static bool is_told;        /* .. or some thread does */
static bool is_over;        /* a thread ends the program, and no other does */

/* One fault is told at a time, and where it ends the program no other is. A thread that waits for that rests. */
static void begin_telling(void) {
    while (!tells && __atomic_exchange_n(&is_told, true, __ATOMIC_ACQUIRE)) {
        memory_rest();
        sched_yield();
        memory_wake();
    }
    tells = true;
}

/* The thread that calls ends the program, or where another one does goes no further. */
static void end_alone(void) {
    while (__atomic_exchange_n(&is_over, true, __ATOMIC_ACQUIRE)) pause();
}

void fault_forget(void) {
    tells = false;
    __atomic_store_n(&is_told, false, __ATOMIC_RELEASE);
}

void fault_no_more(void) {
    begin_telling();
    end_alone();
}

/* The thread may rest or not, and may hold a lock, so it waits for no other. */
void fault_at_once(const char *text) {
    end_alone();
    fflush(stdout);
    fprintf(stderr, "scheme: %s\n", text);
    _exit(1);
}
#else
static void (*ends)(void);

static void begin_telling(void) {}

void fault_forget(void) {}

void fault_at_once(const char *text) {
    fprintf(stderr, "scheme: %s\n", text);
    exit(1);
}
#endif
static const char *source = "scheme";

void fault_source(const char *name) { source = name; }

void fault_ends_by(void (*end)(void)) { ends = end; }

void fault_begin(Position at) {
    begin_telling();
    fflush(stdout);
    if (at.line) {
        fprintf(stderr, "%s:%" PRIu32 ":%" PRIu32 ": ", source, at.line, at.column);
    } else {
        fprintf(stderr, "%s: ", source);
    }
}

void fault_end(void) {
    fputc('\n', stderr);
    if (ends) ends();
    longjmp(fault_exit, 1);
}

void fault(Position at, const char *format, ...) {
    va_list arguments;
    fault_begin(at);
    va_start(arguments, format);
    vfprintf(stderr, format, arguments);
    va_end(arguments);
    fault_end();
}

void *more_memory(void *old, size_t bytes) {
    void *const grown = realloc(old, bytes);
    if (!grown) fault_at_once("the machine has no memory left");
    return grown;
}
