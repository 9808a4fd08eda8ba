/*
 * Threads, and how they wait for each other. SPDX: MIT OR Apache-2.0
 */
#ifndef THREADS_H
#define THREADS_H

#include "primitives.h"

/* The thread that calls is the first; so many may be beside it at once. What `ends` does ends the program with a status, from any thread.
 */
void threads_open(Machine *machine, unsigned most, void (*ends)(int status));

/* Whether there are threads beside the first. */
bool threads_are_left(void);
void threads_close(Machine *machine);

/* Whether the thread is to end, as another one has terminated it. A thread that waits for nothing asks this now and then. */
bool threads_end_here(Machine *machine);

/* What the prelude of threads calls. A thread, a mutex and a condition variable have a number each. A moment is a number of seconds, or #f
 * for never. */
PrimitiveFunction threads_limit, /* how many threads may be beside the first at once */
    threads_new,                 /* the number of a new thread */
    threads_start,               /* a thread of a number begins */
    threads_end,                 /* the thread that calls ends */
    threads_join,                /* waits for the end of a thread until a moment: 1, or 2 where it was terminated, or else 0 */
    threads_terminate,           /* ends a thread */
    threads_find,                /* a thread of a number that has begun and not ended, or #f */
    threads_yield,               /* lets others go on */
    threads_sleep,               /* waits until a moment */
    threads_now,                 /* the moment */
    threads_new_number,          /* the number of a new mutex or condition variable */
    threads_lock,       /* a mutex becomes a thread's, or no thread's (0), by a moment: 1, or 2 where its owner had ended, or else 0 */
    threads_name_owner, /* the mutex's record says whose it is, where the thread's number was given below 0 */
    threads_unlock,     /* a mutex is nobody's */
    threads_state,      /* a mutex's owner, 0 where it has none but is locked, #f where it isn't, #t where its owner has ended */
    threads_wait,       /* the same, and waits for a condition until a moment; whether it came */
    threads_signal;     /* a condition comes to one that waits, or to all */

#endif
