/*
 * Memory for what is needed while one form is read and compiled. SPDX: MIT OR Apache-2.0
 */
#ifndef ARENA_H
#define ARENA_H

#include <stddef.h>

/* Zeros, aligned for anything. */
void *arena_take(size_t bytes);

/* The same, which stays until the end. */
void *arena_keep(size_t bytes);

/* Lets go of all that was taken and isn't kept. */
void arena_clear(void);
void arena_close(void);

#endif
