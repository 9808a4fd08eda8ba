/*
 * The heap, as the interpreter sees it. SPDX: MIT OR Apache-2.0
 *
 * It has one of four versions, chosen at build: memory_lxr.c on the proved collector, memory_threads.c on the one that threads share,
 * memory_boehm.c on Boehm's, and memory_malloc.c, which never frees. An object has up to OBJECT_MOST references and as many data words.
 * WORDS are up to WORDS_MOST data words alone, and an ARRAY has up to ARRAY_MOST references alone: what each of them is made of is the
 * heap's. Objects are held by up to MEMORY_REGISTERS registers, by number. What a register, or an object that a register leads to, holds is
 * kept.
 *
 * Registers that nobody reads any more let go of what they hold before a pause, and not at once: a count of what is made, `memory_left`,
 * says when that is due. Then whoever runs the program lets go of them, and calls memory_pause.
 *
 * Where threads share the heap (THREADS), each has registers of its own from memory_enter to memory_leave. Register 0 is the same for all:
 * an object with WORLD_REFERENCES references. An operation on a field is one step. A thread that waits rests meanwhile.
 */
#ifndef MEMORY_H
#define MEMORY_H

#include "value.h"
#include <stddef.h>
#include <stdio.h>

enum { MEMORY_REGISTERS = 254, OBJECT_MOST = 1023, ARRAY_MOST = 1046529, BLOCK_BYTES = 32768 };
#ifdef THREADS
enum { WORDS_MOST = OBJECT_MOST };
#else
enum { WORDS_MOST = 524287 };
#endif

typedef struct memory_options {
    uint32_t blocks;      /* the heap's size, in blocks of 32 KB */
    uint32_t body_blocks; /* room for long objects of words, in such blocks */
    uint32_t every;       /* bytes of new objects between two plain pauses; 0: the version's own choice */
    bool pauses;          /* whether pauses are timed */
    uint32_t registers;   /* of each thread, 16 to MEMORY_REGISTERS */
    uint32_t threads;     /* threads beside the first that may be at once */
    uint32_t helpers;     /* threads that help the collector; 0: the version's own choice */
} MemoryOptions;

/* Whether there is memory for such a heap. */
bool memory_open(const MemoryOptions *options);
void memory_close(void);

/* A new object, whose references are nil and whose words are 0. Whether there is room. */
bool memory_new(unsigned dest, unsigned references, unsigned words);
void memory_load(unsigned dest, unsigned base, unsigned index);
void memory_store(unsigned base, unsigned index, unsigned source);
Word memory_get(unsigned base, unsigned index);
void memory_put(unsigned base, unsigned index, Word word);
void memory_move(unsigned dest, unsigned source);
void memory_nil(unsigned dest);
bool memory_same(unsigned left, unsigned right);

/* All registers from a number on become nil. */
void memory_registers_in_use(unsigned count);

/* A new object with its fields: what these registers hold, among which `dest` isn't, and these words. Whether there is room. */
bool memory_new_with(unsigned dest, const uint32_t *sources, size_t references, const Word *data, size_t words);

/* Many fields at once, from `first` on. The base may be the last of the registers that are loaded. */
void memory_get_many(unsigned base, unsigned first, Word *into, size_t count);
void memory_put_many(unsigned base, unsigned first, const Word *from, size_t count);
void memory_load_many(unsigned base, unsigned first, const uint32_t *registers, size_t count);

/* New words, which are 0. Whether there is room. Those that an object has room for are one. What reads and writes them is told how many
 * there are in all. */
bool memory_words(unsigned dest, size_t count);
void memory_read(unsigned base, size_t all, size_t index, Word *into, size_t count);
void memory_write(unsigned base, size_t all, size_t index, const Word *from, size_t count);
Word memory_word(unsigned base, size_t all, size_t index);
void memory_set_word(unsigned base, size_t all, size_t index, Word word);

/* A new array, whose elements are nil. Whether there is room: else `dest` holds what it held. A copy may be of elements that overlap. */
bool memory_array(unsigned dest, size_t length);
void memory_array_fill(unsigned base, size_t first, size_t count, unsigned source);
void memory_array_copy(unsigned to, size_t at, unsigned from, size_t first, size_t count);

/* Register `base` holds an array of so many elements, and then the object that has one of them: which of its references that is. An array
 * of up to OBJECT_MOST elements is that object itself. */
unsigned memory_element(unsigned base, size_t length, size_t index);

/* Bytes that the thread may make until registers are to let go of what isn't needed. */
#ifdef THREADS
extern __thread int64_t memory_left;
#else
extern int64_t memory_left;
#endif
static inline bool memory_is_due(void) { return memory_left < 0; }

/* They have. A pause is made, where the heap leaves that to its host. */
void memory_pause(void);
void memory_collect(void);

/* How many pauses there were, by kind, and how long they took. */
void memory_report(FILE *to);

#ifdef THREADS
enum { WORLD_REFERENCES = 64 };

/* Registers for another thread, which it has from memory_enter on, or null where there is no memory for them; the thread that calls rests.
 * Until the other has them or memory_forget, pauses wait for it. The thread that opens the heap has registers at once. */
typedef struct memory_place MemoryPlace;
MemoryPlace *memory_place(void);
void memory_forget(MemoryPlace *place);
void memory_enter(MemoryPlace *place);
void memory_leave(void);

/* No pause waits for the thread from here until it wakes, and it calls nothing else of these. */
void memory_rest(void);
void memory_wake(void);

/* Takes part in a pause, if one is wanted. A thread that calls nothing else of these for long calls this. */
void memory_poll(void);

/* The first word of an object that a register holds; whether it holds one. */
bool memory_first(unsigned base, Word *word);
#else
static inline void memory_rest(void) {}
static inline void memory_wake(void) {}
#endif

#endif
