/*
 * lxr_threads.h: a garbage-collected heap that threads share, whose collector is proved. SPDX: MIT OR Apache-2.0
 *
 * The objects are those of lxr.h, without large ones. Up to 255 threads make them, read and write them, and let go of them, all at once.
 * Each enters the heap and has a MUTATOR there: REGISTERS of its own, sixteen or as many as the heap's settings say, up to 256, with numbers
 * from 0 on, and the right to call. A register is nil or holds an object; register 0 holds the WORLD, which is the same object for all
 * mutators and has 64 references: what threads share they find from there. As a thread enters, its other registers are nil. What registers
 * hold is kept, and what kept objects refer to; all else is reclaimed by PAUSES.
 *
 * Operations of different threads that meet at one field are atomic and in one order for all (sequentially consistent): a load finds the
 * last store before it, a swap or an add is one step. Nothing else has to be ordered: no operation takes a lock or waits for another
 * thread, but where a pause is wanted. Then each thread waits at its next operation, and the last to come makes the pause and lets all go
 * on. So a thread that makes no operation holds a pause up. One that is about to do something long without operations says so, by
 * lxr_mutator_rest and lxr_mutator_wake around it, and then holds up nobody; or it asks now and then whether a pause is wanted, by
 * lxr_mutator_poll.
 *
 * Each function answers a CODE of lxr.h. At any other code than LXR_OK nothing has changed but that pauses may have been made, and no out
 * parameter was written; what makes several operations has made those before the one that is refused. No number that is passed can do harm:
 * each is looked at.
 *
 * What a host owes: a handle, which is a pointer to a heap or a mutator, begins as null, and is written to by these functions alone; a
 * `lxr_mutator` is in one call at a time, in whichever thread of the system; a heap isn't closed while it is in another call; a pointer
 * that is passed isn't null, but for a handle's value, leads to as much as the call says, and to nothing of another pointer's; a
 * thread that waits for another one, for a lock that others hold, or for input, rests meanwhile; no call is made in a signal handler, nor
 * in a forked process of a heap that was opened before the fork.
 *
 * lxr_threads.c is the library behind this header: the waiting, and calls of several operations, in plain C over POSIX threads. What a pass may
 * do and what comes of it is the archive's, liblxr.a (lxr_passes.h), and proved.
 */
#ifndef LXR_THREADS_H
#define LXR_THREADS_H

#include "lxr.h"

#ifdef __cplusplus
extern "C" {
#endif

/* A heap, and a mutator of it: a thread's registers, and its right to call. */
typedef struct lxr_shared_heap lxr_shared_heap;
typedef struct lxr_mutator lxr_mutator;

/* Limits. */
#define LXR_MOST_MUTATORS      255u     /* mutators that are in a heap at once */
#define LXR_MOST_HELPERS       8u       /* helpers of a heap */
#define LXR_MOST_SHARED_BLOCKS 65536u   /* blocks of a heap: 2 GB */
#define LXR_MOST_LOG           65536u   /* entries of a mutator's log */
#define LXR_MOST_REMEMBER      1048576u /* entries of the remembered set */
#define LXR_MOST_EVERY         1000000u /* operations of a mutator between two pauses */
#define LXR_MOST_TRACE         1000000u /* pauses from one trace to the next, and within one */
#define LXR_LEAST_RUNS         64u      /* the fewest pieces of free lines that are listed at most: those of a block */

/* How long a pause took; where a collecting one came right after it, both. */
typedef struct lxr_pause_times {
    uint64_t number;    /* the number of the pause, from 1 on; of the last, where there are two */
    uint64_t gathering; /* nanoseconds from when the first thread waited for it until all had come */
    uint64_t pausing;   /* nanoseconds from there until they could go on */
    uint64_t kind;      /* its kind, LXR_KIND_PLAIN and so on; that of the last, where there are two */
} lxr_pause_times;

/*
 * What a heap is made of. The first word is the size of it all, as of lxr_settings.
 *
 * `pace` is a number of bytes of new objects, and a mutator's share of it is `pace` divided by the mutators that are in the heap, at rest or
 * not, as this one enters or wakes, or goes on after a pause. Each counts its own bytes: those of the objects that it has made since the last
 * pause, and that mutators have which had its place since then. An object has the bytes that lxr_set_pace says. Once they are its share, the
 * mutator wants a plain pause, right after the lxr_mutator_new that made the last. So n mutators that are in the heap all the while make at
 * most `pace` bytes, and one object each, between two pauses; and where only one of them makes objects, it wants a pause after an n-th of the
 * pace. LXR_PACE_ROOM is half of the bytes of all blocks here, whatever lives, but at least 64 KB and at most 1 MB. By LXR_PACE_NEVER bytes
 * want no pause, but by the room where that isn't all.
 *
 * `every` counts operations besides. The archive bounds it, so a mutator wants a pause after LXR_MOST_EVERY operations at the latest, and one
 * after the sixteenth after a sixteenth of that.
 *
 * `evacuate` is how many blocks a trace chooses at most as it begins, among those of whose 128 lines some are taken, and at most 32: in a
 * heap of up to 1,024 blocks the first ones, and in a larger one those with the fewest. What lives in them as the trace ends is copied
 * elsewhere by that pause, which is the longer for it, and they are whole again. By 0 none is, and what is old stays where it is.
 *
 * A trace, for which the helpers walk over all that lives, begins where the room says so, by a `trace` of 0: after the pause at which more than half of
 * the room is used that the last end of a trace or collecting pause left. Until one of these has told what lives, a room that grows counts as 64
 * blocks for it. By any other number it begins each so many pauses, whatever was used meanwhile: by a small one the helpers trace most of the time, and
 * by a large one dead cycles wait longer.
 * A trace ends at the first pause at which all that it has to mark is marked, or after `within` pauses: then that pause marks the rest by itself. So
 * by a small number the pauses that end traces grow with what lives; by 0 they find it marked by the helpers. But a trace takes longer then,
 * dead cycles wait for its end, and the pause that ends it clears away so many more.
 *
 * `registers` is how many registers each mutator has. What a pause takes grows with those in use alone (lxr_mutator_registers_in_use). Where
 * they are at most 254, each mutator has two more for the library, by which arrays are gone along.
 *
 * `blocks` are reserved. `room` is how many of them are in use before the library collects: after a pause that leaves more in use, each mutator asks
 * for a collecting one with its next operation, so that the next thread that goes on has it made. The pace is no more than the bytes that the last
 * pause left of the room, or than 64 KB where that is less; and while so much is used that a trace by the room is to begin, or would where one runs,
 * no more than an eighth of what the last one left. By `grow` the room is set after each collecting pause and each end of a trace: to the blocks
 * that are in use then and so many hundredths more, but at least 64, and at most all. Where `grow` is 0 it stays as the host has set it; then what a
 * collecting pause left in use and a quarter more counts as the room, where that is more. LXR_E_FULL comes only where all that is reserved is full.
 *
 * In a heap of more than 1,024 blocks at most `runs` pieces of free lines are listed after a pause for mutators to allocate in, besides all free
 * blocks: in turn round the heap, from where the last list ended, so that none is left out for ever. Fewer make the pauses of a large heap in
 * pieces shorter; but a mutator that comes to the end of the list waits for a pause. What isn't listed is free all the same, and counts where
 * LXR_E_FULL is told.
 *
 * Settings of version 0.2, which end before `evacuate`, are taken: then that is an eighth of the blocks, and there are sixteen registers. So are
 * those that end before `room`: then it is all, and doesn't grow; and those that end before `runs`.
 */
typedef struct lxr_shared_heap_settings {
    uint64_t size;     /* sizeof(lxr_shared_heap_settings) */
    uint32_t blocks;   /* blocks of 32 KB, 1 to 65,536 */
    uint32_t mutators; /* mutators that may be in it at once, 1 to 255 */
    uint32_t helpers;  /* threads of its own that do work of pauses ahead, 0 to 8: each lowers counts and traces */
    uint32_t log;      /* overwritten references that a mutator records between two pauses, 1 to 65,536: full, it wants a pause */
    uint32_t remember; /* references that a trace remembers, 1 to 1,048,576 */
    uint32_t every;    /* a mutator wants a pause after so many operations since the last one, 1 to 1,000,000 */
    uint32_t trace;    /* each pause whose number is a multiple of it begins a trace, where none runs, up to 1,000,000; 0: by the room */
    uint32_t within;   /* a trace ends at the latest so many pauses after it began, up to 1,000,000; 0: that many, or 1 without helpers */

    /* Told of each pause right after it, unless it is null, by the thread that made it. It waits for no thread and calls none of these. */
    void (*paused)(void *with, const lxr_pause_times *times);
    void *with; /* what it is told besides */

    uint64_t pace;      /* bytes of new objects between two pauses, or LXR_PACE_NEVER, or LXR_PACE_ROOM */
    uint32_t evacuate;  /* blocks that a trace evacuates at most, 0 to an eighth of all */
    uint32_t registers; /* registers of each mutator, LXR_REGISTERS to LXR_MOST_REGISTERS; 0: LXR_REGISTERS */
    uint32_t room;      /* blocks in use before it collects, up to all blocks; 0: all */
    uint32_t grow;      /* hundredths by which the room grows, up to LXR_MOST_GROW; 0: never */
    uint32_t runs;      /* pieces of free lines that are listed after a pause at most, LXR_LEAST_RUNS or more; 0: 65,536 */
    uint32_t unused;    /* nothing is said here */
} lxr_shared_heap_settings;

/*
 * Settings that mostly do, for so many blocks and mutators: sixteen registers each; plain pauses come by the size of the heap, and traces by
 * the room, each of which evacuates an eighth of the blocks at most, and at most 64; and room for all, until the first collecting pause or end of a
 * trace sets it to twice what is in use. `blocks` is evaluated more than once.
 */
#define LXR_SHARED_HEAP_SETTINGS(blocks, mutators) \
    { \
        sizeof(lxr_shared_heap_settings), (blocks), (mutators), 1, 1024, 65536, 65536, 0, 0, 0, 0, LXR_PACE_ROOM, \
            (uint32_t)((blocks) < 512 ? (blocks) / 8 : 64), LXR_REGISTERS, 0, LXR_GROW, 0, 0 \
    }

/* ---- A heap ---- */

/*
 * Opens a heap, and starts its helpers.
 * Codes: LXR_E_IN_USE, where the handle isn't null; LXR_E_SIZE, where a setting is out of its range, or `size` none that is known;
 * LXR_E_MEMORY, which is the answer too where the system starts no further thread. Cost: grows with the number of blocks.
 */
lxr_code lxr_shared_heap_open(lxr_shared_heap **heap, const lxr_shared_heap_settings *settings);

/*
 * Closes a heap without mutators: its helpers end, all its objects go, its memory is returned, and the handle is null.
 * Codes: LXR_E_NO_HEAP, where the handle is null; LXR_E_IN_USE, where a mutator is in it.
 */
lxr_code lxr_shared_heap_close(lxr_shared_heap **heap);

/* What lxr_shared_heap_count tells besides LXR_COUNT_PAUSES, _PROMOTED, _DEAD, _STUCK, _SWEPT, _FREE_BLOCKS, _ROOM and _LAST_KIND of lxr.h. */
#define LXR_COUNT_COLLECTING 8u  /* pauses that were collecting, since the heap was opened */
#define LXR_COUNT_ENTERED    9u  /* mutators that are in it */
#define LXR_COUNT_RESTING    10u /* of these, mutators that rest */

/*
 * `*number` becomes one of these numbers, as it stands after the last pause.
 * Codes: LXR_E_NO_HEAP, LXR_E_WHAT. Cost: constant, and a lock.
 */
lxr_code lxr_shared_heap_count(const lxr_shared_heap *heap, uint32_t what, uint64_t *number);

/*
 * So many blocks are in use before the library collects, from the next pause on, up to as many as are reserved; 0: all.
 * Codes: LXR_E_NO_HEAP; LXR_E_SIZE, where fewer are reserved. Cost: constant, and a lock.
 */
lxr_code lxr_shared_heap_set_room(lxr_shared_heap *heap, uint32_t blocks);

/*
 * The room grows by so many hundredths from the next collecting pause or end of a trace on; 0: it stays.
 * Codes: LXR_E_NO_HEAP; LXR_E_SIZE, above LXR_MOST_GROW. Cost: constant, and a lock.
 */
lxr_code lxr_shared_heap_set_grow(lxr_shared_heap *heap, uint32_t hundredths);

/* ---- Mutators ---- */

/*
 * Enters a heap: the handle is a mutator of it, whose register 0 holds the world, and whose other registers are nil. Where a pause is
 * wanted it waits for it.
 * Codes: LXR_E_NO_HEAP, where the heap's handle is null; LXR_E_IN_USE, where the mutator's isn't; LXR_E_MEMORY; LXR_E_NUMBER, where as many
 * mutators are in it as may be; LXR_E_LOST. Cost: constant, and a lock.
 */
lxr_code lxr_mutator_enter(lxr_shared_heap *heap, lxr_mutator **mutator);

/*
 * Leaves the heap: the mutator lets go of what its registers hold, its place is free for another one, and the handle is null. So it is too
 * where the mutator rests, or where the heap is lost.
 * Code: LXR_E_NO_HEAP, where the handle is null. Cost: that of a lxr_mutator_nil for each register but the first, up to the last that it has
 * used, and a lock.
 */
lxr_code lxr_mutator_leave(lxr_mutator **mutator);

/*
 * From here until lxr_mutator_wake the mutator holds up no pause, and makes no operation. Where it was the last that a pause waited for, it
 * makes the pause.
 * Codes: LXR_E_NO_HEAP, LXR_E_RESTS, where it rests already, LXR_E_LOST. Cost: constant, and a lock.
 */
lxr_code lxr_mutator_rest(lxr_mutator *mutator);

/*
 * The mutator has rested, and goes on with operations. Its registers hold what they held. Where a pause is wanted it waits for it.
 * Codes: LXR_E_NO_HEAP, LXR_E_AWAKE, where it doesn't rest, LXR_E_LOST. Cost: constant, and a lock.
 */
lxr_code lxr_mutator_wake(lxr_mutator *mutator);

/*
 * Takes part in a pause, where one is wanted; else it does nothing. Codes: those of each operation. Cost: constant, but for the pause.
 */
lxr_code lxr_mutator_poll(lxr_mutator *mutator);

/* ---- Operations ---- */

/*
 * Registers are the mutator's own, as many as the heap's settings say. `dest` isn't 0, since register 0 keeps the world. An operation and
 * lxr_mutator_poll, _pause and _collect have these codes before their own: LXR_E_NO_HEAP, where the handle is null; LXR_E_RESTS, where the
 * mutator rests; LXR_E_LOST, where there was no memory to go on after a pause, so that the heap is only to be left and closed. A mutator
 * lives for ever: objects are given new names now and then, by a collecting pause. Only a heap that is so full through sixteen million
 * operations, or one million of a mutator after the sixteenth, that at each of these pauses an object waited for room has none left to give:
 * then an operation says LXR_E_USED_UP.
 */

/*
 * Register `dest` holds a new object with `refs` references, all nil, and `words` data words, all 0, up to 1,023 each. Where there is no
 * room it waits for a pause, and for a collecting one before it says LXR_E_FULL: then the objects that can be reached leave no room.
 * Codes: LXR_E_REGISTER, LXR_E_SIZE, LXR_E_FULL. Cost: grows with the size of the object.
 */
lxr_code lxr_mutator_new(lxr_mutator *mutator, uint32_t dest, uint32_t refs, uint32_t words);

/*
 * Register `dest` holds what reference `index` of the object in register `base` refers to, or is nil where that is nil.
 * Codes: LXR_E_REGISTER, LXR_E_NIL, LXR_E_INDEX. Cost: constant.
 */
lxr_code lxr_mutator_load(lxr_mutator *mutator, uint32_t dest, uint32_t base, uint32_t index);

/*
 * Reference `index` of the object in register `base` becomes what register `source` holds, or nil. The first store to a reference of a kept
 * object between two pauses, by whichever mutator, records what it overwrites.
 * Codes: LXR_E_REGISTER, LXR_E_NIL, LXR_E_INDEX. Cost: constant.
 */
lxr_code lxr_mutator_store(lxr_mutator *mutator, uint32_t base, uint32_t index, uint32_t source);

/*
 * Reference `index` of the object in register `base` becomes what register `source` holds, or nil, and register `dest` holds what it was,
 * in one step: of two threads that swap at once, one finds what the other has left.
 * Codes: LXR_E_REGISTER, LXR_E_NIL, LXR_E_INDEX. Cost: as that of lxr_mutator_store.
 */
lxr_code lxr_mutator_swap(lxr_mutator *mutator, uint32_t dest, uint32_t base, uint32_t index, uint32_t source);

/*
 * `*word` becomes data word `index` of the object in register `base`.
 * Codes: LXR_E_REGISTER, LXR_E_NIL, LXR_E_INDEX. Cost: constant.
 */
lxr_code lxr_mutator_get(lxr_mutator *mutator, uint32_t base, uint32_t index, uint64_t *word);

/*
 * Data word `index` of the object in register `base` becomes `word`.
 * Codes: LXR_E_REGISTER, LXR_E_NIL, LXR_E_INDEX. Cost: constant.
 */
lxr_code lxr_mutator_put(lxr_mutator *mutator, uint32_t base, uint32_t index, uint64_t word);

/*
 * Data word `index` of the object in register `base` becomes its sum with `word`, modulo 2^64, and `*old` what it was, in one step.
 * Codes: LXR_E_REGISTER, LXR_E_NIL, LXR_E_INDEX. Cost: constant.
 */
lxr_code lxr_mutator_add(lxr_mutator *mutator, uint32_t base, uint32_t index, uint64_t word, uint64_t *old);

/*
 * `*same` becomes 1 where both registers are nil or hold one object, and else 0.
 * Code: LXR_E_REGISTER. Cost: constant.
 */
lxr_code lxr_mutator_same(lxr_mutator *mutator, uint32_t left, uint32_t right, uint32_t *same);

/*
 * Register `dest` holds what register `source` holds, or is nil.
 * Code: LXR_E_REGISTER. Cost: constant.
 */
lxr_code lxr_mutator_move(lxr_mutator *mutator, uint32_t dest, uint32_t source);

/*
 * Register `dest` is nil: it lets go of its object.
 * Code: LXR_E_REGISTER. Cost: constant.
 */
lxr_code lxr_mutator_nil(lxr_mutator *mutator, uint32_t dest);

/*
 * The first `count` registers stay in use, and each one from number `count` on is nil, as by lxr_mutator_nil. What a pause takes grows with
 * the registers in use: it looks at all of a mutator's up to the last that holds an object, or did at the last pause. So a mutator that has
 * 256 and uses 20 makes it look at 20.
 * Code: LXR_E_REGISTER, where `count` is 0 or more than the mutator has. Cost: that of a lxr_mutator_nil for each register behind the first
 * `count`, up to the last that it has used since it entered or last called this.
 */
lxr_code lxr_mutator_registers_in_use(lxr_mutator *mutator, uint32_t count);

/* ---- Several at once ---- */

/*
 * Each of these makes so many operations, in order: pauses may come between two of them, and other threads may see what is done so far. All
 * numbers of registers, sizes and operations are looked at first, and where one doesn't fit nothing is done. Where an operation isn't LXR_OK
 * its code is answered, and those before it are done. `registers` and `sources` are numbers of registers. A pointer isn't null where its
 * count is 0 either; then only the numbers are looked at. The cost is that of the operations.
 */

/*
 * A lxr_mutator_new, a lxr_mutator_store of each of `refs` sources, and a lxr_mutator_put of each of `words` words. LXR_E_REGISTER is
 * answered too where `dest` is among the sources. No other thread can reach the object before it is stored elsewhere.
 * Codes: LXR_E_REGISTER, LXR_E_SIZE, LXR_E_FULL.
 */
lxr_code lxr_mutator_new_with(lxr_mutator *mutator, uint32_t dest, const uint32_t *sources, size_t refs, const uint64_t *data,
                              size_t words);

/*
 * A lxr_mutator_get of each of `count` data words from `first` on.
 * Codes: LXR_E_REGISTER, LXR_E_NIL, LXR_E_INDEX.
 */
lxr_code lxr_mutator_get_many(lxr_mutator *mutator, uint32_t base, uint32_t first, uint64_t *words, size_t count);

/*
 * A lxr_mutator_put of each of `count` data words from `first` on.
 * Codes: LXR_E_REGISTER, LXR_E_NIL, LXR_E_INDEX.
 */
lxr_code lxr_mutator_put_many(lxr_mutator *mutator, uint32_t base, uint32_t first, const uint64_t *words, size_t count);

/*
 * A lxr_mutator_load of each of `count` references from `first` on, into registers but the first. `base` may be the last of them; elsewhere
 * among them it is LXR_E_REGISTER.
 * Codes: LXR_E_REGISTER, LXR_E_NIL, LXR_E_INDEX.
 */
lxr_code lxr_mutator_load_many(lxr_mutator *mutator, uint32_t base, uint32_t first, const uint32_t *registers, size_t count);

/*
 * A lxr_mutator_store of each of `count` references from `first` on.
 * Codes: LXR_E_REGISTER, LXR_E_NIL, LXR_E_INDEX.
 */
lxr_code lxr_mutator_store_many(lxr_mutator *mutator, uint32_t base, uint32_t first, const uint32_t *registers, size_t count);

/* What lxr_mutator_apply does besides the operations of lxr.h: */
#define LXR_OP_SWAP 9u  /* dest, base, index; the word is the source */
#define LXR_OP_ADD  10u /* base, index; the word is what is added, and becomes what stood there */

/*
 * Does `count` operations. `*done` becomes how many were LXR_OK, whatever is answered. Where the numbers of several don't fit, the code is
 * that of the first such; LXR_E_WHAT says that there is no such operation.
 * Codes: LXR_E_REGISTER, LXR_E_SIZE, LXR_E_NIL, LXR_E_INDEX, LXR_E_FULL, LXR_E_WHAT.
 */
lxr_code lxr_mutator_apply(lxr_mutator *mutator, lxr_operation *operations, size_t count, size_t *done);

/* ---- Arrays ---- */

/*
 * Arrays are those of lxr.h, with the same shapes: up to 1,023 elements are the references of one object without data words, and more of them
 * are a root, whose data word is the length, and parts of 1,023. Any object may be taken for one, as there.
 *
 * Each of these makes so many operations, in order, as those above: pauses may come between two of them, and other threads may see what is
 * done so far, and write meanwhile. All numbers that are passed are looked at first, by the array's length and its parts too, and where one
 * doesn't fit nothing is written. Later an operation stops them only where a root was written to meanwhile, by another thread or since it is
 * itself a part that is written to, or for LXR_E_USED_UP and LXR_E_LOST: then its code is answered, and those before it are done.
 *
 * What they hold on their way stands in two registers of the library's own, behind the mutator's: they are nil between calls, and no call can
 * name them. A heap of 255 or 256 registers has no place for them: there each of these calls answers LXR_E_REGISTER. A pause that comes
 * within such a call looks at all registers of the mutator.
 */

/*
 * Register `dest` holds a new array of `length` elements, 0 to 1,046,529, all nil. It is a lxr_mutator_new of each of its objects, the root
 * first and then the parts in order, and so many stores. No other thread can reach any of them before the array is stored elsewhere. Where
 * there is no room for all of them it is LXR_E_FULL: `dest` holds what it held, and a pause that collects reclaims those that were made.
 * Codes: LXR_E_REGISTER, LXR_E_SIZE, LXR_E_FULL. Cost: grows with `length`.
 */
lxr_code lxr_mutator_array_new(lxr_mutator *mutator, uint32_t dest, uint32_t length);

/*
 * `*length` becomes the number of elements of the array in register `base`.
 * Codes: LXR_E_REGISTER, LXR_E_NIL. Cost: four operations of a root, and some thirteen of another array.
 */
lxr_code lxr_mutator_array_length(lxr_mutator *mutator, uint32_t base, uint32_t *length);

/*
 * Register `dest` holds what element `index` of the array in register `base` refers to, or is nil where that is nil: by a load that is in one
 * order for all threads with the stores and swaps of that element.
 * Codes: LXR_E_REGISTER, LXR_E_NIL, LXR_E_INDEX. Cost: two operations, and four of a root.
 */
lxr_code lxr_mutator_array_load(lxr_mutator *mutator, uint32_t dest, uint32_t base, uint32_t index);

/*
 * Element `index` of the array in register `base` becomes what register `source` holds, or nil.
 * Codes: LXR_E_REGISTER, LXR_E_NIL, LXR_E_INDEX. Cost: as that of lxr_mutator_array_load.
 */
lxr_code lxr_mutator_array_store(lxr_mutator *mutator, uint32_t base, uint32_t index, uint32_t source);

/*
 * Element `index` of the array in register `base` becomes what register `source` holds, or nil, and register `dest` holds what it was, in one
 * step.
 * Codes: LXR_E_REGISTER, LXR_E_NIL, LXR_E_INDEX. Cost: as that of lxr_mutator_array_load.
 */
lxr_code lxr_mutator_array_swap(lxr_mutator *mutator, uint32_t dest, uint32_t base, uint32_t index, uint32_t source);

/*
 * The `count` elements from `first` on of the array in register `base` become what register `source` holds, or nil: a store of each, from the
 * first on. Other threads may see some of them written and others not.
 * Codes: LXR_E_REGISTER, LXR_E_NIL, LXR_E_INDEX. Cost: grows with `count`; one operation for each element.
 */
lxr_code lxr_mutator_array_fill(lxr_mutator *mutator, uint32_t base, uint32_t first, uint32_t count, uint32_t source);

/*
 * The `count` elements from `at` on of the array in register `to` become what those from `first` on of the array in register `from` were:
 * a load and a store of each, one element after another; from the last on where `at` is above `first`, so that elements of one array may
 * overlap, as those of memmove. Other threads may see some of them copied and others not; an element that another thread writes meanwhile is
 * copied as it was or as it is then; and what one has written to an element of `to` is lost where that is copied over later.
 * Codes: LXR_E_REGISTER, LXR_E_NIL, LXR_E_INDEX. Cost: grows with `count`; two operations for each element, and three between two roots.
 */
lxr_code lxr_mutator_array_copy(lxr_mutator *mutator, uint32_t to, uint32_t at, uint32_t from, uint32_t first, uint32_t count);

/* ---- Words ---- */

/*
 * Words as those of lxr.h, but up to 1,023 alone, since a shared heap has no large objects: they are the data words of an object without
 * references. Any object may be taken for words, and has its data words. Where one of several isn't there none is read or written; else they
 * are so many operations, as above.
 */

/*
 * Register `dest` holds `length` new words, 0 to 1,023, all 0.
 * Codes: LXR_E_REGISTER, LXR_E_SIZE, LXR_E_FULL. Cost: as that of lxr_mutator_new.
 */
lxr_code lxr_mutator_words_new(lxr_mutator *mutator, uint32_t dest, uint32_t length);

/*
 * `*length` becomes the number of the words in register `base`.
 * Codes: LXR_E_REGISTER, LXR_E_NIL. Cost: some ten operations.
 */
lxr_code lxr_mutator_words_length(lxr_mutator *mutator, uint32_t base, uint32_t *length);

/*
 * `*word` becomes word `index` of those in register `base`.
 * Codes: LXR_E_REGISTER, LXR_E_NIL, LXR_E_INDEX. Cost: constant.
 */
lxr_code lxr_mutator_words_get(lxr_mutator *mutator, uint32_t base, uint32_t index, uint64_t *word);

/*
 * Word `index` of those in register `base` becomes `word`.
 * Codes: LXR_E_REGISTER, LXR_E_NIL, LXR_E_INDEX. Cost: constant.
 */
lxr_code lxr_mutator_words_put(lxr_mutator *mutator, uint32_t base, uint32_t index, uint64_t word);

/*
 * The `count` words at `words` become those in register `base` from `first` on.
 * Codes: LXR_E_REGISTER, LXR_E_NIL, LXR_E_INDEX. Cost: grows with `count`.
 */
lxr_code lxr_mutator_words_read(lxr_mutator *mutator, uint32_t base, uint32_t first, uint64_t *words, size_t count);

/*
 * The words in register `base` from `first` on become the `count` words at `words`.
 * Codes: LXR_E_REGISTER, LXR_E_NIL, LXR_E_INDEX. Cost: grows with `count`.
 */
lxr_code lxr_mutator_words_write(lxr_mutator *mutator, uint32_t base, uint32_t first, const uint64_t *words, size_t count);

/* ---- Pauses ---- */

/*
 * A pause is made before this comes back. It reclaims what counts show to be dead, and is a collecting one where some thread asks for that
 * at the same time.
 * Cost: waits until all other threads have come to an operation or rest, and that of the pause.
 */
lxr_code lxr_mutator_pause(lxr_mutator *mutator);

/*
 * A collecting pause is made before this comes back: exactly what can be reached is left, cycles and all.
 * Cost: as that of lxr_mutator_pause, and grows besides with all that can be reached.
 */
lxr_code lxr_mutator_collect(lxr_mutator *mutator);

/*
 * A pause is made before this comes back, and in it memory of blocks that are wholly free then goes back to the system, but for parts of a page; it
 * comes again page by page where new objects take them. Nothing else that a host can tell changes. Where lxr_mutator_collect comes before it,
 * most is given back. As a heap is opened all of its blocks take memory, so that this gives back what wasn't used either. What a host owes:
 * malloc gives private memory that is no file's, as that of the C library does.
 * Cost: as that of lxr_mutator_pause; and that pause grows besides with the number of blocks, and with the words of the free ones, which are all
 * read, while all threads wait. How long that takes was measured for a heap of one thread alone (lxr_trim).
 */
lxr_code lxr_mutator_trim(lxr_mutator *mutator);

#ifdef __cplusplus
}
#endif
#endif
