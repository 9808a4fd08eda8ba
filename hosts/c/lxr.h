/*
 * lxr.h: a garbage-collected heap for one thread, whose collector is proved. SPDX: MIT OR Apache-2.0
 *
 * An OBJECT has up to 1,023 references and up to 1,023 data words of 64 bits; their numbers are fixed when it is made. A LARGE OBJECT has
 * neither; it has a body of 1 to 128 blocks of 4,096 words each, which never moves. Objects have no addresses here, since pauses move them.
 *
 * A host holds objects by REGISTERS, which have numbers from 0 on: sixteen, or as many as the heap's settings say, up to 256. A register is
 * nil or holds an object. What the registers hold is kept, and what kept objects refer to; all else is reclaimed by PAUSES, and nothing else
 * ever is. At first register 0 holds the WORLD and the others are nil: an object with 64 references and no data words, which is kept even
 * where no register holds it. A frame of a call stack is an object, or some of the registers.
 *
 * Each function but lxr_version and lxr_message takes a heap and answers a CODE. LXR_OK is 0. At any other code nothing has changed, no out
 * parameter was written, and the call may be made again; only pauses may have been made, by calls that make objects, which look for room,
 * and by those that store, whose log may be full. lxr_apply alone may have done a part of what it was to do, and says how much in `*done`; and
 * lxr_array_fill and lxr_array_copy, where a host has made a root of parts itself a part.
 * Where several codes would do, the least of them is answered, unless a call says otherwise. No number that is passed can do harm: each is
 * looked at.
 *
 * What a host owes: a handle begins as zeros, isn't copied or written to, and is in one call at a time; a pointer that is passed isn't
 * null, leads to as much as the call says, and to nothing of the handle or of another pointer's; no call is made in a signal handler.
 *
 * A call that only looks takes a `const` heap: nothing that a host can tell changes. `const` promises nothing of calls at the same time:
 * two looks too are made one after another.
 *
 * What a cost grows with is said at each function; bench/c/run of the project measures them.
 */
#ifndef LXR_H
#define LXR_H

#include <stddef.h>
#include <stdint.h>

#ifdef __cplusplus
extern "C" {
#endif

/* The version of this header, as lxr_version tells that of the archive. */
#define LXR_VERSION_MAJOR 0u
#define LXR_VERSION_MINOR 2u
#define LXR_VERSION_PATCH 0u
#define LXR_VERSION       (LXR_VERSION_MAJOR << 16 | LXR_VERSION_MINOR << 8 | LXR_VERSION_PATCH)

/* A heap: empty while it is zeros (LXR_HEAP_INIT, a static, calloc), and again once it is closed. Its two fields are the library's own. */
typedef struct lxr_heap {
    uint64_t live;
    void *block;
} lxr_heap;

#define LXR_HEAP_INIT \
    { 0, 0 }

/* Limits. */
#define LXR_REGISTERS        16u      /* registers of a heap whose settings don't say how many, and the fewest that they may say */
#define LXR_MOST_REGISTERS   256u     /* registers of a heap */
#define LXR_WORLD_REFS       64u      /* references of the world */
#define LXR_MOST_REFS        1023u    /* references of an object */
#define LXR_MOST_WORDS       1023u    /* data words of an object */
#define LXR_MOST_BODY_BLOCKS 128u     /* blocks of a body */
#define LXR_MOST_BLOCKS      65536u   /* blocks of a heap, and blocks for bodies */
#define LXR_BLOCK_WORDS      4096u    /* words of a block: 32 KB */
#define LXR_MOST_ELEMENTS    1046529u /* elements of an array: 1,023 parts of 1,023 */
#define LXR_MOST_LENGTH      524287u  /* words that are made by lxr_words_new: a body of 128 blocks, without the word for its length */

/* What a call answers. */
typedef uint32_t lxr_code;

#define LXR_OK         0u /* it is done */
#define LXR_E_NO_HEAP  1u /* the handle is empty: it was never opened, or is closed */
#define LXR_E_IN_USE   2u /* lxr_open: the handle has a heap already */
#define LXR_E_REGISTER 3u /* the heap has no such register, or it stands where it can't; or an array wants two that the heap hasn't */
#define LXR_E_SIZE     4u /* a number of references, data words, elements, blocks or registers is out of its range, or the size of settings */
#define LXR_E_NIL      5u /* the base register is nil, or a part of an array */
#define LXR_E_INDEX    6u /* the object has no such reference, data word or element, or no body with such words */
#define LXR_E_FULL     7u /* what can be reached leaves no room */
#define LXR_E_MEMORY   8u /* lxr_open: the machine has no memory for it */
#define LXR_E_WHAT     9u /* lxr_count: there is no such number; lxr_apply: no such operation */

/* Codes of heaps that threads share, beside those: of lxr_threads.h .. */
#define LXR_E_NUMBER  10u /* there is no such pass, or no place for a further mutator */
#define LXR_E_RESTS   11u /* the mutator rests */
#define LXR_E_AWAKE   12u /* the mutator doesn't rest */
#define LXR_E_USED_UP 13u /* the mutator has done as many operations as it may before names are renewed */
#define LXR_E_LOST    14u /* there was no memory to go on after a pause */

/* .. and of lxr_passes.h, which stands below it. */
#define LXR_E_WAITS      15u /* the operation is taken up, and waits for a pause */
#define LXR_E_HELD       16u /* the operation isn't taken up: a pause is wanted first */
#define LXR_E_BUSY       17u /* an operation that waited is still to be answered; or, of a heap, that a pass is coming home */
#define LXR_E_AWAY       18u /* the pass, or one of them, is away */
#define LXR_E_HOME       19u /* the pass is at home */
#define LXR_E_KIND       20u /* the pass is of the other kind: a mutator's, or a helper's */
#define LXR_E_EPOCH      21u /* an epoch is open, or none is, and the call is of the other time */
#define LXR_E_NOT_WANTED 22u /* no pause is wanted */
#define LXR_E_NOTHING    23u /* no operation was ordered yet; of lxr_trim_next, no block is free */
#define LXR_E_ENDED      24u /* all mutators have ended; no call ends one */

/* ---- A heap ---- */

/* Paces of a heap, beside numbers of bytes: how many bytes of new objects are made between two pauses. */
#define LXR_PACE_NEVER 0u         /* any number: pauses come where they are asked for or needed, or by the room */
#define LXR_PACE_ROOM  UINT64_MAX /* half of what the last pause left in wholly free blocks, but at least 64 KB and at most 1 MB */

#define LXR_GROW      100u   /* hundredths by which the room grows, by LXR_SETTINGS: twice what lives */
#define LXR_MOST_GROW 10000u /* the most of them */

#define LXR_WORK      8u       /* units for each 64 bytes of new objects, by LXR_SETTINGS */
#define LXR_MOST_WORK 1000000u /* the most of them */

/*
 * What a heap is made of. The first word is the size of it all, so that a program that was compiled with an older, shorter lxr_settings
 * works with a later archive: what it doesn't know is as it was before.
 *
 * Where `registers` are at most 254, the heap has two more for the library, by which arrays are gone along. With 255 or 256 of them an array has
 * at most 1,023 elements, and none is copied.
 *
 * `blocks` are reserved. `room` is how many of them are in use before the library collects: a pause that is due collects, where more are. Where the
 * room isn't all, a pause is due by it too: once the bytes of new objects are as many as it had left, but at least 64 KB, and at once where a pause
 * left more in use. By `grow` the library sets the room by itself, after each collecting pause: to the blocks that this left in use and so many
 * hundredths more, but at least 64, and at most all. So a heap takes what it needs of the machine's memory, and LXR_E_FULL comes, as ever, only where
 * all that is reserved is full. Where `grow` is 0 the room stays as the host has set it; then what a collecting pause left in use and a quarter more
 * counts as the room, where that is more, so that a room which is too small makes no pause after pause: a `grow` of a few hundredths has no such
 * care. Room is told in bytes of objects, so where these leave blocks half empty, half as many blocks again may be in use by then. Bodies have
 * blocks of their own, and no room.
 *
 * A pause queues counts to be lowered, and the next one lowers them, with all that dies by it, however much that is. By `work` the library does
 * that between the two, before an object is made, in slices of 64 * `work` units (lxr_work). The first slice after a pause is due once 4,096 bytes of
 * new objects were made, or as many as make a pause due, where that is less; and each further one 4,096 bytes after the one before, until nothing is
 * left for slices to do. A pause by the pace comes only then. By the room, where the log is full or no place is found, and where the host asks, one
 * comes at once, and does first what still waits. Slices leave to the pause what begins with the death of an object that has more references, nil or
 * not, than there is place left in the list of what waits, which has 4,096 and one for each register. An array of any length (lxr_array_new) takes
 * some 2,000 of these; after a pause by a full log an object of a few references may find none. That pause, and each where `work` is 0, is as long as
 * what dies by it is large.
 */
typedef struct lxr_settings {
    uint64_t size;        /* sizeof(lxr_settings) */
    uint32_t blocks;      /* blocks of 32 KB for objects, 1 to 65,536 */
    uint32_t body_blocks; /* blocks of 32 KB for bodies, 1 to 65,536 */
    uint64_t pace;        /* as of lxr_set_pace */
    uint32_t registers;   /* registers, 16 to 256; 0: 16, as of settings of version 0.2, which end before it */
    uint32_t unused;      /* nothing is said here */
    uint32_t room;        /* as of lxr_set_room, up to all blocks; 0: all, as of settings that end before it */
    uint32_t grow;        /* as of lxr_set_grow; 0, as of those settings, for never */
    uint32_t work;        /* as of lxr_set_work; 0, as of settings that end before it, for none */
    uint32_t reserved;    /* nothing is said here */
} lxr_settings;

/* Settings that mostly do, for so many blocks: sixteen registers; plain pauses come by the room there is, and a collecting one where it is
 * needed: at first where all blocks are in use, and after a collecting pause where twice as many are as that left; and what waits for a plain
 * pause is done before it, in slices. */
#define LXR_SETTINGS(blocks, body_blocks) \
    { sizeof(lxr_settings), (blocks), (body_blocks), LXR_PACE_ROOM, LXR_REGISTERS, 0, 0, LXR_GROW, LXR_WORK, 0 }

/* The version of the archive: 65,536 times the major, 256 times the minor, and the patch number. */
uint32_t lxr_version(void);

/*
 * Opens a heap of these settings. All memory that the heap will ever use is reserved here, and returned by lxr_close; no other call asks for
 * memory. What is reserved is written as it is used, 32 KB at a time, so a system that promises more than it has may find out later, and end
 * the process then.
 * Codes: LXR_E_IN_USE; LXR_E_SIZE, where a number of blocks or of registers, the room, its growth or the work is out of its range, or `size` is
 * none that the archive knows; LXR_E_MEMORY.
 * Cost: grows with both numbers of blocks; some 27 bytes are written for each of `blocks`, and one for each of `body_blocks`.
 */
lxr_code lxr_open(lxr_heap *heap, const lxr_settings *settings);

/*
 * Closes a heap: all its objects go, its memory is returned, and the handle is empty, so that it may be opened again.
 * Code: LXR_E_NO_HEAP, where the handle is empty already.
 */
lxr_code lxr_close(lxr_heap *heap);

/* ---- Objects ---- */

/*
 * Register `dest` holds a new object with `refs` references, all nil, and `words` data words, all 0. First what is due is done: a slice of what
 * waits for the next pause (lxr_work); a pause, by the room, or by the pace where nothing is left for slices to do, which collects where more
 * blocks are in use than the room has; and a collecting one where there is no place. LXR_E_FULL comes only right after a collecting pause, and only
 * where the objects that can be reached can leave no run of free lines that fits, of all that is reserved.
 * Codes: LXR_E_NO_HEAP, LXR_E_REGISTER, LXR_E_SIZE, LXR_E_FULL. Cost: grows with the size of the object; and that of a slice or of a
 * pause, where one is made.
 */
lxr_code lxr_new(lxr_heap *heap, uint32_t dest, uint32_t refs, uint32_t words);

/*
 * Register `dest` holds what reference `index` of the object in register `base` refers to, or is nil where that is nil.
 * Codes: LXR_E_NO_HEAP, LXR_E_REGISTER, LXR_E_NIL, LXR_E_INDEX. Cost: constant.
 */
lxr_code lxr_load(lxr_heap *heap, uint32_t dest, uint32_t base, uint32_t index);

/*
 * Reference `index` of the object in register `base` becomes what register `source` holds, or nil. The first store to a reference of a
 * kept object between two pauses records what it overwrites; where the log of 4,096 such records is full, a plain pause is made first, by
 * itself.
 * Codes: LXR_E_NO_HEAP, LXR_E_REGISTER, LXR_E_NIL, LXR_E_INDEX. Cost: constant, but for that pause.
 */
lxr_code lxr_store(lxr_heap *heap, uint32_t base, uint32_t index, uint32_t source);

/*
 * `*word` becomes data word `index` of the object in register `base`.
 * Codes: LXR_E_NO_HEAP, LXR_E_REGISTER, LXR_E_NIL, LXR_E_INDEX. Cost: constant.
 */
lxr_code lxr_get(const lxr_heap *heap, uint32_t base, uint32_t index, uint64_t *word);

/*
 * Data word `index` of the object in register `base` becomes `word`.
 * Codes: LXR_E_NO_HEAP, LXR_E_REGISTER, LXR_E_NIL, LXR_E_INDEX. Cost: constant.
 */
lxr_code lxr_put(lxr_heap *heap, uint32_t base, uint32_t index, uint64_t word);

/*
 * `*same` becomes 1 where both registers are nil or hold one object, and else 0.
 * Codes: LXR_E_NO_HEAP, LXR_E_REGISTER. Cost: constant.
 */
lxr_code lxr_same(const lxr_heap *heap, uint32_t left, uint32_t right, uint32_t *same);

/*
 * Register `dest` holds what register `source` holds, or is nil.
 * Codes: LXR_E_NO_HEAP, LXR_E_REGISTER. Cost: constant.
 */
lxr_code lxr_move(lxr_heap *heap, uint32_t dest, uint32_t source);

/*
 * Register `dest` is nil: it lets go of its object.
 * Codes: LXR_E_NO_HEAP, LXR_E_REGISTER. Cost: constant.
 */
lxr_code lxr_nil(lxr_heap *heap, uint32_t dest);

/*
 * `*is_nil` becomes 1 where the register is nil, and else 0.
 * Codes: LXR_E_NO_HEAP, LXR_E_REGISTER. Cost: constant.
 */
lxr_code lxr_is_nil(const lxr_heap *heap, uint32_t source, uint32_t *is_nil);

/*
 * The first `count` registers stay in use, and each one from number `count` on is nil, as by lxr_nil: as where a call stack is cut back to
 * its first `count` places. What a pause takes grows with the registers in use: it looks at all up to the last that holds an object, or did
 * at the last pause. So a host that has 256 and uses 20 pays for 20.
 * Codes: LXR_E_NO_HEAP; LXR_E_REGISTER, where `count` is 0 or more than the heap has: register 0 has the world, of which lxr_nil lets go.
 * Cost: grows with the registers behind the first `count`.
 */
lxr_code lxr_registers_in_use(lxr_heap *heap, uint32_t count);

/*
 * `*refs`, `*words` and `*blocks` become the numbers of references, of data words, and of blocks of the body of the object in register
 * `base`. `*blocks` is 0 exactly where it isn't a large object.
 * Codes: LXR_E_NO_HEAP, LXR_E_REGISTER, LXR_E_NIL. Cost: constant.
 */
lxr_code lxr_shape(const lxr_heap *heap, uint32_t base, uint32_t *refs, uint32_t *words, uint32_t *blocks);

/* ---- Several at once ---- */

/*
 * Each of these is so many calls in one: fewer ways into the library, and one look at what all of them share. `registers` and `sources` are
 * numbers of registers. A pointer isn't null where its count is 0 either, and an empty call looks at the same things as another.
 */

/*
 * Register `dest` holds a new object with `refs` references and `words` data words: reference i is what register `sources[i]` holds, or nil,
 * and data word i is `data[i]`. It is a lxr_new and so many lxr_store and lxr_put, with no pause between; pauses come before it, as before
 * lxr_new. LXR_E_REGISTER is answered too where `dest` is among the sources.
 * Codes: LXR_E_NO_HEAP, LXR_E_REGISTER, LXR_E_SIZE, LXR_E_FULL. Cost: as that of lxr_new.
 */
lxr_code lxr_new_with(lxr_heap *heap, uint32_t dest, const uint32_t *sources, size_t refs, const uint64_t *data, size_t words);

/*
 * The `count` words at `words` become the data words of the object in register `base` from `first` on. All of them are there, or it is
 * LXR_E_INDEX and none is read.
 * Codes: LXR_E_NO_HEAP, LXR_E_REGISTER, LXR_E_NIL, LXR_E_INDEX. Cost: grows with `count`.
 */
lxr_code lxr_get_many(const lxr_heap *heap, uint32_t base, uint32_t first, uint64_t *words, size_t count);

/*
 * The data words of the object in register `base` from `first` on become the `count` words at `words`, under the same rule.
 * Codes: LXR_E_NO_HEAP, LXR_E_REGISTER, LXR_E_NIL, LXR_E_INDEX. Cost: grows with `count`.
 */
lxr_code lxr_put_many(lxr_heap *heap, uint32_t base, uint32_t first, const uint64_t *words, size_t count);

/*
 * Register `registers[i]` holds what reference `first` + i of the object in register `base` refers to, or is nil: for each of `count`, in
 * order, under the same rule. `base` itself may be the last of the registers; elsewhere among them it is LXR_E_REGISTER.
 * Codes: LXR_E_NO_HEAP, LXR_E_REGISTER, LXR_E_NIL, LXR_E_INDEX. Cost: grows with `count`.
 */
lxr_code lxr_load_many(lxr_heap *heap, uint32_t base, uint32_t first, const uint32_t *registers, size_t count);

/*
 * Reference `first` + i of the object in register `base` becomes what register `registers[i]` holds, or nil: for each of `count`, in order,
 * under the same rule. Where what they record doesn't fit into what is left of the log, a plain pause is made before the first of them, and
 * none between.
 * Codes: LXR_E_NO_HEAP, LXR_E_REGISTER, LXR_E_NIL, LXR_E_INDEX; at these no pause is made. Cost: grows with `count`; and that pause.
 */
lxr_code lxr_store_many(lxr_heap *heap, uint32_t base, uint32_t first, const uint32_t *registers, size_t count);

/* What lxr_apply does, each as the call of its name. `a`, `b` and `c` are the numbers that this takes, in its order: */
#define LXR_OP_NEW    0u /* dest, refs, words */
#define LXR_OP_LOAD   1u /* dest, base, index */
#define LXR_OP_STORE  2u /* base, index, source */
#define LXR_OP_GET    3u /* base, index */
#define LXR_OP_PUT    4u /* base, index */
#define LXR_OP_SAME   5u /* left, right */
#define LXR_OP_MOVE   6u /* dest, source */
#define LXR_OP_NIL    7u /* dest */
#define LXR_OP_IS_NIL 8u /* source */

/* An operation. What its call doesn't take isn't looked at. */
typedef struct lxr_operation {
    uint32_t op;      /* LXR_OP_NEW and so on */
    uint32_t a, b, c; /* its numbers */
    uint64_t word;    /* of LXR_OP_PUT the word; LXR_OP_GET, LXR_OP_SAME and LXR_OP_IS_NIL write here what they tell, of a test 1 or 0 */
} lxr_operation;

/*
 * Does `count` operations in order, each as its call with the pauses of that, up to the first whose code isn't LXR_OK; that code is answered.
 * `*done` becomes how many were LXR_OK, whatever is answered. The numbers of all are looked at before the first is done: where one has a
 * register that the heap hasn't, a size out of its range, or is none that there is, the code is that of the first such, and nothing is done.
 * LXR_E_NIL, LXR_E_INDEX and LXR_E_FULL come at their operation, and those before it are done.
 * Codes: LXR_E_NO_HEAP, LXR_E_REGISTER, LXR_E_SIZE, LXR_E_NIL, LXR_E_INDEX, LXR_E_FULL, LXR_E_WHAT. Cost: that of its operations.
 */
lxr_code lxr_apply(lxr_heap *heap, lxr_operation *operations, size_t count, size_t *done);

/* ---- Large objects ---- */

/*
 * Register `dest` holds a new large object with a body of `blocks` blocks, 1 to 128, whose words are all 0. Room is looked for as by
 * lxr_new; LXR_E_FULL also comes where the bodies that can be reached can leave no run of so many free blocks.
 * Codes: LXR_E_NO_HEAP, LXR_E_REGISTER, LXR_E_SIZE, LXR_E_FULL. Cost: grows with the size of the body, and with the number of blocks for
 * bodies.
 */
lxr_code lxr_large_new(lxr_heap *heap, uint32_t dest, uint32_t blocks);

/*
 * `*word` becomes word `index` of the body of the object in register `base`.
 * Codes: LXR_E_NO_HEAP, LXR_E_REGISTER, LXR_E_NIL, LXR_E_INDEX. Cost: grows with the logarithm of the number of bodies.
 */
lxr_code lxr_large_get(const lxr_heap *heap, uint32_t base, uint32_t index, uint64_t *word);

/*
 * Word `index` of the body of the object in register `base` becomes `word`.
 * Codes: LXR_E_NO_HEAP, LXR_E_REGISTER, LXR_E_NIL, LXR_E_INDEX. Cost: as that of lxr_large_get.
 */
lxr_code lxr_large_put(lxr_heap *heap, uint32_t base, uint32_t index, uint64_t word);

/*
 * The `count` words at `into` become those of the body of the object in register `base` from `index` on. All of them are there, or it is
 * LXR_E_INDEX and none is read; so it is where the object has no body, whatever `count` is.
 * Codes: LXR_E_NO_HEAP, LXR_E_REGISTER, LXR_E_NIL, LXR_E_INDEX. Cost: grows with `count`.
 */
lxr_code lxr_large_read(const lxr_heap *heap, uint32_t base, uint32_t index, uint64_t *into, size_t count);

/*
 * The words of the body of the object in register `base` from `index` on become the `count` words at `from`, under the same rule.
 * Codes: LXR_E_NO_HEAP, LXR_E_REGISTER, LXR_E_NIL, LXR_E_INDEX. Cost: grows with `count`.
 */
lxr_code lxr_large_write(lxr_heap *heap, uint32_t base, uint32_t index, const uint64_t *from, size_t count);

/* ---- Arrays ---- */

/*
 * An array has ELEMENTS: references, 0 to 1,046,529 of them, with indexes from 0 on; how many is fixed when it is made. It is made of
 * objects as there are anyway. Up to 1,023 elements are the references of one object without data words. More of them are a ROOT, which is an
 * object with one data word, the length, and a reference to each PART: a part is an object without data words and with 1,023 references, or
 * the rest of them in the last one. So element i is reference i mod 1,023 of part i / 1,023.
 *
 * Any object may be taken for an array, and its shape says which: without data words it has its references for elements, and with some it is
 * a root of as many elements as its first data word says, or as its references can lead to where these are fewer. A large object has none.
 * Where an element that a call reads or writes has no place, since its part is nil or has too few references, LXR_E_NIL or LXR_E_INDEX is
 * answered, by the first such part, and nothing has changed; only where a root is itself a part that is written to, elements before that may
 * be. Parts are looked at once all numbers fit.
 *
 * What a call holds on its way stands in two registers of the library's own behind the host's. They are nil between calls, and no call can
 * name them. A heap of 255 or 256 registers has no place for them, and no arrays of more than 1,023 elements: there LXR_E_REGISTER is the
 * answer of lxr_array_new of more, of a call whose base is a root, but for lxr_array_length, and of lxr_array_copy. A pause within such a call
 * looks at all registers.
 */

/*
 * Register `dest` holds a new array of `length` elements, all nil. It is a lxr_new of each of its objects, the root first and then the parts
 * in order, and so many stores: pauses come between them as by lxr_new and lxr_store. Where there is no room for all of them it is LXR_E_FULL:
 * `dest` holds what it held, and the next pause that collects reclaims those that were made. More than 1,046,529 elements are LXR_E_SIZE in any
 * heap.
 * Codes: LXR_E_NO_HEAP, LXR_E_REGISTER, LXR_E_SIZE, LXR_E_FULL. Cost: grows with `length`; and that of pauses, where some are made.
 */
lxr_code lxr_array_new(lxr_heap *heap, uint32_t dest, uint32_t length);

/*
 * `*length` becomes the number of elements of the array in register `base`.
 * Codes: LXR_E_NO_HEAP, LXR_E_REGISTER, LXR_E_NIL. Cost: constant.
 */
lxr_code lxr_array_length(const lxr_heap *heap, uint32_t base, uint32_t *length);

/*
 * Register `dest` holds what element `index` of the array in register `base` refers to, or is nil where that is nil.
 * Codes: LXR_E_NO_HEAP, LXR_E_REGISTER, LXR_E_NIL, LXR_E_INDEX. Cost: constant, about that of two lxr_load.
 */
lxr_code lxr_array_load(lxr_heap *heap, uint32_t dest, uint32_t base, uint32_t index);

/*
 * Element `index` of the array in register `base` becomes what register `source` holds, or nil. A pause comes where it does by lxr_store.
 * Codes: LXR_E_NO_HEAP, LXR_E_REGISTER, LXR_E_NIL, LXR_E_INDEX. Cost: constant, but for that pause.
 */
lxr_code lxr_array_store(lxr_heap *heap, uint32_t base, uint32_t index, uint32_t source);

/*
 * The `count` elements from `first` on of the array in register `base` become what register `source` holds, or nil, one after another; pauses
 * come between as by lxr_store. All of them are there, or it is LXR_E_INDEX and none is written: so `first` is at most the length, even where
 * `count` is 0.
 * Codes: LXR_E_NO_HEAP, LXR_E_REGISTER, LXR_E_NIL, LXR_E_INDEX. Cost: grows with `count`; and that of pauses.
 */
lxr_code lxr_array_fill(lxr_heap *heap, uint32_t base, uint32_t first, uint32_t count, uint32_t source);

/*
 * The `count` elements from `at` on of the array in register `to` become what the elements from `first` on of the array in register `from`
 * were before, under the same rule. Both registers may hold one array, and the elements may overlap, as those of memmove. Two arrays that share
 * a part, as a host may have stored it, are copied one element after another: from the last one on where `at` is above `first`. What is
 * wrong with `to` is told before what is wrong with `from`: first by registers and lengths, and then by parts.
 * Codes: LXR_E_NO_HEAP, LXR_E_REGISTER, LXR_E_NIL, LXR_E_INDEX. Cost: grows with `count`; and that of pauses.
 */
lxr_code lxr_array_copy(lxr_heap *heap, uint32_t to, uint32_t at, uint32_t from, uint32_t first, uint32_t count);

/* ---- Words of any length ---- */

/*
 * Words of 64 bits, 0 to 524,287 of them, with indexes from 0 on: for a runtime's strings, vectors of bytes and long numbers. How many is
 * fixed when they are made. Up to 1,023 are the data words of an object without references. More of them are a large object with as few blocks
 * as hold them and a word before them: word 0 of its body is their number, and word i of them is word i + 1 of the body.
 *
 * Any object may be taken for words, and its shape says which: a large one has as many as the first word of its body says, or as its body holds
 * after that where these are fewer; another one has its data words.
 */

/*
 * Register `dest` holds `length` new words, all 0. Pauses come before it as before lxr_new or lxr_large_new.
 * Codes: LXR_E_NO_HEAP, LXR_E_REGISTER, LXR_E_SIZE, LXR_E_FULL. Cost: as that of lxr_new or lxr_large_new.
 */
lxr_code lxr_words_new(lxr_heap *heap, uint32_t dest, uint32_t length);

/*
 * `*length` becomes the number of the words in register `base`.
 * Codes: LXR_E_NO_HEAP, LXR_E_REGISTER, LXR_E_NIL. Cost: constant, or as that of lxr_large_get.
 */
lxr_code lxr_words_length(const lxr_heap *heap, uint32_t base, uint32_t *length);

/*
 * `*word` becomes word `index` of those in register `base`.
 * Codes: LXR_E_NO_HEAP, LXR_E_REGISTER, LXR_E_NIL, LXR_E_INDEX. Cost: as that of lxr_get or lxr_large_get.
 */
lxr_code lxr_words_get(const lxr_heap *heap, uint32_t base, uint32_t index, uint64_t *word);

/*
 * Word `index` of those in register `base` becomes `word`.
 * Codes: LXR_E_NO_HEAP, LXR_E_REGISTER, LXR_E_NIL, LXR_E_INDEX. Cost: as that of lxr_put or lxr_large_put.
 */
lxr_code lxr_words_put(lxr_heap *heap, uint32_t base, uint32_t index, uint64_t word);

/*
 * The `count` words at `words` become those in register `base` from `first` on. All of them are there, or it is LXR_E_INDEX and none is read:
 * so `first` is at most the length, even where `count` is 0.
 * Codes: LXR_E_NO_HEAP, LXR_E_REGISTER, LXR_E_NIL, LXR_E_INDEX. Cost: grows with `count`.
 */
lxr_code lxr_words_read(const lxr_heap *heap, uint32_t base, uint32_t first, uint64_t *words, size_t count);

/*
 * The words in register `base` from `first` on become the `count` words at `words`, under the same rule.
 * Codes: LXR_E_NO_HEAP, LXR_E_REGISTER, LXR_E_NIL, LXR_E_INDEX. Cost: grows with `count`.
 */
lxr_code lxr_words_write(lxr_heap *heap, uint32_t base, uint32_t first, const uint64_t *words, size_t count);

/* ---- Pauses ---- */

/*
 * Makes a plain pause, by reference counts alone: it reclaims new objects that nothing keeps, and older ones whose counts fell to 0 by the
 * pause before. Cycles of older objects, and objects whose count has reached 15, wait for a collecting pause.
 * Code: LXR_E_NO_HEAP. Cost: grows with the new objects that are kept, with the stores since the last pause, with what is reclaimed, with the
 * registers in use, and with the number of blocks.
 */
lxr_code lxr_pause(lxr_heap *heap);

/*
 * Makes a collecting pause: exactly what can be reached is left, cycles and all.
 * Code: LXR_E_NO_HEAP. Cost: grows besides with all that can be reached.
 */
lxr_code lxr_collect(lxr_heap *heap);

/*
 * From now on a pause is made before a lxr_new, lxr_new_with or lxr_large_new, once so many `bytes` of objects were made since the last
 * pause; or by LXR_PACE_NEVER or LXR_PACE_ROOM. It is a plain one, but where the room is exceeded (lxr_set_room). An object has the bytes of
 * its header, 8, and of its references and data words, 8 each, rounded up to sixteen; and a large one sixteen, and those of its body. Small
 * numbers keep pauses short, and reclaimed lines warm in the caches; but each pause costs some time by itself, which grows with what lives.
 * Code: LXR_E_NO_HEAP. Cost: grows with the number of blocks.
 */
lxr_code lxr_set_pace(lxr_heap *heap, uint64_t bytes);

/*
 * From now on a pause that is due collects where more than so many blocks are in use, up to as many as are reserved; 0: all, so that only an object
 * that finds no place makes one collect. Up and down, at any time: where more are in use already, the next new object has a collecting pause before
 * it, and nothing is refused. Where `grow` isn't 0, the next collecting pause sets the room anew. lxr_count tells the room by LXR_COUNT_ROOM.
 * Codes: LXR_E_NO_HEAP; LXR_E_SIZE, where fewer are reserved. Cost: grows with the number of blocks.
 */
lxr_code lxr_set_room(lxr_heap *heap, uint32_t blocks);

/*
 * From now on each collecting pause sets the room to the blocks that it leaves in use and so many hundredths more, at least 64 blocks and at most
 * all; 0: none does, and the room stays as it is. The room of now stays until the next collecting pause.
 * Codes: LXR_E_NO_HEAP; LXR_E_SIZE, above LXR_MOST_GROW. Cost: constant.
 */
lxr_code lxr_set_grow(lxr_heap *heap, uint32_t hundredths);

/*
 * Memory of blocks that are wholly free goes back to the system, but for parts of a page; it comes again page by page where new objects take them.
 * Nothing that a host can tell changes. Blocks are free after a pause, so lxr_collect before it gives most. Bodies' blocks stay. What a host owes:
 * malloc gives private memory that is no file's, as that of the C library does.
 * Code: LXR_E_NO_HEAP. Cost: grows with the number of blocks, and with the words of the free ones in which objects ever lay.
 */
lxr_code lxr_trim(lxr_heap *heap);

/*
 * What lxr_trim goes by, for a host that gives memory back by means of its own. This makes all words of the first wholly free block from number
 * `from` on 0, and writes the number of that block. Nothing else changes. A word that is 0 isn't written, and a block in which no object ever lay
 * isn't even read.
 * Codes: LXR_E_NO_HEAP; LXR_E_NOTHING, where no block from there on is free. Cost: constant for each block up to that one, and that of 4,096 reads
 * and writes.
 */
lxr_code lxr_trim_next(lxr_heap *heap, uint32_t from, uint32_t *block);

/*
 * And this writes where the first word of block 0 lies, until the heap is closed. Each further block lies LXR_BLOCK_WORDS words after the one before
 * it. What stands there is the library's own, and no host reads or writes it: all that may be done is that whole pages go back to the system in
 * blocks which lxr_trim_next has told, before any call but lxr_trim_next, and so that zeros are found there again.
 * Codes: LXR_E_NO_HEAP; LXR_E_NOTHING, where nothing was ever written there. Cost: constant.
 */
lxr_code lxr_first_word(lxr_heap *heap, const uint64_t **place);

/*
 * Does up to so many `units` of what the next plain pause would do first, so that less is left to it: in the host's idle time, say. `*more` becomes 1
 * where all units were done and something still waits, and else 0: then there is nothing further to do before the next pause. A unit lowers the count
 * of one object by 1, where a reference to it was overwritten, or its owner died, before the last pause; where the count falls to 0 the object is
 * reclaimed, and what it refers to waits to be lowered. It takes no memory: what waits has place in a list of the heap's, of 4,096 counts and one for
 * each register. Where a unit would reclaim an object with more references, nil or not, than that has place left for, it isn't done, and all that
 * still waits is left to the pause. LXR_COUNT_WAITING tells how many counts wait.
 * Nothing else is to be seen of it until the next pause but that blocks are free and new objects find places sooner: that pause counts as dead what
 * it would have counted, and until then the body of a large object is kept, and LXR_COUNT_LIVE tells the same.
 * Code: LXR_E_NO_HEAP. Cost: grows with the units, with the references of the objects that die, and with the number of blocks.
 */
lxr_code lxr_work(lxr_heap *heap, uint32_t units, uint32_t *more);

/*
 * From now on the library does so many units for each 64 bytes of new objects by itself, as of `work` of the settings; 0: none, so that plain pauses
 * come as soon as they are due, and do all that waits. Small numbers keep lxr_new short, and put off plain pauses; by great ones a slice may be as
 * long as the pause was.
 * Codes: LXR_E_NO_HEAP; LXR_E_SIZE, above LXR_MOST_WORK. Cost: constant.
 */
lxr_code lxr_set_work(lxr_heap *heap, uint32_t units);

/* What lxr_count tells. */
#define LXR_COUNT_PAUSES          0u  /* pauses since the heap was opened */
#define LXR_COUNT_PROMOTED        1u  /* by the last pause: objects made since the pause before that were kept */
#define LXR_COUNT_DEAD            2u  /* by the last pause: objects that counts reclaimed */
#define LXR_COUNT_STUCK           3u  /* by the last pause: objects whose count has reached 15, where it stands from now on */
#define LXR_COUNT_SWEPT           4u  /* by the last pause: objects that only a collecting pause reclaims, of cycles or stuck */
#define LXR_COUNT_LIVE            5u  /* objects that the last pause left, and those made since; without the world */
#define LXR_COUNT_FREE_BLOCKS     6u  /* wholly free blocks for objects */
#define LXR_COUNT_FREE_BODY_BYTES 7u  /* bytes of the free blocks for bodies */
#define LXR_COUNT_ROOM            13u /* blocks of the room, as the host or the library set it last */
#define LXR_COUNT_WAITING         14u /* counts that wait to be lowered by lxr_work or the next pause; of heaps for one thread alone */

/*
 * `*number` becomes one of the numbers above.
 * Codes: LXR_E_NO_HEAP, LXR_E_WHAT. Cost: constant, but for LXR_COUNT_FREE_BLOCKS and LXR_COUNT_FREE_BODY_BYTES, which grow with the number
 * of blocks.
 */
lxr_code lxr_count(const lxr_heap *heap, uint32_t what, uint64_t *number);

/* Of heaps that threads share (lxr_threads.h, lxr_passes.h) one further count is the kind of the last pause. lxr_count has no such number. */
#define LXR_COUNT_LAST_KIND 11u /* one of these: */
#define LXR_KIND_PLAIN      0u  /* by counts alone */
#define LXR_KIND_BEGIN      1u  /* it began a trace besides */
#define LXR_KIND_END        2u  /* it ended a trace, and reclaimed what that found */
#define LXR_KIND_COLLECT    3u  /* it reclaimed all that can't be reached */

/* ---- Words for people ---- */

/* What a code says, in a few words: a text that stays valid; unknown codes have one too. */
const char *lxr_message(lxr_code code);

#ifdef __cplusplus
}
#endif
#endif
