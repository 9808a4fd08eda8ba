/*
 * lxr_passes.h: a heap that threads share, without the waiting. SPDX: MIT OR Apache-2.0
 *
 * These are the archive's functions below lxr_threads.h, which is the header for most hosts. They are for a host that waits by means of
 * its own, as a runtime with threads that aren't the system's. None of them waits, starts a thread, or calls back.
 *
 * A heap has an ACTOR for each of its mutators, and two for each of its helpers: one lowers counts, one traces. Mutators have the numbers
 * from 0 on, then come those that lower counts, and then those that trace. The actor's PASS is what its steps are made by. It is at
 * home, or away with a STATION, which one thread of the host has.
 *
 * Time goes in EPOCHS. Between two of them all passes are at home and pauses are made; while one is open, passes leave and come home as the
 * host likes. So a host's round is:
 *
 *     lxr_passes_resume(heap)                   opens an epoch, under the host's lock
 *     lxr_station_leave(heap, number, station)  under the lock too
 *     lxr_station_new(station, ..)              any thread by its own station, with no lock
 *     lxr_station_come_home(station)            where an operation says LXR_E_WAITS or LXR_E_HELD, or lxr_station_wants_pause is 1
 *     lxr_passes_pause(heap)                    once all are at home, under the lock: closes the epoch
 *
 * After the next lxr_passes_resume, the thread that was told LXR_E_WAITS leaves again and calls lxr_station_answer, for the reply; the one
 * that was told LXR_E_HELD makes the same call again.
 *
 * A heap and a station are handles as `lxr_heap` is: two words that begin as zeros, which aren't copied or written to. Calls of a heap,
 * lxr_station_leave among them, are made one after another; those of a station by one thread at a time. All else is owed as for lxr.h. Each
 * function answers a code of lxr.h; at any other than LXR_OK nothing has changed and no out parameter was written, but where it is said.
 * Where several codes would do, the first is answered of those that are listed.
 */
#ifndef LXR_PASSES_H
#define LXR_PASSES_H

#include "lxr.h"

#ifdef __cplusplus
extern "C" {
#endif

/* A heap, and a station. Their fields are the library's own. */
typedef struct lxr_passes {
    uint64_t live;
    void *block;
} lxr_passes;

typedef struct lxr_station {
    uint64_t live;
    void *block;
} lxr_station;

/*
 * What a heap is made of; lxr_threads.h says more of it. The first word is the size of it all, as of lxr_settings. Settings of version 0.2,
 * which end before `evacuate`, are taken: then that is an eighth of the blocks, and a mutator has sixteen registers. So are those that end
 * before `runs`.
 */
typedef struct lxr_passes_settings {
    uint64_t size;      /* sizeof(lxr_passes_settings) */
    uint32_t blocks;    /* blocks of 32 KB, 1 to 65,536 */
    uint32_t mutators;  /* mutators, 1 to 255 */
    uint32_t helpers;   /* helpers of each kind, 1 to 8 */
    uint32_t log;       /* entries of a mutator's log, 1 to 65,536 */
    uint32_t remember;  /* entries of the remembered set, 1 to 1,048,576 */
    uint32_t every;     /* operations of a mutator in an epoch, 1 to 1,048,576 */
    uint32_t trace;     /* a pause whose number is a multiple of it begins a trace, up to 1,000,000; 0: lxr_passes_pause_and_trace alone */
    uint32_t within;    /* pauses within which a trace ends, 1 to 1,000,000 */
    uint32_t evacuate;  /* blocks that a trace evacuates at most, 0 to an eighth of all */
    uint32_t registers; /* registers of a mutator, 16 to 256; 0: 16 */
    uint32_t runs;      /* runs of free lines that are listed after a pause at most, above 1,024 blocks: 64 or more; 0: 65,536 */
    uint32_t unused;    /* nothing is said here */
} lxr_passes_settings;

/* ---- A heap ---- */

/*
 * Opens a heap. It is between epochs.
 * Codes: LXR_E_IN_USE, LXR_E_SIZE, where a setting is out of its range, or `size` none that is known; LXR_E_MEMORY. Cost: grows with the
 * number of blocks.
 */
lxr_code lxr_passes_open(lxr_passes *heap, const lxr_passes_settings *settings);

/*
 * Closes a heap, and the handle is empty. A pass that is away stays so until it comes home, and its objects as long.
 * Code: LXR_E_NO_HEAP.
 */
lxr_code lxr_passes_close(lxr_passes *heap);

/*
 * Opens the next epoch.
 * Codes: LXR_E_NO_HEAP; LXR_E_EPOCH, where one is open; LXR_E_ENDED; LXR_E_LOST; LXR_E_MEMORY, and then the heap is lost: each further call
 * says LXR_E_LOST, but for lxr_passes_close.
 */
lxr_code lxr_passes_resume(lxr_passes *heap);

/*
 * Closes the epoch and makes a pause, where one is wanted: a collecting one where lxr_station_ask_collect was called in the epoch. Each
 * lxr_station_new that waits has its object after it, if there is room; where there is none, a collecting pause follows, and what then
 * finds no room is answered LXR_E_FULL. A mutator may be ordered 67,108,864 operations until all names are renewed, and one after the
 * sixteenth 4,194,304: they are after a pause that collects or ends a trace, where some mutator was ordered more than half of what it may be
 * and no lxr_station_new waited for the pause. Takes no memory.
 * Codes: LXR_E_NO_HEAP; LXR_E_LOST; LXR_E_ENDED; LXR_E_EPOCH, where none is open; LXR_E_AWAY, where a pass is away; LXR_E_NOT_WANTED;
 * LXR_E_BUSY, where a lxr_station_come_home hasn't come back yet.
 */
lxr_code lxr_passes_pause(lxr_passes *heap);

/*
 * The same, and the pause begins a trace, where `trace` of the settings is 0: unless it collects, or a trace runs. By any other setting it is
 * lxr_passes_pause.
 */
lxr_code lxr_passes_pause_and_trace(lxr_passes *heap);

/*
 * What lxr_passes_count tells besides LXR_COUNT_PAUSES, _PROMOTED, _DEAD, _STUCK, _SWEPT, _FREE_BLOCKS and _LAST_KIND of lxr.h. LXR_COUNT_PAUSES
 * is the number of the last pause, counted from the last renewal of names before it: right after a pause that renews names itself it is still
 * counted from the renewal before that, and 1 after the next pause.
 */
/*
 * Operations of the mutator that was ordered most of what it may be, since names were renewed: each of one after the sixteenth counts sixteen
 * times. At 67,108,864 that mutator's next one is LXR_E_USED_UP.
 */
#define LXR_COUNT_ASKED 12u

/*
 * `*number` becomes one of these numbers of the last pause; before the first all but the free blocks are 0.
 * Codes: LXR_E_NO_HEAP, LXR_E_WHAT, LXR_E_EPOCH, where an epoch is open or the heap is lost. Cost: constant.
 */
lxr_code lxr_passes_count(const lxr_passes *heap, uint32_t what, uint64_t *number);

/*
 * Memory of blocks that are wholly free goes back to the system, between epochs, as by lxr_trim of lxr.h.
 * Codes: LXR_E_NO_HEAP; LXR_E_EPOCH, where an epoch is open, or the heap has ended or is lost. Cost: grows with the number of blocks, and with the
 * words of the free ones.
 */
lxr_code lxr_passes_trim(lxr_passes *heap);

/*
 * What lxr_passes_trim goes by, for a host that gives memory back by means of its own. This makes all words of the first wholly free block from
 * number `from` on 0, between epochs, and writes the number of that block. Nothing else changes. A word that is 0 isn't written, but each is read.
 * Codes: LXR_E_NO_HEAP; LXR_E_EPOCH, where an epoch is open; LXR_E_ENDED; LXR_E_LOST; LXR_E_NOTHING, where no block from there on is free. Cost:
 * constant for each block up to that one, and that of 4,096 reads and writes.
 */
lxr_code lxr_passes_trim_next(lxr_passes *heap, uint32_t from, uint32_t *block);

/*
 * And this writes where the first word of block 0 lies, until the heap is closed, as lxr_first_word does: whole pages may go back to the system in
 * blocks which lxr_passes_trim_next has told, before the next epoch is opened.
 * Codes: LXR_E_NO_HEAP; LXR_E_EPOCH, where an epoch is open, or the heap has ended or is lost. Cost: constant.
 */
lxr_code lxr_passes_first_word(lxr_passes *heap, const uint64_t **place);

/* ---- Stations ---- */

/*
 * The pass of this number leaves its home, and the station has it. The station is empty, or its last pass is at home. An empty one asks for
 * memory; another asks for none, and says LXR_E_MEMORY where there are more stations than can be counted.
 * Codes: LXR_E_NO_HEAP; LXR_E_IN_USE, where the station has a pass that is away; LXR_E_LOST; LXR_E_ENDED; LXR_E_EPOCH, where none is open;
 * LXR_E_NUMBER; LXR_E_AWAY, where the pass is away; LXR_E_MEMORY. Cost: constant.
 */
lxr_code lxr_station_leave(lxr_passes *heap, uint32_t number, lxr_station *station);

/*
 * The pass of the station is at home again.
 * Codes: LXR_E_NO_HEAP, where the station is empty; LXR_E_HOME, where its pass is at home. Cost: constant.
 */
lxr_code lxr_station_come_home(lxr_station *station);

/*
 * The station is empty, and its memory is returned; its pass is at home.
 * Code: LXR_E_NO_HEAP.
 */
lxr_code lxr_station_close(lxr_station *station);

/*
 * `*wants` becomes 1 where a pause is wanted, or the mutator does nothing more before one, and else 0; of a helper's it is 0.
 * Codes: LXR_E_NO_HEAP, LXR_E_HOME. Cost: constant.
 */
lxr_code lxr_station_wants_pause(const lxr_station *station, uint32_t *wants);

/*
 * Does up to so many units of a helper's work. `*more` becomes 1 where each of them found some, and else 0: then there is nothing further
 * to do in this epoch.
 * Codes: LXR_E_NO_HEAP, LXR_E_HOME, LXR_E_KIND. Cost: grows with the units; a unit is one entry of a list, or one object.
 */
lxr_code lxr_station_help(lxr_station *station, uint32_t units, uint32_t *more);

/* ---- Operations of a mutator's station ---- */

/*
 * Each operation is one of lxr_threads.h, with the codes that are said there and these: LXR_E_NO_HEAP; LXR_E_REGISTER, where a register is
 * none of the mutator's, as many as the heap's settings say, or, while no pass of a mutator is away with the station, none of 256; LXR_E_SIZE;
 * LXR_E_HOME; LXR_E_KIND; LXR_E_ENDED; LXR_E_HELD, where a pause is wanted first: the operation isn't ordered; LXR_E_BUSY, where one that
 * waited has no answer yet; LXR_E_USED_UP; LXR_E_WAITS: it is ordered, and goes on after a pause, by lxr_station_answer. Any register may
 * be `dest`, so that register 0 holds the world at first alone. A pause looks at a mutator's registers up to the last that holds an object, or
 * did at the last pause; so a host that used many for a while and goes on with few makes the others nil.
 */
lxr_code lxr_station_new(lxr_station *station, uint32_t dest, uint32_t refs, uint32_t words);
lxr_code lxr_station_load(lxr_station *station, uint32_t dest, uint32_t base, uint32_t index);
lxr_code lxr_station_store(lxr_station *station, uint32_t base, uint32_t index, uint32_t source);
lxr_code lxr_station_swap(lxr_station *station, uint32_t dest, uint32_t base, uint32_t index, uint32_t source);
lxr_code lxr_station_get(lxr_station *station, uint32_t base, uint32_t index, uint64_t *word);
lxr_code lxr_station_put(lxr_station *station, uint32_t base, uint32_t index, uint64_t word);
lxr_code lxr_station_add(lxr_station *station, uint32_t base, uint32_t index, uint64_t word, uint64_t *old);
lxr_code lxr_station_same(lxr_station *station, uint32_t left, uint32_t right, uint32_t *same);
lxr_code lxr_station_move(lxr_station *station, uint32_t dest, uint32_t source);
lxr_code lxr_station_nil(lxr_station *station, uint32_t dest);

/* A pause is wanted from now on; a collecting one. All come home for it at their next operation. */
lxr_code lxr_station_ask_pause(lxr_station *station);
lxr_code lxr_station_ask_collect(lxr_station *station);

/*
 * The code of the operation that was ordered last: where it waited, it goes on. `*word` becomes the word that it tells, if it tells one:
 * that of lxr_station_get, the old one of lxr_station_add, 1 or 0 of lxr_station_same.
 * Codes: those of the operation; LXR_E_NO_HEAP, LXR_E_HOME, LXR_E_KIND; LXR_E_NOTHING, where none was ordered yet; it may also come where
 * a pause has renewed names since the newest reply; LXR_E_WAITS, where a pause is wanted once more.
 */
lxr_code lxr_station_answer(lxr_station *station, uint64_t *word);

#ifdef __cplusplus
}
#endif
#endif
