/*
 * lxr_threads.c: the waiting behind lxr_threads.h, over POSIX threads. SPDX: MIT OR Apache-2.0
 *
 * Each mutator has a station (lxr_passes.h), and its pass is away while its thread runs. Who finds that a pause is wanted brings its pass
 * home and waits; the last whose pass comes home makes the pause and opens the next epoch, under the heap's lock, and wakes all. A mutator
 * that rests has its pass at home, so that nobody waits for it. An operation takes no lock: it calls the archive and looks at the code.
 * Nor does the pace: each mutator counts the bytes of its own objects, and asks for a pause by itself once it has made its share.
 *
 * What the lock guards: the heap's handle, how many passes are away, and what is marked so below. An epoch is open whenever the lock is
 * free, until the heap is lost.
 */
#define _POSIX_C_SOURCE 200809L

#include "lxr_threads.h"

#include "lxr_passes.h"

#include <pthread.h>
#include <stdbool.h>
#include <stddef.h>
#include <stdlib.h>
#include <string.h>
#include <time.h>

/* Operations that the archive lets a mutator be ordered from one renewal of names to the next; fewer where a test says so, with the mock. */
#ifndef LXR_OPERATIONS
#define LXR_OPERATIONS 67108864u
#endif

enum {
    SPARE = 8, /* operations of an epoch beyond those that a mutator makes before it asks for a pause */
    FIRST =
        16, /* mutators that can be ordered LXR_OPERATIONS; a later one can a sixteenth, of which LXR_COUNT_ASKED counts each as sixteen */
    UNITS = 64, /* units of a helper's work between two looks at whether a pause is wanted */
    APART = 64, /* bytes that keep two mutators' counters off one cache line */
    TOLD = LXR_COUNT_SWEPT + 1,
    OWN = 2, /* registers of the library's own, behind the host's: nil between calls */
    PART = LXR_MOST_REFS,

    /* Bytes: of a block, of a word, of a header, what objects are rounded up to; and between which LXR_PACE_ROOM is. */
    BLOCK = LXR_BLOCK_WORDS * 8,
    WORD = 8,
    HEADER = 8,
    GRAIN = 16,
    LEAST_PACE = 2 * BLOCK,
    MOST_PACE = 32 * BLOCK,

    LEAST_ROOM = 64, /* blocks of a room that grows */

    /* From so many operations of some mutator on, as LXR_COUNT_ASKED counts them, a collecting pause is made, so that names are renewed; and again after
     * so many more. */
    WORN = LXR_OPERATIONS / 4 * 3,
    FURTHER = LXR_OPERATIONS / 1024
};

/* A number of a mutator, taken or free. */
struct place {
    bool taken;    /* guarded; what follows is, while it isn't taken */
    bool spoiled;  /* its registers weren't cleared: it isn't taken again */
    uint32_t done; /* operations, and .. */
    uint64_t made; /* .. bytes of objects, since the pause that opened this epoch: */
    uint64_t epoch;
};

/* A helper: a thread with two passes, of which one lowers counts and one traces. */
struct helper {
    lxr_shared_heap *heap;
    uint32_t number;
    pthread_t thread;
    lxr_station counts, traces;
};

struct lxr_shared_heap {
    pthread_mutex_t lock;
    pthread_cond_t moved;              /* told where an epoch has opened, the heap is lost, or it is to be closed */
    lxr_shared_heap_settings settings; /* of these `room` and `grow` are guarded */
    uint64_t pace;                     /* bytes of objects between two pauses, as the settings say; the greatest number for no pace */

    /* Guarded. */
    lxr_passes passes;
    uint64_t epoch;            /* how many were opened */
    uint32_t away;             /* passes that are away */
    uint32_t entered, resting; /* mutators */
    bool wanted;               /* a pause is, by a mutator that waits for it .. */
    struct timespec since;     /* .. since then */
    bool collecting;           /* it collects */
    bool trimming;             /* memory of free blocks goes back in it */
    bool lost, closing;
    uint64_t told[TOLD];        /* what the last pause left to be counted, */
    uint64_t kind;              /* and its kind */
    uint64_t paused, collected; /* pauses, and collecting ones, since it was opened */
    uint64_t worn;              /* each mutator whose pass leaves collects, once some mutator was ordered so many operations .. */
    bool is_worn;               /* .. as by the last pause */
    uint32_t used;              /* blocks in use, as the last pause left them */
    uint32_t most;              /* room: each mutator whose pass leaves collects where more are; it is that of the settings, or more */
    uint32_t kept;              /* blocks in use as the last end of a trace or collecting pause left them */
    bool is_told;               /* one of these has told what lives */
    bool traces;                /* where traces come by the room: the next pause is to begin one, if none runs */
    uint64_t due;               /* bytes of objects until the next pause is due: by the pace or by the room */
    struct place places[LXR_MOST_MUTATORS];
    struct helper helpers[LXR_MOST_HELPERS];
};

struct lxr_mutator {
    lxr_station station;
    uint32_t left;    /* operations until it asks for a pause; 0: it makes none, its pass is at home, and each operation answers */
    lxr_code stopped; /* this code */
    uint32_t granted; /* what `left` and the pauses that it asked for began from */
    uint64_t made;    /* bytes of its objects since `granted` was set .. */
    uint64_t share;   /* .. until it asks for a pause */
    uint32_t number;
    uint32_t registers; /* that the host may name */
    uint32_t used;      /* of these, the ones from this number on are nil */
    bool collects;      /* after its next operation it asks for a collecting pause */
    uint64_t collected; /* collecting pauses, as its pass left its home */
    bool asked;         /* it has asked for one since, and told nobody yet */
    bool trims;         /* memory is to go back in the next pause, and it has told nobody yet */
    lxr_shared_heap *heap;
    char apart[APART];
};

/* ---- Pauses ---- */

static struct timespec now(void) {
    struct timespec time = { 0, 0 };
    clock_gettime(CLOCK_MONOTONIC, &time);
    return time;
}

static uint64_t nanoseconds(struct timespec from, struct timespec to) {
    return (uint64_t)(to.tv_sec - from.tv_sec) * 1000000000u + (uint64_t)to.tv_nsec - (uint64_t)from.tv_nsec;
}

/* The blocks that a room has left where so many are in use. */
static uint32_t blocks_left(uint32_t room, uint32_t used) { return used < room ? room - used : 0; }

/* The room by which traces begin: where it grows, the least until a trace or a collecting pause has told what lives. */
static uint32_t room_of_traces(const lxr_shared_heap *heap) {
    bool is_told = heap->settings.grow == 0 || heap->is_told;
    return is_told || heap->most < LEAST_ROOM ? heap->most : LEAST_ROOM;
}

/* What that room has left as the last trace or collecting pause left it. */
static uint32_t left_for_traces(const lxr_shared_heap *heap) { return blocks_left(room_of_traces(heap), heap->kept); }

/* The bytes of so many blocks as those until a pause is due: at least LEAST_PACE, and at most the pace. */
static uint64_t pace_in(const lxr_shared_heap *heap, uint32_t blocks) {
    uint64_t bytes = (uint64_t)blocks * BLOCK;
    if (bytes < LEAST_PACE) bytes = LEAST_PACE;
    return bytes < heap->pace ? bytes : heap->pace;
}

/*
 * The bytes of objects until a pause is due: those of the pace, or the room that is left, where there is room for less than all. Where so much is
 * used that a trace by the room is to begin, or would where one runs, at most an eighth of what the last one left of it, so that it can end before
 * the room is full; but none where bytes want no pause.
 */
static uint64_t due_bytes(const lxr_shared_heap *heap) {
    uint64_t due = heap->most < heap->settings.blocks ? pace_in(heap, blocks_left(heap->most, heap->used)) : heap->pace;
    uint64_t eighth = pace_in(heap, left_for_traces(heap) / 8);
    return heap->traces && due != UINT64_MAX && eighth < due ? eighth : due;
}

/* So many hundredths more than the blocks in use, but at most all. */
static uint32_t with_more(const lxr_shared_heap *heap, uint32_t hundredths) {
    uint64_t more = heap->used + (uint64_t)heap->used * hundredths / 100;
    return more < heap->settings.blocks ? (uint32_t)more : heap->settings.blocks;
}

/* Sets the room where it grows: to what the last pause has left and so much more. */
static void grow_room(lxr_shared_heap *heap) {
    uint32_t grown = with_more(heap, heap->settings.grow);
    uint32_t least = heap->settings.blocks < LEAST_ROOM ? heap->settings.blocks : LEAST_ROOM;
    heap->settings.room = heap->most = grown < least ? least : grown;
}

/* Where it doesn't grow, a quarter more than a collecting pause has left counts as room at the least. */
static void keep_room(lxr_shared_heap *heap) {
    uint32_t quarter_more = with_more(heap, 25);
    heap->most = heap->settings.room < quarter_more ? quarter_more : heap->settings.room;
}

/* Where traces come by the room, one is to begin once more than half of it is used that the last end of a trace or collecting pause left. */
static bool wants_trace(const lxr_shared_heap *heap) {
    return heap->settings.trace == 0 && heap->used > heap->kept && heap->used - heap->kept > left_for_traces(heap) / 2;
}

/* Notes what the last pause has left in use, and sets the room by it after a collecting pause and each end of a trace. */
static void note_room(lxr_shared_heap *heap) {
    uint64_t free_blocks = 0;
    lxr_passes_count(&heap->passes, LXR_COUNT_FREE_BLOCKS, &free_blocks);
    heap->used = heap->settings.blocks - (uint32_t)free_blocks;
    bool collects = heap->kind == LXR_KIND_COLLECT;
    bool reclaims = collects || heap->kind == LXR_KIND_END;
    if (heap->settings.grow) {
        if (reclaims) grow_room(heap);
    } else if (collects) {
        keep_room(heap);
    }
    if (reclaims) heap->kept = heap->used;
    heap->is_told |= reclaims;
    heap->traces = wants_trace(heap);
    heap->due = due_bytes(heap);
}

/*
 * Notes what the last pauses did, which one call has made: one, which collects where a mutator has asked for that, and further ones, which
 * all collect. Where the number of the last isn't above that of the one before them, names were renewed between the two.
 */
static void note_pauses(lxr_shared_heap *heap) {
    uint64_t asked = 0, before = heap->told[LXR_COUNT_PAUSES];
    for (uint32_t what = 0; what < TOLD; what++) lxr_passes_count(&heap->passes, what, &heap->told[what]);
    uint64_t made = heap->told[LXR_COUNT_PAUSES] - (heap->told[LXR_COUNT_PAUSES] > before ? before : 0);
    heap->paused += made;
    heap->collected += made - (heap->collecting ? 0 : 1);
    heap->collecting = false;
    lxr_passes_count(&heap->passes, LXR_COUNT_LAST_KIND, &heap->kind);
    note_room(heap);
    lxr_passes_count(&heap->passes, LXR_COUNT_ASKED, &asked);
    heap->is_worn = asked >= heap->worn;
    if (heap->is_worn) heap->worn = asked + FURTHER;
    if (asked < WORN) heap->worn = WORN;
}

/* Gives memory of free blocks back, where that was asked for. No epoch is open. */
static void trim(lxr_shared_heap *heap) {
    if (heap->trimming) lxr_passes_trim(&heap->passes);
    heap->trimming = false;
}

/* Makes the pause that is wanted, opens the next epoch and wakes all. The lock is held, and no pass is away. */
static void make_pause(lxr_shared_heap *heap) {
    struct timespec begun = now();
    lxr_code made = heap->traces ? lxr_passes_pause_and_trace(&heap->passes) : lxr_passes_pause(&heap->passes);
    bool paused = made == LXR_OK;
    if (paused) {
        note_pauses(heap);
        trim(heap);
    }
    lxr_code code = lxr_passes_resume(&heap->passes);
    if (code != LXR_OK && code != LXR_E_EPOCH) heap->lost = true;
    heap->wanted = false;
    heap->epoch++;
    pthread_cond_broadcast(&heap->moved);
    if (paused && heap->settings.paused) {
        lxr_pause_times times = { heap->paused, nanoseconds(heap->since, begun), nanoseconds(begun, now()), heap->kind };
        heap->settings.paused(heap->settings.with, &times);
    }
}

/* A pass has come home. The lock is held: who was the last that a pause waited for makes it. */
static void count_home(lxr_shared_heap *heap, uint32_t passes) {
    heap->away -= passes;
    if (heap->wanted && heap->away == 0) make_pause(heap);
}

/* Waits for the pause that is wanted, if one is. The lock is held. */
static void wait_for_pause(lxr_shared_heap *heap) {
    uint64_t epoch = heap->epoch;
    while (heap->wanted && heap->epoch == epoch) pthread_cond_wait(&heap->moved, &heap->lock);
}

/* ---- Passes of mutators ---- */

static struct place *place_of(lxr_mutator *mutator) { return &mutator->heap->places[mutator->number]; }

static lxr_code stop(lxr_mutator *mutator, lxr_code code) {
    mutator->left = 0;
    mutator->stopped = code;
    return code;
}

/* Counts what the mutator has done since its pass left its home. */
static void count_done(lxr_mutator *mutator) {
    struct place *place = place_of(mutator);
    place->done += mutator->granted - mutator->left;
    place->made += mutator->made;
    mutator->granted = mutator->left;
    mutator->made = 0;
}

/* What is counted of a place begins anew with each epoch. The lock is held. */
static void begin_epoch(lxr_shared_heap *heap, struct place *place) {
    if (place->epoch == heap->epoch) return;
    place->epoch = heap->epoch;
    place->done = 0;
    place->made = 0;
}

/* After how many operations it asks for a pause: one that can be ordered a sixteenth may have its names renewed sixteen times as often. */
static uint32_t turn(const lxr_shared_heap *heap, const struct place *place) {
    uint32_t most = place - heap->places < FIRST ? LXR_MOST_EVERY : LXR_MOST_EVERY / FIRST;
    return heap->settings.every < most ? heap->settings.every : most;
}

/* How many operations it may do until then: one at least, since one may wait for its answer. */
static uint32_t grant(const lxr_shared_heap *heap, const struct place *place) {
    uint32_t most = turn(heap, place);
    return place->done < most ? most - place->done : 1;
}

/* How many bytes of objects it may make until it asks for a pause: its part of those that are due, less what it has made. */
static uint64_t share(const lxr_shared_heap *heap, const struct place *place) {
    if (heap->due == UINT64_MAX) return heap->due;
    uint64_t part = heap->due / heap->entered;
    return place->made < part ? part - place->made : 0;
}

/* The mutator's pass leaves its home. The lock is held. */
static lxr_code take_out(lxr_mutator *mutator) {
    lxr_shared_heap *heap = mutator->heap;
    lxr_code code = heap->lost ? LXR_E_LOST : lxr_station_leave(&heap->passes, mutator->number, &mutator->station);
    if (code != LXR_OK) return stop(mutator, code);
    heap->away++;
    begin_epoch(heap, place_of(mutator));
    mutator->collects = heap->is_worn || heap->used > heap->most;
    mutator->left = mutator->granted = mutator->collects ? 1 : grant(heap, place_of(mutator));
    mutator->share = share(heap, place_of(mutator));
    mutator->made = 0;
    mutator->collected = heap->collected;
    return LXR_OK;
}

/* The mutator's pass comes home, and the lock is taken. */
static void bring_home(lxr_mutator *mutator) {
    count_done(mutator);
    lxr_station_come_home(&mutator->station);
    pthread_mutex_lock(&mutator->heap->lock);
    if (mutator->asked) mutator->heap->collecting = true;
    if (mutator->trims) mutator->heap->trimming = true;
    mutator->asked = mutator->trims = false;
}

/* Wants a pause, waits for it at home, and goes out again. */
static lxr_code take_part(lxr_mutator *mutator) {
    lxr_shared_heap *heap = mutator->heap;
    bring_home(mutator);
    if (!heap->wanted) heap->since = now();
    heap->wanted = true;
    count_home(heap, 1);
    wait_for_pause(heap);
    lxr_code code = take_out(mutator);
    pthread_mutex_unlock(&heap->lock);
    return code;
}

/* Stays at home, and holds up nobody. */
static void stay_home(lxr_mutator *mutator, lxr_code code) {
    lxr_shared_heap *heap = mutator->heap;
    bring_home(mutator);
    stop(mutator, code);
    if (code == LXR_E_RESTS) heap->resting++;
    count_home(heap, 1);
    pthread_mutex_unlock(&heap->lock);
}

/* Goes out again, after the pause that is wanted, if one is. */
static lxr_code go_out(lxr_mutator *mutator) {
    lxr_shared_heap *heap = mutator->heap;
    pthread_mutex_lock(&heap->lock);
    wait_for_pause(heap);
    if (mutator->stopped == LXR_E_RESTS) heap->resting--;
    lxr_code code = take_out(mutator);
    pthread_mutex_unlock(&heap->lock);
    return code;
}

/* ---- Asking for pauses ---- */

/* Asks for a pause, where none is wanted yet. */
static lxr_code ask(lxr_mutator *mutator, bool collect) {
    uint32_t wants = 0;
    lxr_station_wants_pause(&mutator->station, &wants);
    if (wants) return LXR_E_HELD;
    mutator->granted++;
    return collect ? lxr_station_ask_collect(&mutator->station) : lxr_station_ask_pause(&mutator->station);
}

/* Takes part in a pause, one that is wanted already or one that it asks for. */
static lxr_code pause_once(lxr_mutator *mutator, bool collect) {
    uint64_t word = 0;
    lxr_code asked = ask(mutator, collect);
    if (asked == LXR_E_USED_UP) return asked;
    for (;;) {
        mutator->asked = collect && asked == LXR_OK;
        lxr_code code = take_part(mutator);
        if (code != LXR_OK || asked != LXR_E_WAITS) return code;
        asked = lxr_station_answer(&mutator->station, &word);
    }
}

/* Takes part in pauses until a collecting one was made. */
static lxr_code collect(lxr_mutator *mutator) {
    uint64_t collected = mutator->collected;
    lxr_code code = LXR_OK;
    do code = pause_once(mutator, true);
    while (code == LXR_OK && mutator->collected == collected);
    return code;
}

/* ---- Operations ---- */

/* How many registers a mutator has of which the host may name so many: the library's own are behind these, where there is room for them. */
static uint32_t all_registers(uint32_t registers) { return registers > LXR_MOST_REGISTERS - OWN ? registers : registers + OWN; }

/* What comes of an operation that has answered so: after the pauses that it waits for. LXR_E_HELD: it is to be called again. */
static lxr_code wait_through(lxr_mutator *mutator, lxr_code code, uint64_t *word) {
    uint64_t none = 0;
    while (code == LXR_E_WAITS || code == LXR_E_HELD) {
        if (take_part(mutator) != LXR_OK) return mutator->stopped;
        if (code == LXR_E_HELD) return code;
        code = lxr_station_answer(&mutator->station, word ? word : &none);
    }
    return code;
}

/* The mutator has done as many operations as it may since the last pause. */
static void meet_end(lxr_mutator *mutator) {
    count_done(mutator);
    lxr_code code = mutator->collects ? collect(mutator) : pause_once(mutator, false);
    if (code == LXR_E_USED_UP) mutator->left = mutator->granted = 1;
}

/* Operations of a station. */
enum kind { NEW, LOAD, STORE, SWAP, GET, PUT, ADD, SAME, MOVE, NIL };

/* Calls for an operation with these registers, indexes and sizes, in the order of the call, and with this word, for this word, or both. */
static lxr_code call_for(lxr_station *station, enum kind kind, const uint32_t *of, uint64_t *word) {
    uint32_t same = 0;
    lxr_code code = LXR_OK;
    switch (kind) {
    case NEW: return lxr_station_new(station, of[0], of[1], of[2]);
    case LOAD: return lxr_station_load(station, of[0], of[1], of[2]);
    case STORE: return lxr_station_store(station, of[0], of[1], of[2]);
    case SWAP: return lxr_station_swap(station, of[0], of[1], of[2], of[3]);
    case GET: return lxr_station_get(station, of[0], of[1], word);
    case PUT: return lxr_station_put(station, of[0], of[1], *word);
    case ADD: return lxr_station_add(station, of[0], of[1], *word, word);
    case MOVE: return lxr_station_move(station, of[0], of[1]);
    case NIL: return lxr_station_nil(station, of[0]);
    case SAME:
        code = lxr_station_same(station, of[0], of[1], &same);
        if (code == LXR_OK) *word = same;
    }
    return code;
}

/* Counts an operation that has answered so; whether that is all. Mostly it is. */
static inline bool is_all(lxr_mutator *mutator, lxr_code code) { return code < LXR_E_WAITS && --mutator->left; }

/* What comes of one where it isn't. LXR_E_HELD: it is to be called for again. */
static lxr_code settle(lxr_mutator *mutator, lxr_code code, uint64_t *word) {
    if (code >= LXR_E_WAITS) {
        code = wait_through(mutator, code, word);
        if (code == LXR_E_HELD || mutator->left == 0) return code;
        mutator->left--;
    }
    if (mutator->left == 0) meet_end(mutator);
    return code;
}

/* The same, and calls for it as often as is needed. */
static lxr_code go_on(lxr_mutator *mutator, lxr_code code, enum kind kind, const uint32_t *of, uint64_t *word) {
    while ((code = settle(mutator, code, word)) == LXR_E_HELD) {
        code = call_for(&mutator->station, kind, of, word);
        if (is_all(mutator, code)) break;
    }
    return code;
}

/* Why a mutator makes no operation, if it makes none. */
static inline lxr_code refusal(const lxr_mutator *mutator) {
    if (!mutator) return LXR_E_NO_HEAP;
    return mutator->left ? LXR_OK : mutator->stopped;
}

/* The same of an operation with two of the host's registers, or one twice. */
static inline lxr_code refusal_of(const lxr_mutator *mutator, uint32_t one, uint32_t other) {
    lxr_code code = refusal(mutator);
    return code == LXR_OK && (one >= mutator->registers || other >= mutator->registers) ? LXR_E_REGISTER : code;
}

/* The same of one that writes the first of them: that isn't the world's. */
static inline lxr_code refusal_to_write(const lxr_mutator *mutator, uint32_t dest, uint32_t other) {
    lxr_code code = refusal_of(mutator, dest, other);
    return code == LXR_OK && dest == 0 ? LXR_E_REGISTER : code;
}

/* The same of an operation that may leave an object in a register, be it the library's own. One of the host's is used from then on. */
static inline lxr_code refusal_to_fill(lxr_mutator *mutator, uint32_t dest) {
    lxr_code code = refusal(mutator);
    if (code == LXR_OK && dest >= mutator->used && dest < mutator->registers) mutator->used = dest + 1;
    return code;
}

/* Counts an object that the mutator has made; whether it has made its share, and so has no operation left after this one. */
static inline bool count_made(lxr_mutator *mutator, uint32_t refs, uint32_t words) {
    mutator->made += (HEADER + ((uint64_t)refs + words) * WORD + GRAIN - 1) / GRAIN * GRAIN;
    if (mutator->made < mutator->share || mutator->left == 0) return false;
    mutator->granted -= mutator->left - 1;
    mutator->left = 1;
    return true;
}

/* Each of these is an operation, whose registers may be the library's own. */

static lxr_code make(lxr_mutator *mutator, uint32_t dest, uint32_t refs, uint32_t words) {
    const uint32_t of[] = { dest, refs, words };
    lxr_code code = refusal_to_fill(mutator, dest);
    if (code != LXR_OK) return code;
    code = lxr_station_new(&mutator->station, dest, refs, words);
    bool counted = code == LXR_OK;
    if (counted) count_made(mutator, refs, words);
    if (is_all(mutator, code)) return code;
    code = go_on(mutator, code, NEW, of, NULL);
    /* One that waited for a pause was made after it, and counts to what follows. */
    if (code == LXR_OK && !counted && count_made(mutator, refs, words)) meet_end(mutator);
    return code;
}

static inline lxr_code load(lxr_mutator *mutator, uint32_t dest, uint32_t base, uint32_t index) {
    const uint32_t of[] = { dest, base, index };
    lxr_code code = refusal_to_fill(mutator, dest);
    if (code != LXR_OK) return code;
    code = lxr_station_load(&mutator->station, dest, base, index);
    return is_all(mutator, code) ? code : go_on(mutator, code, LOAD, of, NULL);
}

static inline lxr_code store(lxr_mutator *mutator, uint32_t base, uint32_t index, uint32_t source) {
    const uint32_t of[] = { base, index, source };
    lxr_code code = refusal(mutator);
    if (code != LXR_OK) return code;
    code = lxr_station_store(&mutator->station, base, index, source);
    return is_all(mutator, code) ? code : go_on(mutator, code, STORE, of, NULL);
}

static inline lxr_code swap(lxr_mutator *mutator, uint32_t dest, uint32_t base, uint32_t index, uint32_t source) {
    const uint32_t of[] = { dest, base, index, source };
    lxr_code code = refusal_to_fill(mutator, dest);
    if (code != LXR_OK) return code;
    code = lxr_station_swap(&mutator->station, dest, base, index, source);
    return is_all(mutator, code) ? code : go_on(mutator, code, SWAP, of, NULL);
}

static inline lxr_code get(lxr_mutator *mutator, uint32_t base, uint32_t index, uint64_t *word) {
    const uint32_t of[] = { base, index };
    lxr_code code = refusal(mutator);
    if (code != LXR_OK) return code;
    code = lxr_station_get(&mutator->station, base, index, word);
    return is_all(mutator, code) ? code : go_on(mutator, code, GET, of, word);
}

static inline lxr_code put(lxr_mutator *mutator, uint32_t base, uint32_t index, uint64_t word) {
    const uint32_t of[] = { base, index };
    lxr_code code = refusal(mutator);
    if (code != LXR_OK) return code;
    code = lxr_station_put(&mutator->station, base, index, word);
    return is_all(mutator, code) ? code : go_on(mutator, code, PUT, of, &word);
}

static inline lxr_code move(lxr_mutator *mutator, uint32_t dest, uint32_t source) {
    const uint32_t of[] = { dest, source };
    lxr_code code = refusal_to_fill(mutator, dest);
    if (code != LXR_OK) return code;
    code = lxr_station_move(&mutator->station, dest, source);
    return is_all(mutator, code) ? code : go_on(mutator, code, MOVE, of, NULL);
}

static inline lxr_code clear(lxr_mutator *mutator, uint32_t dest) {
    lxr_code code = refusal(mutator);
    if (code != LXR_OK) return code;
    code = lxr_station_nil(&mutator->station, dest);
    return is_all(mutator, code) ? code : go_on(mutator, code, NIL, &dest, NULL);
}

lxr_code lxr_mutator_new(lxr_mutator *mutator, uint32_t dest, uint32_t refs, uint32_t words) {
    lxr_code code = refusal_to_write(mutator, dest, dest);
    return code == LXR_OK ? make(mutator, dest, refs, words) : code;
}

lxr_code lxr_mutator_load(lxr_mutator *mutator, uint32_t dest, uint32_t base, uint32_t index) {
    lxr_code code = refusal_to_write(mutator, dest, base);
    return code == LXR_OK ? load(mutator, dest, base, index) : code;
}

lxr_code lxr_mutator_store(lxr_mutator *mutator, uint32_t base, uint32_t index, uint32_t source) {
    lxr_code code = refusal_of(mutator, base, source);
    return code == LXR_OK ? store(mutator, base, index, source) : code;
}

lxr_code lxr_mutator_swap(lxr_mutator *mutator, uint32_t dest, uint32_t base, uint32_t index, uint32_t source) {
    lxr_code code = refusal_to_write(mutator, dest, base);
    if (code == LXR_OK) code = refusal_of(mutator, source, source);
    return code == LXR_OK ? swap(mutator, dest, base, index, source) : code;
}

lxr_code lxr_mutator_get(lxr_mutator *mutator, uint32_t base, uint32_t index, uint64_t *word) {
    lxr_code code = refusal_of(mutator, base, base);
    return code == LXR_OK ? get(mutator, base, index, word) : code;
}

lxr_code lxr_mutator_put(lxr_mutator *mutator, uint32_t base, uint32_t index, uint64_t word) {
    lxr_code code = refusal_of(mutator, base, base);
    return code == LXR_OK ? put(mutator, base, index, word) : code;
}

lxr_code lxr_mutator_add(lxr_mutator *mutator, uint32_t base, uint32_t index, uint64_t word, uint64_t *old) {
    const uint32_t of[] = { base, index };
    lxr_code code = refusal_of(mutator, base, base);
    if (code != LXR_OK) return code;
    code = lxr_station_add(&mutator->station, base, index, word, old);
    if (is_all(mutator, code)) return code;
    bool is_told = code == LXR_OK;
    code = go_on(mutator, code, ADD, of, &word);
    if (code == LXR_OK && !is_told) *old = word;
    return code;
}

lxr_code lxr_mutator_same(lxr_mutator *mutator, uint32_t left, uint32_t right, uint32_t *same) {
    const uint32_t of[] = { left, right };
    lxr_code code = refusal_of(mutator, left, right);
    if (code != LXR_OK) return code;
    code = lxr_station_same(&mutator->station, left, right, same);
    if (is_all(mutator, code)) return code;
    bool is_told = code == LXR_OK;
    uint64_t answer = 0;
    code = go_on(mutator, code, SAME, of, &answer);
    if (code == LXR_OK && !is_told) *same = (uint32_t)answer;
    return code;
}

lxr_code lxr_mutator_move(lxr_mutator *mutator, uint32_t dest, uint32_t source) {
    lxr_code code = refusal_to_write(mutator, dest, source);
    return code == LXR_OK ? move(mutator, dest, source) : code;
}

lxr_code lxr_mutator_nil(lxr_mutator *mutator, uint32_t dest) {
    lxr_code code = refusal_to_write(mutator, dest, dest);
    return code == LXR_OK ? clear(mutator, dest) : code;
}

/* Lets go of what the host's registers hold from one on. */
static lxr_code clear_from(lxr_mutator *mutator, uint32_t first) {
    lxr_code code = LXR_OK;
    while (code == LXR_OK && mutator->used > first) {
        code = clear(mutator, mutator->used - 1);
        if (code == LXR_OK) mutator->used--;
    }
    return code;
}

/* Lets go of what the library's own hold. */
static lxr_code clear_own(lxr_mutator *mutator) {
    lxr_code code = LXR_OK;
    uint32_t end = all_registers(mutator->registers);
    for (uint32_t dest = mutator->registers; code == LXR_OK && dest < end; dest++) code = clear(mutator, dest);
    return code;
}

lxr_code lxr_mutator_registers_in_use(lxr_mutator *mutator, uint32_t count) {
    lxr_code code = refusal(mutator);
    if (code == LXR_OK && (count == 0 || count > mutator->registers)) return LXR_E_REGISTER;
    return code == LXR_OK ? clear_from(mutator, count) : code;
}

lxr_code lxr_mutator_pause(lxr_mutator *mutator) {
    lxr_code code = refusal(mutator);
    return code == LXR_OK ? pause_once(mutator, false) : code;
}

lxr_code lxr_mutator_collect(lxr_mutator *mutator) {
    lxr_code code = refusal(mutator);
    return code == LXR_OK ? collect(mutator) : code;
}

lxr_code lxr_mutator_trim(lxr_mutator *mutator) {
    lxr_code code = refusal(mutator);
    if (code != LXR_OK) return code;
    mutator->trims = true;
    code = pause_once(mutator, false);
    mutator->trims = false;
    return code;
}

lxr_code lxr_mutator_poll(lxr_mutator *mutator) {
    uint32_t wants = 0;
    lxr_code code = refusal(mutator);
    if (code != LXR_OK) return code;
    lxr_station_wants_pause(&mutator->station, &wants);
    return wants ? take_part(mutator) : LXR_OK;
}

/* ---- Several at once ---- */

/* Whether it is the number of a register of the mutator. */
static bool is_register(const lxr_mutator *mutator, uint64_t number) { return mutator && number < mutator->registers; }

/* Whether all of these are, and none of them is `but`. */
static bool are_registers(const lxr_mutator *mutator, const uint32_t *registers, size_t count, uint32_t but) {
    for (size_t at = 0; at < count; at++)
        if (!is_register(mutator, registers[at]) || registers[at] == but) return false;
    return true;
}

/* The refusal of several operations with this base, whose other registers do or don't. */
static lxr_code refusal_of_several(const lxr_mutator *mutator, uint32_t base, bool others) {
    lxr_code code = refusal(mutator);
    return code == LXR_OK && (!is_register(mutator, base) || !others) ? LXR_E_REGISTER : code;
}

lxr_code lxr_mutator_get_many(lxr_mutator *mutator, uint32_t base, uint32_t first, uint64_t *words, size_t count) {
    lxr_code code = refusal_of_several(mutator, base, true);
    for (size_t at = 0; code == LXR_OK && at < count; at++) code = lxr_mutator_get(mutator, base, first + (uint32_t)at, &words[at]);
    return code;
}

lxr_code lxr_mutator_put_many(lxr_mutator *mutator, uint32_t base, uint32_t first, const uint64_t *words, size_t count) {
    lxr_code code = refusal_of_several(mutator, base, true);
    for (size_t at = 0; code == LXR_OK && at < count; at++) code = lxr_mutator_put(mutator, base, first + (uint32_t)at, words[at]);
    return code;
}

lxr_code lxr_mutator_load_many(lxr_mutator *mutator, uint32_t base, uint32_t first, const uint32_t *registers, size_t count) {
    bool fit = are_registers(mutator, registers, count, 0) && are_registers(mutator, registers, count ? count - 1 : 0, base);
    lxr_code code = refusal_of_several(mutator, base, fit);
    for (size_t at = 0; code == LXR_OK && at < count; at++) code = lxr_mutator_load(mutator, registers[at], base, first + (uint32_t)at);
    return code;
}

lxr_code lxr_mutator_store_many(lxr_mutator *mutator, uint32_t base, uint32_t first, const uint32_t *registers, size_t count) {
    lxr_code code = refusal_of_several(mutator, base, are_registers(mutator, registers, count, LXR_MOST_REGISTERS));
    for (size_t at = 0; code == LXR_OK && at < count; at++) code = lxr_mutator_store(mutator, base, first + (uint32_t)at, registers[at]);
    return code;
}

lxr_code lxr_mutator_new_with(lxr_mutator *mutator, uint32_t dest, const uint32_t *sources, size_t refs, const uint64_t *data,
                              size_t words) {
    lxr_code code = refusal_of_several(mutator, dest, dest != 0 && are_registers(mutator, sources, refs, dest));
    if (code != LXR_OK) return code;
    if (refs > LXR_MOST_REFS || words > LXR_MOST_WORDS) return LXR_E_SIZE;
    code = lxr_mutator_new(mutator, dest, (uint32_t)refs, (uint32_t)words);
    if (code == LXR_OK) code = lxr_mutator_store_many(mutator, dest, 0, sources, refs);
    return code == LXR_OK ? lxr_mutator_put_many(mutator, dest, 0, data, words) : code;
}

/* Of an operation the first number is a register. Which others are; and whether the first is written to, so that it isn't 0. */
enum { IN_B = 1, IN_C = 2, IN_WORD = 4, WRITES = 8 };

/* Whether an operation's numbers fit, or the code that says why they don't. */
static lxr_code look_at(const lxr_mutator *mutator, const lxr_operation *it) {
    static const unsigned kinds[] = {
        [LXR_OP_NEW] = WRITES, [LXR_OP_LOAD] = WRITES | IN_B,           [LXR_OP_STORE] = IN_C,
        [LXR_OP_SAME] = IN_B,  [LXR_OP_MOVE] = WRITES | IN_B,           [LXR_OP_NIL] = WRITES,
        [LXR_OP_IS_NIL] = 0,   [LXR_OP_SWAP] = WRITES | IN_B | IN_WORD, [LXR_OP_ADD] = 0,
    };
    if (it->op >= sizeof kinds / sizeof *kinds) return LXR_E_WHAT;
    unsigned kind = kinds[it->op];
    bool others = (!(kind & IN_B) || is_register(mutator, it->b)) && (!(kind & IN_C) || is_register(mutator, it->c)) &&
                  (!(kind & IN_WORD) || is_register(mutator, it->word));
    if (!is_register(mutator, it->a) || (kind & WRITES && it->a == 0) || !others) return LXR_E_REGISTER;
    return it->op == LXR_OP_NEW && (it->b > LXR_MOST_REFS || it->c > LXR_MOST_WORDS) ? LXR_E_SIZE : LXR_OK;
}

static lxr_code look_at_all(const lxr_mutator *mutator, const lxr_operation *operations, size_t count) {
    lxr_code code = LXR_OK;
    for (size_t at = 0; code == LXR_OK && at < count; at++) code = look_at(mutator, &operations[at]);
    return code;
}

static lxr_code tell_same(lxr_mutator *mutator, lxr_operation *it) {
    uint32_t same = 0;
    lxr_code code = lxr_mutator_same(mutator, it->a, it->b, &same);
    if (code == LXR_OK) it->word = same;
    return code;
}

/* No object has so many words: where the register holds one, it is the index that is refused. */
static lxr_code tell_nil(lxr_mutator *mutator, lxr_operation *it) {
    uint64_t word = 0;
    lxr_code code = lxr_mutator_get(mutator, it->a, UINT32_MAX, &word);
    if (code != LXR_E_NIL && code != LXR_E_INDEX) return code;
    it->word = code == LXR_E_NIL;
    return LXR_OK;
}

static lxr_code operate(lxr_mutator *mutator, lxr_operation *it) {
    switch (it->op) {
    case LXR_OP_NEW: return lxr_mutator_new(mutator, it->a, it->b, it->c);
    case LXR_OP_LOAD: return lxr_mutator_load(mutator, it->a, it->b, it->c);
    case LXR_OP_STORE: return lxr_mutator_store(mutator, it->a, it->b, it->c);
    case LXR_OP_GET: return lxr_mutator_get(mutator, it->a, it->b, &it->word);
    case LXR_OP_PUT: return lxr_mutator_put(mutator, it->a, it->b, it->word);
    case LXR_OP_SAME: return tell_same(mutator, it);
    case LXR_OP_MOVE: return lxr_mutator_move(mutator, it->a, it->b);
    case LXR_OP_NIL: return lxr_mutator_nil(mutator, it->a);
    case LXR_OP_IS_NIL: return tell_nil(mutator, it);
    case LXR_OP_SWAP: return lxr_mutator_swap(mutator, it->a, it->b, it->c, (uint32_t)it->word);
    default: return lxr_mutator_add(mutator, it->a, it->b, it->word, &it->word);
    }
}

lxr_code lxr_mutator_apply(lxr_mutator *mutator, lxr_operation *operations, size_t count, size_t *done) {
    *done = 0;
    lxr_code code = refusal(mutator);
    if (code == LXR_OK) code = look_at_all(mutator, operations, count);
    while (code == LXR_OK && *done < count) {
        code = operate(mutator, &operations[*done]);
        if (code == LXR_OK) ++*done;
    }
    return code;
}

/* ---- Arrays ---- */

/* The refusal of an array call with two of the host's registers: it wants the library's own too. */
static lxr_code refusal_of_array(const lxr_mutator *mutator, uint32_t one, uint32_t other) {
    lxr_code code = refusal_of(mutator, one, other);
    return code == LXR_OK && all_registers(mutator->registers) == mutator->registers ? LXR_E_REGISTER : code;
}

/* The same of one that writes the first of them. */
static lxr_code refusal_to_write_by_array(const lxr_mutator *mutator, uint32_t dest, uint32_t other) {
    lxr_code code = refusal_of_array(mutator, dest, other);
    return code == LXR_OK && dest == 0 ? LXR_E_REGISTER : code;
}

/* Ends an array call that comes to this code: the library's own registers are nil again. */
static lxr_code end_array(lxr_mutator *mutator, lxr_code code) {
    clear_own(mutator);
    return code;
}

/* Makes a part of an array in the second of the library's registers; the root is in the first. */
static lxr_code make_part(lxr_mutator *mutator, uint32_t number, uint32_t length) {
    uint32_t root = mutator->registers, rest = length - number * PART;
    lxr_code code = make(mutator, root + 1, rest < PART ? rest : PART, 0);
    return code == LXR_OK ? store(mutator, root, number, root + 1) : code;
}

/* Makes a root and its parts in the library's registers. */
static lxr_code make_root(lxr_mutator *mutator, uint32_t length) {
    uint32_t root = mutator->registers, parts = (length - 1) / PART + 1;
    lxr_code code = make(mutator, root, parts, 1);
    if (code == LXR_OK) code = put(mutator, root, 0, length);
    for (uint32_t number = 0; code == LXR_OK && number < parts; number++) code = make_part(mutator, number, length);
    return code;
}

lxr_code lxr_mutator_array_new(lxr_mutator *mutator, uint32_t dest, uint32_t length) {
    lxr_code code = refusal_to_write_by_array(mutator, dest, dest);
    if (code != LXR_OK) return code;
    if (length > LXR_MOST_ELEMENTS) return LXR_E_SIZE;
    if (length <= PART) return make(mutator, dest, length, 0);
    code = make_root(mutator, length);
    if (code == LXR_OK) code = move(mutator, dest, mutator->registers);
    return end_array(mutator, code);
}

/* An array as a call goes along it: its register, the library's for a part of it, and which part that holds. */
struct array {
    uint32_t base, own, part;
    bool is_root;
    uint32_t length; /* of a root, as it says */
};

/* No part. */
#define NO_PART UINT32_MAX

/* Looks at the array in a register. An object without data words says no length: then it is no root. */
static lxr_code look_at_array(lxr_mutator *mutator, struct array *array, uint32_t base, uint32_t own) {
    uint64_t length = 0;
    lxr_code code = get(mutator, base, 0, &length);
    *array = (struct array){ .base = base, .own = own, .part = NO_PART, .is_root = code == LXR_OK };
    array->length = length < LXR_MOST_ELEMENTS ? (uint32_t)length : LXR_MOST_ELEMENTS;
    return code == LXR_E_INDEX ? LXR_OK : code;
}

/* Finds the object that has an element: `*base` holds it, and it is its reference `*field`. */
static lxr_code find_element(lxr_mutator *mutator, struct array *array, uint32_t index, uint32_t *base, uint32_t *field) {
    uint32_t part = index / PART;
    *base = array->is_root ? array->own : array->base;
    *field = array->is_root ? index % PART : index;
    if (!array->is_root || part == array->part) return LXR_OK;
    if (index >= array->length) return LXR_E_INDEX;
    array->part = part;
    return load(mutator, array->own, array->base, part);
}

/* Looks at an array and finds an element of it, the part of which the first of the library's registers holds. */
static lxr_code look_for_element(lxr_mutator *mutator, uint32_t array_base, uint32_t index, uint32_t *base, uint32_t *field) {
    struct array array;
    lxr_code code = look_at_array(mutator, &array, array_base, mutator->registers);
    return code == LXR_OK ? find_element(mutator, &array, index, base, field) : code;
}

/* Ends a call that found an element there: a part is let go of. */
static lxr_code leave_element(lxr_mutator *mutator, uint32_t base, lxr_code code) {
    if (base == mutator->registers) clear(mutator, base);
    return code;
}

lxr_code lxr_mutator_array_load(lxr_mutator *mutator, uint32_t dest, uint32_t base, uint32_t index) {
    uint32_t at = base, field = 0;
    lxr_code code = refusal_to_write_by_array(mutator, dest, base);
    if (code != LXR_OK) return code;
    code = look_for_element(mutator, base, index, &at, &field);
    if (code == LXR_OK) code = load(mutator, dest, at, field);
    return leave_element(mutator, at, code);
}

lxr_code lxr_mutator_array_store(lxr_mutator *mutator, uint32_t base, uint32_t index, uint32_t source) {
    uint32_t at = base, field = 0;
    lxr_code code = refusal_of_array(mutator, base, source);
    if (code != LXR_OK) return code;
    code = look_for_element(mutator, base, index, &at, &field);
    if (code == LXR_OK) code = store(mutator, at, field, source);
    return leave_element(mutator, at, code);
}

lxr_code lxr_mutator_array_swap(lxr_mutator *mutator, uint32_t dest, uint32_t base, uint32_t index, uint32_t source) {
    uint32_t at = base, field = 0;
    lxr_code code = refusal_to_write_by_array(mutator, dest, base);
    if (code == LXR_OK) code = refusal_of(mutator, source, source);
    if (code != LXR_OK) return code;
    code = look_for_element(mutator, base, index, &at, &field);
    if (code == LXR_OK) code = swap(mutator, dest, at, field, source);
    return leave_element(mutator, at, code);
}

/* Whether a field is there is seen by reading it: a reference into a register of the library's, or a data word. */
typedef lxr_code look_at_field(lxr_mutator *mutator, uint32_t base, uint32_t index);

static lxr_code look_at_ref(lxr_mutator *mutator, uint32_t base, uint32_t index) { return load(mutator, mutator->registers, base, index); }

static lxr_code look_at_word(lxr_mutator *mutator, uint32_t base, uint32_t index) {
    uint64_t word = 0;
    return get(mutator, base, index, &word);
}

/* Counts the fields of an object by halves: some ten looks. */
static lxr_code count_fields(lxr_mutator *mutator, uint32_t base, uint32_t most, look_at_field *look, uint32_t *count) {
    uint32_t least = 0;
    while (least < most) {
        uint32_t middle = least + (most - least) / 2;
        lxr_code code = look(mutator, base, middle);
        if (code != LXR_OK && code != LXR_E_INDEX) return code;
        if (code == LXR_OK) {
            least = middle + 1;
        } else {
            most = middle;
        }
    }
    *count = least;
    return LXR_OK;
}

/* Whether an array has so many elements from one on: by the last of them, or its part. */
static lxr_code look_for_elements(lxr_mutator *mutator, const struct array *array, uint32_t first, uint32_t count) {
    uint64_t end = (uint64_t)first + count;
    if (end == 0) return LXR_OK;
    if (end > (array->is_root ? array->length : PART)) return LXR_E_INDEX;
    uint32_t last = (uint32_t)end - 1;
    return look_at_ref(mutator, array->base, array->is_root ? last / PART : last);
}

/* Whether a part of a root is there, and has such a reference. */
static lxr_code look_at_part(lxr_mutator *mutator, const struct array *array, uint32_t part, uint32_t field) {
    lxr_code code = load(mutator, array->own, array->base, part);
    return code == LXR_OK ? load(mutator, array->own, array->own, field) : code;
}

/* Whether so many elements of a root from one on have places: in each part the last of them. */
static lxr_code look_for_places(lxr_mutator *mutator, const struct array *array, uint32_t first, uint32_t count) {
    if (!array->is_root || count == 0) return LXR_OK;
    uint32_t last = first + count - 1;
    lxr_code code = LXR_OK;
    for (uint32_t part = first / PART; code == LXR_OK && part <= last / PART; part++)
        code = look_at_part(mutator, array, part, part == last / PART ? last % PART : PART - 1);
    return code;
}

/* How many elements an array has: a root has what it says, or what its references can lead to where these are fewer. */
static lxr_code find_length(lxr_mutator *mutator, const struct array *array, uint32_t *length) {
    uint32_t refs = 0;
    lxr_code code = array->is_root ? look_for_elements(mutator, array, 0, array->length) : LXR_E_INDEX;
    if (code == LXR_OK) *length = array->length;
    if (code != LXR_E_INDEX) return code;
    code = count_fields(mutator, array->base, LXR_MOST_REFS, look_at_ref, &refs);
    if (code == LXR_OK) *length = array->is_root ? refs * PART : refs;
    return code;
}

lxr_code lxr_mutator_array_length(lxr_mutator *mutator, uint32_t base, uint32_t *length) {
    struct array array;
    lxr_code code = refusal_of_array(mutator, base, base);
    if (code != LXR_OK) return code;
    code = look_at_array(mutator, &array, base, mutator->registers);
    if (code == LXR_OK) code = find_length(mutator, &array, length);
    return end_array(mutator, code);
}

/* Stores into an element. */
static lxr_code store_element(lxr_mutator *mutator, struct array *array, uint32_t index, uint32_t source) {
    uint32_t base = 0, field = 0;
    lxr_code code = find_element(mutator, array, index, &base, &field);
    return code == LXR_OK ? store(mutator, base, field, source) : code;
}

lxr_code lxr_mutator_array_fill(lxr_mutator *mutator, uint32_t base, uint32_t first, uint32_t count, uint32_t source) {
    struct array array;
    lxr_code code = refusal_of_array(mutator, base, source);
    if (code != LXR_OK) return code;
    code = look_at_array(mutator, &array, base, mutator->registers);
    if (code == LXR_OK) code = look_for_elements(mutator, &array, first, count);
    if (code == LXR_OK) code = look_for_places(mutator, &array, first, count);
    for (uint32_t at = 0; code == LXR_OK && at < count; at++) code = store_element(mutator, &array, first + at, source);
    return end_array(mutator, code);
}

/* Loads an element into a register of the library's, which may be the one that held the part. */
static lxr_code load_element(lxr_mutator *mutator, uint32_t dest, struct array *array, uint32_t index) {
    uint32_t base = 0, field = 0;
    lxr_code code = find_element(mutator, array, index, &base, &field);
    if (code == LXR_OK) code = load(mutator, dest, base, field);
    if (dest == array->own) array->part = NO_PART;
    return code;
}

/* What a copy goes along. */
struct copying {
    struct array to, from;
    uint32_t at, first, count;
};

/*
 * Looks at both arrays of a copy. The second of the library's registers is for a part of the one that is written to; where that has none it is
 * for a part of the other, which else shares the first with its elements.
 */
static lxr_code look_at_both(lxr_mutator *mutator, struct copying *it, uint32_t to, uint32_t from) {
    uint32_t own = mutator->registers;
    lxr_code code = look_at_array(mutator, &it->to, to, own + 1);
    if (code == LXR_OK) code = look_for_elements(mutator, &it->to, it->at, it->count);
    if (code == LXR_OK) code = look_at_array(mutator, &it->from, from, it->to.is_root ? own : own + 1);
    if (code == LXR_OK) code = look_for_elements(mutator, &it->from, it->first, it->count);
    if (code == LXR_OK) code = look_for_places(mutator, &it->to, it->at, it->count);
    return code == LXR_OK ? look_for_places(mutator, &it->from, it->first, it->count) : code;
}

/* Copies an element by the first of the library's registers. */
static lxr_code copy_element(lxr_mutator *mutator, struct copying *it, uint32_t number) {
    lxr_code code = load_element(mutator, mutator->registers, &it->from, it->first + number);
    return code == LXR_OK ? store_element(mutator, &it->to, it->at + number, mutator->registers) : code;
}

/* Elements that move up are copied from the last one on, so that each is read before it is written. */
lxr_code lxr_mutator_array_copy(lxr_mutator *mutator, uint32_t to, uint32_t at, uint32_t from, uint32_t first, uint32_t count) {
    struct copying it = { .at = at, .first = first, .count = count };
    lxr_code code = refusal_of_array(mutator, to, from);
    if (code != LXR_OK) return code;
    code = look_at_both(mutator, &it, to, from);
    for (uint32_t done = 0; code == LXR_OK && done < count; done++) code = copy_element(mutator, &it, first < at ? count - 1 - done : done);
    return end_array(mutator, code);
}

/* ---- Words ---- */

lxr_code lxr_mutator_words_new(lxr_mutator *mutator, uint32_t dest, uint32_t length) { return lxr_mutator_new(mutator, dest, 0, length); }

lxr_code lxr_mutator_words_length(lxr_mutator *mutator, uint32_t base, uint32_t *length) {
    lxr_code code = refusal_of(mutator, base, base);
    return code == LXR_OK ? count_fields(mutator, base, LXR_MOST_WORDS, look_at_word, length) : code;
}

lxr_code lxr_mutator_words_get(lxr_mutator *mutator, uint32_t base, uint32_t index, uint64_t *word) {
    return lxr_mutator_get(mutator, base, index, word);
}

lxr_code lxr_mutator_words_put(lxr_mutator *mutator, uint32_t base, uint32_t index, uint64_t word) {
    return lxr_mutator_put(mutator, base, index, word);
}

/* Whether an object has so many data words from one on: by the last of them. */
static lxr_code look_for_words(lxr_mutator *mutator, uint32_t base, uint32_t first, size_t count) {
    lxr_code code = refusal_of(mutator, base, base);
    if (code != LXR_OK) return code;
    bool may_fit = first <= LXR_MOST_WORDS && count <= LXR_MOST_WORDS - first;
    uint32_t end = may_fit ? first + (uint32_t)count : UINT32_MAX;
    code = look_at_word(mutator, base, end ? end - 1 : 0);
    return code == LXR_E_INDEX && end == 0 ? LXR_OK : code;
}

lxr_code lxr_mutator_words_read(lxr_mutator *mutator, uint32_t base, uint32_t first, uint64_t *words, size_t count) {
    lxr_code code = look_for_words(mutator, base, first, count);
    return code == LXR_OK ? lxr_mutator_get_many(mutator, base, first, words, count) : code;
}

lxr_code lxr_mutator_words_write(lxr_mutator *mutator, uint32_t base, uint32_t first, const uint64_t *words, size_t count) {
    lxr_code code = look_for_words(mutator, base, first, count);
    return code == LXR_OK ? lxr_mutator_put_many(mutator, base, first, words, count) : code;
}

/* ---- Mutators ---- */

lxr_code lxr_mutator_rest(lxr_mutator *mutator) {
    lxr_code code = refusal(mutator);
    if (code == LXR_OK) stay_home(mutator, LXR_E_RESTS);
    return code;
}

lxr_code lxr_mutator_wake(lxr_mutator *mutator) {
    if (!mutator) return LXR_E_NO_HEAP;
    if (mutator->left) return LXR_E_AWAKE;
    return mutator->stopped == LXR_E_RESTS ? go_out(mutator) : mutator->stopped;
}

/* Finds a number that is free, and takes its pass out. The lock is held. */
static lxr_code take_number(lxr_mutator *mutator) {
    lxr_shared_heap *heap = mutator->heap;
    for (uint32_t number = 0; number < heap->settings.mutators; number++) {
        struct place *place = &heap->places[number];
        if (place->taken || place->spoiled) continue;
        mutator->number = number;
        heap->entered++;
        lxr_code code = take_out(mutator);
        place->taken = code == LXR_OK;
        if (!place->taken) heap->entered--;
        return code;
    }
    return LXR_E_NUMBER;
}

lxr_code lxr_mutator_enter(lxr_shared_heap *heap, lxr_mutator **handle) {
    if (!heap) return LXR_E_NO_HEAP;
    if (*handle) return LXR_E_IN_USE;
    lxr_mutator *mutator = calloc(1, sizeof *mutator);
    if (!mutator) return LXR_E_MEMORY;
    mutator->heap = heap;
    mutator->registers = heap->settings.registers;
    mutator->used = 1;
    pthread_mutex_lock(&heap->lock);
    wait_for_pause(heap);
    lxr_code code = take_number(mutator);
    pthread_mutex_unlock(&heap->lock);
    if (code == LXR_OK) {
        *handle = mutator;
    } else {
        lxr_station_close(&mutator->station);
        free(mutator);
    }
    return code;
}

lxr_code lxr_mutator_leave(lxr_mutator **handle) {
    lxr_mutator *mutator = *handle;
    if (!mutator) return LXR_E_NO_HEAP;
    lxr_shared_heap *heap = mutator->heap;
    if (!mutator->left && mutator->stopped != LXR_E_LOST) go_out(mutator);
    bool spoiled = mutator->left && (clear_from(mutator, 1) != LXR_OK || clear_own(mutator) != LXR_OK);
    bool out = mutator->left != 0;
    bring_home(mutator);
    place_of(mutator)->spoiled = spoiled;
    place_of(mutator)->taken = false;
    heap->entered--;
    count_home(heap, out ? 1 : 0);
    pthread_mutex_unlock(&heap->lock);
    lxr_station_close(&mutator->station);
    free(mutator);
    *handle = NULL;
    return LXR_OK;
}

/* ---- Helpers ---- */

/* Does some work of a pass; whether there may be more in this epoch. */
static bool help_some(lxr_station *station) {
    uint32_t more = 0;
    return lxr_station_help(station, UNITS, &more) == LXR_OK && more;
}

/* Whether some mutator waits for a pause. */
static bool is_pause_wanted(lxr_shared_heap *heap) {
    pthread_mutex_lock(&heap->lock);
    bool wanted = heap->wanted;
    pthread_mutex_unlock(&heap->lock);
    return wanted;
}

/* Works while there is work and no pause is wanted. */
static void work(struct helper *helper) {
    bool counts = true, traces = true;
    while ((counts || traces) && !is_pause_wanted(helper->heap)) {
        counts = help_some(&helper->counts);
        traces = help_some(&helper->traces);
    }
}

/* Waits until another epoch is open; whether one is that helpers go out in. The lock is held. */
static bool wait_for_epoch(lxr_shared_heap *heap, uint64_t *epoch) {
    while (heap->epoch == *epoch && !heap->closing) pthread_cond_wait(&heap->moved, &heap->lock);
    *epoch = heap->epoch;
    return !heap->closing && !heap->lost;
}

/* Takes the helper's passes out; how many went. The lock is held. */
static uint32_t send_helper(struct helper *helper) {
    lxr_shared_heap *heap = helper->heap;
    uint32_t first = heap->settings.mutators + helper->number;
    uint32_t out = lxr_station_leave(&heap->passes, first, &helper->counts) == LXR_OK;
    out += lxr_station_leave(&heap->passes, first + heap->settings.helpers, &helper->traces) == LXR_OK;
    heap->away += out;
    return out;
}

/* What a helper does, from its start to its end: in each epoch it goes out, works while there is work, and comes home. */
static void *be_helper(void *with) {
    struct helper *helper = with;
    lxr_shared_heap *heap = helper->heap;
    uint64_t epoch = 0;
    pthread_mutex_lock(&heap->lock);
    while (wait_for_epoch(heap, &epoch)) {
        uint32_t out = send_helper(helper);
        pthread_mutex_unlock(&heap->lock);
        work(helper);
        lxr_station_come_home(&helper->counts);
        lxr_station_come_home(&helper->traces);
        pthread_mutex_lock(&heap->lock);
        count_home(heap, out);
    }
    pthread_mutex_unlock(&heap->lock);
    return NULL;
}

/* Starts helpers; how many were started. */
static uint32_t start_helpers(lxr_shared_heap *heap) {
    for (uint32_t number = 0; number < heap->settings.helpers; number++) {
        struct helper *helper = &heap->helpers[number];
        helper->heap = heap;
        helper->number = number;
        if (pthread_create(&helper->thread, NULL, be_helper, helper) != 0) return number;
    }
    return heap->settings.helpers;
}

/* ---- A heap ---- */

/* Reads settings of this version, of those that end before the runs or before the room, or of 0.2, which evacuated an eighth of the blocks; whether
 * their size is one of these. */
static bool read_settings(lxr_shared_heap_settings *settings, const lxr_shared_heap_settings *from) {
    const size_t first = offsetof(lxr_shared_heap_settings, evacuate), second = offsetof(lxr_shared_heap_settings, room);
    const size_t third = offsetof(lxr_shared_heap_settings, runs);
    if (from->size != sizeof *settings && from->size != first && from->size != second && from->size != third) return false;
    settings->registers = settings->room = settings->grow = settings->runs = 0;
    memcpy(settings, from, (size_t)from->size);
    if (from->size == first) settings->evacuate = settings->blocks / 8;
    if (settings->registers == 0) settings->registers = LXR_REGISTERS;
    if (settings->room == 0) settings->room = settings->blocks;
    return true;
}

static bool are_settings(const lxr_shared_heap_settings *settings) {
    return settings->mutators >= 1 && settings->mutators <= LXR_MOST_MUTATORS && settings->helpers <= LXR_MOST_HELPERS &&
           settings->every >= 1 && settings->every <= LXR_MOST_EVERY && settings->registers >= LXR_REGISTERS &&
           settings->registers <= LXR_MOST_REGISTERS && settings->room <= settings->blocks && settings->grow <= LXR_MOST_GROW;
}

/* The pace in bytes that settings ask for. */
static uint64_t pace_of(const lxr_shared_heap_settings *settings) {
    uint64_t half = (uint64_t)settings->blocks * BLOCK / 2;
    if (settings->pace == LXR_PACE_NEVER) return UINT64_MAX;
    if (settings->pace != LXR_PACE_ROOM) return settings->pace;
    return half < LEAST_PACE ? LEAST_PACE : half > MOST_PACE ? MOST_PACE : half;
}

/* The pauses within which a trace ends. Without helpers none would ever end by itself, so the pause after the one that begins it marks all. */
static uint32_t within_of(const lxr_shared_heap_settings *settings) {
    if (settings->within) return settings->within;
    return settings->helpers ? LXR_MOST_TRACE : 1;
}

/* Opens the heap and its first epoch. */
static lxr_code open_passes(lxr_shared_heap *heap) {
    const lxr_shared_heap_settings *asked = &heap->settings;
    lxr_passes_settings settings = {
        .size = sizeof settings,
        .blocks = asked->blocks,
        .mutators = asked->mutators,
        .helpers = asked->helpers ? asked->helpers : 1,
        .log = asked->log,
        .remember = asked->remember,
        .every = asked->every + SPARE,
        .trace = asked->trace,
        .within = within_of(asked),
        .evacuate = asked->evacuate,
        .registers = all_registers(asked->registers),
        .runs = asked->runs,
    };
    lxr_code code = lxr_passes_open(&heap->passes, &settings);
    uint64_t blocks_free = asked->blocks;
    if (code == LXR_OK) lxr_passes_count(&heap->passes, LXR_COUNT_FREE_BLOCKS, &blocks_free);
    heap->used = heap->kept = asked->blocks - (uint32_t)blocks_free;
    if (code == LXR_OK) code = lxr_passes_resume(&heap->passes);
    if (code != LXR_OK) lxr_passes_close(&heap->passes);
    heap->epoch = 1;
    return code;
}

/* Ends so many helpers, and returns all that the heap has. */
static void end(lxr_shared_heap *heap, uint32_t helpers) {
    pthread_mutex_lock(&heap->lock);
    heap->closing = true;
    pthread_cond_broadcast(&heap->moved);
    pthread_mutex_unlock(&heap->lock);
    for (uint32_t number = 0; number < helpers; number++) {
        pthread_join(heap->helpers[number].thread, NULL);
        lxr_station_close(&heap->helpers[number].counts);
        lxr_station_close(&heap->helpers[number].traces);
    }
    lxr_passes_close(&heap->passes);
    pthread_cond_destroy(&heap->moved);
    pthread_mutex_destroy(&heap->lock);
    free(heap);
}

/* A heap of these settings without a heap of the archive; null where there is no memory. */
static lxr_shared_heap *make_heap(const lxr_shared_heap_settings *settings) {
    lxr_shared_heap *heap = calloc(1, sizeof *heap);
    if (!heap) return NULL;
    heap->settings = *settings;
    heap->pace = pace_of(settings);
    heap->most = settings->room;
    heap->due = due_bytes(heap);
    heap->worn = WORN;
    if (pthread_mutex_init(&heap->lock, NULL) != 0) {
        free(heap);
        return NULL;
    }
    if (pthread_cond_init(&heap->moved, NULL) != 0) {
        pthread_mutex_destroy(&heap->lock);
        free(heap);
        return NULL;
    }
    return heap;
}

lxr_code lxr_shared_heap_open(lxr_shared_heap **handle, const lxr_shared_heap_settings *asked) {
    lxr_shared_heap_settings settings;
    if (*handle) return LXR_E_IN_USE;
    if (!read_settings(&settings, asked) || !are_settings(&settings)) return LXR_E_SIZE;
    lxr_shared_heap *heap = make_heap(&settings);
    if (!heap) return LXR_E_MEMORY;
    lxr_code code = open_passes(heap);
    uint32_t helpers = code == LXR_OK ? start_helpers(heap) : 0;
    if (code == LXR_OK && helpers < settings.helpers) code = LXR_E_MEMORY;
    if (code == LXR_OK) {
        *handle = heap;
    } else {
        end(heap, helpers);
    }
    return code;
}

lxr_code lxr_shared_heap_close(lxr_shared_heap **handle) {
    lxr_shared_heap *heap = *handle;
    if (!heap) return LXR_E_NO_HEAP;
    pthread_mutex_lock(&heap->lock);
    bool in_use = heap->entered != 0;
    pthread_mutex_unlock(&heap->lock);
    if (in_use) return LXR_E_IN_USE;
    end(heap, heap->settings.helpers);
    *handle = NULL;
    return LXR_OK;
}

lxr_code lxr_shared_heap_count(const lxr_shared_heap *handle, uint32_t what, uint64_t *number) {
    lxr_shared_heap *heap = (lxr_shared_heap *)handle; /* for the lock alone */
    lxr_code code = LXR_OK;
    if (!heap) return LXR_E_NO_HEAP;
    pthread_mutex_lock(&heap->lock);
    if (what == LXR_COUNT_PAUSES) {
        *number = heap->paused;
    } else if (what < TOLD) {
        *number = heap->told[what];
    } else if (what == LXR_COUNT_FREE_BLOCKS) {
        *number = heap->settings.blocks - heap->used;
    } else if (what == LXR_COUNT_ROOM) {
        *number = heap->settings.room;
    } else if (what == LXR_COUNT_COLLECTING) {
        *number = heap->collected;
    } else if (what == LXR_COUNT_ENTERED) {
        *number = heap->entered;
    } else if (what == LXR_COUNT_RESTING) {
        *number = heap->resting;
    } else if (what == LXR_COUNT_LAST_KIND) {
        *number = heap->kind;
    } else {
        code = LXR_E_WHAT;
    }
    pthread_mutex_unlock(&heap->lock);
    return code;
}

lxr_code lxr_shared_heap_set_room(lxr_shared_heap *heap, uint32_t blocks) {
    if (!heap) return LXR_E_NO_HEAP;
    if (blocks > heap->settings.blocks) return LXR_E_SIZE;
    pthread_mutex_lock(&heap->lock);
    heap->settings.room = heap->most = blocks ? blocks : heap->settings.blocks;
    heap->traces = wants_trace(heap);
    heap->due = due_bytes(heap);
    pthread_mutex_unlock(&heap->lock);
    return LXR_OK;
}

lxr_code lxr_shared_heap_set_grow(lxr_shared_heap *heap, uint32_t hundredths) {
    if (!heap) return LXR_E_NO_HEAP;
    if (hundredths > LXR_MOST_GROW) return LXR_E_SIZE;
    pthread_mutex_lock(&heap->lock);
    heap->settings.grow = hundredths;
    pthread_mutex_unlock(&heap->lock);
    return LXR_OK;
}
