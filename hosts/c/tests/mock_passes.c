/*
 * mock_passes.c: the functions of lxr_passes.h over malloc, for tests of the waiting. SPDX: MIT OR Apache-2.0
 *
 * Objects never move and are freed when the heap is closed and not before. Pauses have nothing to do; but they are wanted at random, by
 * operations that say they find no room, far more often and in other orders than by the archive. What belongs to a pass is read and
 * written without a lock or an atomic, as the archive's is: so ThreadSanitizer finds a pass that two threads have, or a pause that is made
 * while one is away.
 */
#include "../lxr_passes.h"

#include <stdatomic.h>
#include <stdbool.h>
#include <stddef.h>
#include <stdlib.h>
#include <string.h>

enum { MUTATORS = 255, HELPERS = 8, PASSES = MUTATORS + 2 * HELPERS, WORLD_REFS = 64, COLLECTS = 4, MOSTLY = 1000 };

/* Of so many operations that may want a pause by themselves one does; hardly any where a test says so. */
#ifndef MOCK_GIVES_UP
#define MOCK_GIVES_UP 64u
#endif

/* Of so many objects that waited for room one finds none; hardly any where a test says so. */
#ifndef MOCK_FULL
#define MOCK_FULL 16u
#endif

/*
 * Operations that a mutator may be ordered from one renewal of names to the next, of which each counts sixteen times of one after the sixteenth;
 * fewer where a test says so.
 */
#ifndef LXR_OPERATIONS
#define LXR_OPERATIONS 67108864u
#endif
enum { FIRST = 16, OF_OTHERS = 16 };

/* Runs that are listed where nothing is said, and the fewest. */
enum { RUNS = 65536, LEAST_RUNS = 64 };

/* An object. Its references stand after it, as addresses, and then its data words. */
struct object {
    struct object *older;
    uint32_t refs, words;
    _Atomic(uint64_t) fields[];
};

enum deed { NEW, LOAD, STORE, SWAP, GET, PUT, ADD, SAME, MOVE, NIL, PAUSE, COLLECT };

struct operation {
    enum deed deed;
    uint32_t dest, base, index, source;
    uint64_t word;
};

struct pass {
    atomic_uint away;
    bool helps, through, open, replied, lacks;
    uint32_t done, ordered, weight; /* how much an operation counts of those that it may be ordered */
    struct operation operation;
    lxr_code code;
    uint64_t word, dice;
    struct object *registers[LXR_MOST_REGISTERS], *newest;
};

struct heap {
    atomic_uint shares, wanted, collect;
    lxr_passes_settings settings;
    bool within, lost, waited, traces;
    uint64_t pauses, before, since, kind;
    uint64_t told; /* free blocks that were told: no atomic, so that a look at it races with any pass that is away */
    uint32_t used; /* blocks: some more after each pause, and one after a collecting one and the end of a trace */
    void *epoch;
    struct object *world;
    struct pass passes[PASSES];
};

/* What a station has: a share of the heap while its pass is away. */
struct post {
    struct heap *heap;
    struct pass *pass;
};

static bool one_in(struct pass *pass, uint32_t times) {
    pass->dice = pass->dice * 6364136223846793005u + 1442695040888963407u;
    return (pass->dice >> 33) % times == 0;
}

/* ---- Objects ---- */

static struct object *make(struct object **newest, uint32_t refs, uint32_t words) {
    struct object *made = malloc(sizeof *made + ((size_t)refs + words) * sizeof made->fields[0]);
    if (!made) return NULL;
    for (uint32_t at = 0; at < refs + words; at++) atomic_init(&made->fields[at], 0);
    made->refs = refs;
    made->words = words;
    made->older = *newest;
    *newest = made;
    return made;
}

static void free_all(struct object *newest) {
    while (newest) {
        struct object *it = newest;
        newest = it->older;
        free(it);
    }
}

static void let_go(struct heap *heap) {
    if (atomic_fetch_sub(&heap->shares, 1) != 1) return;
    for (size_t at = 0; at < PASSES; at++) free_all(heap->passes[at].newest);
    free(heap->world);
    free(heap->epoch);
    free(heap);
}

static struct object *object_at(uint64_t address) { return (struct object *)(uintptr_t)address; }

static uint64_t address_of(const struct object *object) { return (uint64_t)(uintptr_t)object; }

/* ---- Operations ---- */

static lxr_code do_new(struct pass *pass, const struct operation *asked) {
    struct object *made = make(&pass->newest, asked->index, asked->source);
    if (!made) return LXR_E_FULL;
    pass->registers[asked->dest] = made;
    return LXR_OK;
}

/* An operation on a reference of an object. */
static lxr_code do_reference(struct pass *pass, const struct operation *asked, struct object *base) {
    if (asked->index >= base->refs) return LXR_E_INDEX;
    _Atomic(uint64_t) *field = &base->fields[asked->index];
    uint64_t source = address_of(pass->registers[asked->source]);
    switch (asked->deed) {
    case LOAD: pass->registers[asked->dest] = object_at(atomic_load(field)); break;
    case STORE: atomic_store(field, source); break;
    default: pass->registers[asked->dest] = object_at(atomic_exchange(field, source)); break;
    }
    return LXR_OK;
}

/* An operation on a data word of an object. */
static lxr_code do_word(struct pass *pass, const struct operation *asked, struct object *base) {
    if (asked->index >= base->words) return LXR_E_INDEX;
    _Atomic(uint64_t) *field = &base->fields[base->refs + asked->index];
    switch (asked->deed) {
    case GET: pass->word = atomic_load(field); break;
    case PUT: atomic_store(field, asked->word); break;
    default: pass->word = atomic_fetch_add(field, asked->word); break;
    }
    return LXR_OK;
}

static lxr_code act(struct heap *heap, struct pass *pass) {
    const struct operation *asked = &pass->operation;
    struct object *base = pass->registers[asked->base];
    switch (asked->deed) {
    case NEW: return do_new(pass, asked);
    case LOAD:
    case STORE:
    case SWAP: return base ? do_reference(pass, asked, base) : LXR_E_NIL;
    case GET:
    case PUT:
    case ADD: return base ? do_word(pass, asked, base) : LXR_E_NIL;
    case SAME: pass->word = base == pass->registers[asked->source]; return LXR_OK;
    case MOVE: pass->registers[asked->dest] = pass->registers[asked->source]; return LXR_OK;
    case NIL: pass->registers[asked->dest] = NULL; return LXR_OK;
    case COLLECT: atomic_store(&heap->collect, 1); break;
    case PAUSE: break;
    }
    atomic_store(&heap->wanted, 1);
    return LXR_OK;
}

/* Does the operation that is open, unless a pause is wanted first; a `new`, `store` or `swap` may want one itself. */
static lxr_code go_on(struct heap *heap, struct pass *pass) {
    bool wanted = atomic_load(&heap->wanted) != 0;
    pass->lacks = false;
    if (!wanted && (pass->operation.deed <= SWAP && pass->operation.deed != LOAD) && one_in(pass, MOCK_GIVES_UP)) {
        atomic_store(&heap->wanted, 1);
        pass->lacks = pass->operation.deed == NEW;
        wanted = true;
    }
    if (wanted) {
        pass->through = true;
        return LXR_E_WAITS;
    }
    pass->code = act(heap, pass);
    pass->open = false;
    pass->replied = true;
    if (++pass->done >= heap->settings.every) pass->through = true;
    return pass->code;
}

static bool tells(const struct pass *pass) {
    enum deed deed = pass->operation.deed;
    return pass->code == LXR_OK && (deed == GET || deed == ADD || deed == SAME);
}

/* Orders an operation whose numbers fit. */
static lxr_code order(lxr_station *station, const struct operation *asked, uint64_t *word) {
    struct post *post = station->block;
    struct pass *pass = post->pass;
    if (!pass) return LXR_E_HOME;
    if (pass->helps) return LXR_E_KIND;
    if (pass->through) return LXR_E_HELD;
    if (pass->open) return LXR_E_BUSY;
    if (pass->ordered >= LXR_OPERATIONS) return LXR_E_USED_UP;
    pass->ordered += pass->weight;
    pass->operation = *asked;
    pass->open = true;
    lxr_code code = go_on(post->heap, pass);
    if (code == LXR_OK && tells(pass)) *word = pass->word;
    return code;
}

/* How many registers an operation may name: those of a mutator whose pass is away, and else all that there are. */
static uint32_t find_registers(const struct post *post) {
    return post->pass && !post->pass->helps ? post->heap->settings.registers : LXR_MOST_REGISTERS;
}

static lxr_code operate(lxr_station *station, struct operation asked, uint64_t *word) {
    if (!station->live) return LXR_E_NO_HEAP;
    const uint32_t registers = find_registers(station->block), source = asked.deed == NEW ? 0 : asked.source;
    if (asked.dest >= registers || asked.base >= registers || source >= registers) return LXR_E_REGISTER;
    if (asked.deed == NEW && (asked.index > LXR_MOST_REFS || asked.source > LXR_MOST_WORDS)) return LXR_E_SIZE;
    return order(station, &asked, word);
}

static lxr_code operate_quietly(lxr_station *station, struct operation asked) {
    uint64_t word = 0;
    return operate(station, asked, &word);
}

lxr_code lxr_station_new(lxr_station *station, uint32_t dest, uint32_t refs, uint32_t words) {
    return operate_quietly(station, (struct operation){ NEW, dest, 0, refs, words, 0 });
}

lxr_code lxr_station_load(lxr_station *station, uint32_t dest, uint32_t base, uint32_t index) {
    return operate_quietly(station, (struct operation){ LOAD, dest, base, index, 0, 0 });
}

lxr_code lxr_station_store(lxr_station *station, uint32_t base, uint32_t index, uint32_t source) {
    return operate_quietly(station, (struct operation){ STORE, 0, base, index, source, 0 });
}

lxr_code lxr_station_swap(lxr_station *station, uint32_t dest, uint32_t base, uint32_t index, uint32_t source) {
    return operate_quietly(station, (struct operation){ SWAP, dest, base, index, source, 0 });
}

lxr_code lxr_station_get(lxr_station *station, uint32_t base, uint32_t index, uint64_t *word) {
    return operate(station, (struct operation){ GET, 0, base, index, 0, 0 }, word);
}

lxr_code lxr_station_put(lxr_station *station, uint32_t base, uint32_t index, uint64_t word) {
    return operate_quietly(station, (struct operation){ PUT, 0, base, index, 0, word });
}

lxr_code lxr_station_add(lxr_station *station, uint32_t base, uint32_t index, uint64_t word, uint64_t *old) {
    return operate(station, (struct operation){ ADD, 0, base, index, 0, word }, old);
}

lxr_code lxr_station_same(lxr_station *station, uint32_t left, uint32_t right, uint32_t *same) {
    uint64_t word = 0;
    lxr_code code = operate(station, (struct operation){ SAME, 0, left, 0, right, 0 }, &word);
    if (code == LXR_OK) *same = (uint32_t)word;
    return code;
}

lxr_code lxr_station_move(lxr_station *station, uint32_t dest, uint32_t source) {
    return operate_quietly(station, (struct operation){ MOVE, dest, 0, 0, source, 0 });
}

lxr_code lxr_station_nil(lxr_station *station, uint32_t dest) {
    return operate_quietly(station, (struct operation){ NIL, dest, 0, 0, 0, 0 });
}

lxr_code lxr_station_ask_pause(lxr_station *station) { return operate_quietly(station, (struct operation){ PAUSE, 0, 0, 0, 0, 0 }); }

lxr_code lxr_station_ask_collect(lxr_station *station) { return operate_quietly(station, (struct operation){ COLLECT, 0, 0, 0, 0, 0 }); }

lxr_code lxr_station_answer(lxr_station *station, uint64_t *word) {
    if (!station->live) return LXR_E_NO_HEAP;
    struct post *post = station->block;
    struct pass *pass = post->pass;
    if (!pass) return LXR_E_HOME;
    if (pass->helps) return LXR_E_KIND;
    if (!pass->open && !pass->replied) return LXR_E_NOTHING;
    lxr_code code = pass->code;
    if (pass->open) code = pass->through ? LXR_E_WAITS : go_on(post->heap, pass);
    if (!pass->open && tells(pass)) *word = pass->word;
    return code;
}

/* ---- Stations ---- */

/* Takes a pass out of its home, or says why not. */
static lxr_code take_pass(struct heap *heap, uint32_t number) {
    if (heap->lost) return LXR_E_LOST;
    if (!heap->within) return LXR_E_EPOCH;
    if (number >= heap->settings.mutators + 2 * heap->settings.helpers) return LXR_E_NUMBER;
    return atomic_exchange(&heap->passes[number].away, 1) ? LXR_E_AWAY : LXR_OK;
}

lxr_code lxr_station_leave(lxr_passes *handle, uint32_t number, lxr_station *station) {
    if (!handle->live) return LXR_E_NO_HEAP;
    struct heap *heap = handle->block;
    struct post *post = station->block;
    if (post && post->pass) return LXR_E_IN_USE;
    lxr_code code = take_pass(heap, number);
    if (code != LXR_OK) return code;
    if (!post) post = calloc(1, sizeof *post);
    if (!post) {
        atomic_store(&heap->passes[number].away, 0);
        return LXR_E_MEMORY;
    }
    atomic_fetch_add(&heap->shares, 1);
    post->heap = heap;
    post->pass = &heap->passes[number];
    station->live = 1;
    station->block = post;
    return LXR_OK;
}

lxr_code lxr_station_come_home(lxr_station *station) {
    if (!station->live) return LXR_E_NO_HEAP;
    struct post *post = station->block;
    if (!post->pass) return LXR_E_HOME;
    atomic_store(&post->pass->away, 0);
    post->pass = NULL;
    let_go(post->heap);
    return LXR_OK;
}

lxr_code lxr_station_close(lxr_station *station) {
    if (!station->live) return LXR_E_NO_HEAP;
    lxr_station_come_home(station);
    free(station->block);
    station->live = 0;
    station->block = NULL;
    return LXR_OK;
}

lxr_code lxr_station_wants_pause(const lxr_station *station, uint32_t *wants) {
    if (!station->live) return LXR_E_NO_HEAP;
    struct post *post = station->block;
    if (!post->pass) return LXR_E_HOME;
    *wants = !post->pass->helps && (post->pass->through || atomic_load(&post->heap->wanted));
    return LXR_OK;
}

lxr_code lxr_station_help(lxr_station *station, uint32_t units, uint32_t *more) {
    if (!station->live) return LXR_E_NO_HEAP;
    struct post *post = station->block;
    if (!post->pass) return LXR_E_HOME;
    if (!post->pass->helps) return LXR_E_KIND;
    for (uint32_t done = 0; done < units && !post->pass->through; done++) post->pass->through = one_in(post->pass, MOSTLY);
    *more = !post->pass->through;
    return LXR_OK;
}

/* ---- A heap ---- */

static bool is_within(uint32_t number, uint32_t least, uint32_t most) { return number >= least && number <= most; }

/* Reads settings of this version, of those that end before the runs, or of 0.2, which evacuated an eighth of the blocks; whether their size is one of
 * these. */
static bool read_settings(lxr_passes_settings *settings, const lxr_passes_settings *from) {
    const size_t first = offsetof(lxr_passes_settings, evacuate), second = offsetof(lxr_passes_settings, runs);
    if (from->size != sizeof *settings && from->size != first && from->size != second) return false;
    settings->registers = settings->runs = 0;
    memcpy(settings, from, (size_t)from->size);
    if (from->size == first) settings->evacuate = settings->blocks / 8;
    if (settings->registers == 0) settings->registers = LXR_REGISTERS;
    if (settings->runs == 0) settings->runs = RUNS;
    return true;
}

static bool are_settings(const lxr_passes_settings *settings) {
    return is_within(settings->blocks, 1, 65536) && is_within(settings->mutators, 1, MUTATORS) &&
           is_within(settings->helpers, 1, HELPERS) && is_within(settings->log, 1, 65536) && is_within(settings->remember, 1, 1048576) &&
           is_within(settings->registers, LXR_REGISTERS, LXR_MOST_REGISTERS) && is_within(settings->evacuate, 0, settings->blocks / 8) &&
           is_within(settings->every, 1, 1048576) && is_within(settings->trace, 0, 1000000) && is_within(settings->within, 1, 1000000) &&
           settings->runs >= LEAST_RUNS;
}

lxr_code lxr_passes_open(lxr_passes *handle, const lxr_passes_settings *asked) {
    lxr_passes_settings settings;
    if (handle->live) return LXR_E_IN_USE;
    if (!read_settings(&settings, asked) || !are_settings(&settings)) return LXR_E_SIZE;
    struct object *none = NULL;
    struct heap *heap = calloc(1, sizeof *heap);
    if (!heap) return LXR_E_MEMORY;
    heap->world = make(&none, WORLD_REFS, 0);
    if (!heap->world) {
        free(heap);
        return LXR_E_MEMORY;
    }
    heap->settings = settings;
    atomic_init(&heap->shares, 1);
    for (uint32_t at = 0; at < PASSES; at++) {
        heap->passes[at].dice = at + 1;
        heap->passes[at].helps = at >= settings.mutators;
        heap->passes[at].weight = at < FIRST ? 1 : OF_OTHERS;
        if (at < settings.mutators) heap->passes[at].registers[0] = heap->world;
    }
    handle->live = 1;
    handle->block = heap;
    return LXR_OK;
}

lxr_code lxr_passes_close(lxr_passes *handle) {
    if (!handle->live) return LXR_E_NO_HEAP;
    let_go(handle->block);
    handle->live = 0;
    handle->block = NULL;
    return LXR_OK;
}

lxr_code lxr_passes_resume(lxr_passes *handle) {
    if (!handle->live) return LXR_E_NO_HEAP;
    struct heap *heap = handle->block;
    if (heap->lost) return LXR_E_LOST;
    if (heap->within) return LXR_E_EPOCH;
    free(heap->epoch);
    heap->epoch = malloc(64);
    heap->lost = !heap->epoch;
    heap->within = !heap->lost;
    return heap->lost ? LXR_E_MEMORY : LXR_OK;
}

/* Why no pause is made, if none is. */
static lxr_code find_refusal(struct heap *heap) {
    uint32_t through = atomic_load(&heap->wanted);
    if (heap->lost) return LXR_E_LOST;
    if (!heap->within) return LXR_E_EPOCH;
    for (size_t at = 0; at < PASSES; at++) {
        if (atomic_load(&heap->passes[at].away)) return LXR_E_AWAY;
        if (heap->passes[at].through && !heap->passes[at].helps) through = 1;
    }
    return through ? LXR_OK : LXR_E_NOT_WANTED;
}

/* Answers a `new` that lacks room, which may want a collecting pause first; whether it is answered. */
static bool serve(struct heap *heap, struct pass *pass, bool collected) {
    if (!collected && one_in(pass, COLLECTS)) return false;
    pass->code = one_in(pass, MOCK_FULL) ? LXR_E_FULL : act(heap, pass);
    pass->open = false;
    pass->replied = true;
    return true;
}

/* The kind of a pause. A trace ends at the pause after the one that begins it. */
static uint64_t kind_of(const struct heap *heap, bool collect, bool begin) {
    if (collect) return LXR_KIND_COLLECT;
    if (heap->traces) return LXR_KIND_END;
    return begin && heap->settings.trace == 0 ? LXR_KIND_BEGIN : LXR_KIND_PLAIN;
}

/* One pause; whether each `new` is answered that lacked room. */
static bool pause_once(struct heap *heap, bool collect, bool begin) {
    bool served = true;
    heap->kind = kind_of(heap, collect, begin);
    heap->traces = heap->kind == LXR_KIND_BEGIN;
    heap->pauses++;
    heap->used = heap->kind == LXR_KIND_COLLECT || heap->kind == LXR_KIND_END ? 1 : heap->used + 30;
    if (heap->used > heap->settings.blocks) heap->used = heap->settings.blocks;
    for (size_t at = 0; at < PASSES; at++) {
        struct pass *pass = &heap->passes[at];
        pass->through = false;
        pass->done = 0;
        if (!pass->open || !pass->lacks) continue;
        heap->waited = true;
        if (!serve(heap, pass, collect)) served = false;
    }
    return served;
}

/* The operations of the mutator that was ordered most, as they count. */
static uint32_t find_most(const struct heap *heap) {
    uint32_t most = 0;
    for (size_t at = 0; at < PASSES; at++) {
        if (heap->passes[at].ordered > most) most = heap->passes[at].ordered;
    }
    return most;
}

/* Renews names, after a collecting pause that nobody waited for to have room. */
static void renew_where_due(struct heap *heap) {
    if (heap->kind != LXR_KIND_COLLECT || heap->waited || find_most(heap) <= LXR_OPERATIONS / 2) return;
    for (size_t at = 0; at < PASSES; at++) heap->passes[at].ordered = heap->passes[at].open ? heap->passes[at].weight : 0;
    heap->since = heap->pauses;
}

static lxr_code make_pause(lxr_passes *handle, bool begin) {
    if (!handle->live) return LXR_E_NO_HEAP;
    struct heap *heap = handle->block;
    lxr_code code = find_refusal(heap);
    if (code != LXR_OK) return code;
    heap->waited = false;
    heap->before = heap->since;
    if (!pause_once(heap, atomic_load(&heap->collect) != 0, begin)) pause_once(heap, true, false);
    renew_where_due(heap);
    heap->within = false;
    atomic_store(&heap->wanted, 0);
    atomic_store(&heap->collect, 0);
    return LXR_OK;
}

lxr_code lxr_passes_pause(lxr_passes *handle) { return make_pause(handle, false); }

lxr_code lxr_passes_pause_and_trace(lxr_passes *handle) { return make_pause(handle, true); }

/* Why no block is told, if none is: the heap has to stand between two epochs, and then no pass is away. */
static lxr_code find_trouble(lxr_passes *handle) {
    if (!handle->live) return LXR_E_NO_HEAP;
    struct heap *heap = handle->block;
    if (heap->lost) return LXR_E_LOST;
    if (heap->within) return LXR_E_EPOCH;
    for (size_t at = 0; at < PASSES; at++) {
        if (atomic_load(&heap->passes[at].away)) abort();
    }
    return LXR_OK;
}

/* The blocks behind those in use are free. */
lxr_code lxr_passes_trim_next(lxr_passes *handle, uint32_t from, uint32_t *block) {
    lxr_code code = find_trouble(handle);
    if (code != LXR_OK) return code;
    struct heap *heap = handle->block;
    uint32_t next = from < heap->used ? heap->used : from;
    if (next >= heap->settings.blocks) return LXR_E_NOTHING;
    heap->told++;
    *block = next;
    return LXR_OK;
}

/* It has no blocks; objects lie where malloc places them. */
lxr_code lxr_passes_first_word(lxr_passes *handle, const uint64_t **place) {
    static const uint64_t none = 0;
    lxr_code code = find_trouble(handle);
    if (code != LXR_OK) return code == LXR_E_LOST ? LXR_E_EPOCH : code;
    *place = &none;
    return LXR_OK;
}

lxr_code lxr_passes_trim(lxr_passes *handle) {
    const uint64_t *place = NULL;
    uint32_t from = 0, block = 0;
    lxr_code code = lxr_passes_first_word(handle, &place);
    while (code == LXR_OK && lxr_passes_trim_next(handle, from, &block) == LXR_OK) from = block + 1;
    return code;
}

lxr_code lxr_passes_count(const lxr_passes *handle, uint32_t what, uint64_t *number) {
    if (!handle->live) return LXR_E_NO_HEAP;
    const struct heap *heap = handle->block;
    if (what > LXR_COUNT_SWEPT && what != LXR_COUNT_FREE_BLOCKS && what != LXR_COUNT_LAST_KIND && what != LXR_COUNT_ASKED)
        return LXR_E_WHAT;
    if (heap->within || heap->lost) return LXR_E_EPOCH;
    switch (what) {
    case LXR_COUNT_PAUSES: *number = heap->pauses - heap->before; break;
    case LXR_COUNT_LAST_KIND: *number = heap->kind; break;
    case LXR_COUNT_ASKED: *number = find_most(heap); break;
    case LXR_COUNT_FREE_BLOCKS: *number = heap->settings.blocks - heap->used; break;
    default: *number = 0;
    }
    return LXR_OK;
}
