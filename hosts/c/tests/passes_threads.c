/*
 * passes_threads.c: threads that share a heap by lxr_passes.h and a lock of their own. SPDX: MIT OR Apache-2.0
 *
 * Two threads, and eight, come and go, among eight mutators and among 255: each takes whichever pass is at home, goes on where another thread
 * stopped, and brings it home or closes the station that has it; the one that finds all at home makes the pause. One pass stays at home for
 * 1,000 pauses. Sixteen threads ask for half the heap at once, each by a station that another thread let out, and each is served or told that
 * the heap is full.
 */
#include "../lxr_passes.h"

#include <inttypes.h>
#include <pthread.h>
#include <stdbool.h>
#include <stdio.h>
#include <stdlib.h>

enum { FEW = 8, MANY = 255, VISITS = 400, OPERATIONS = 5, PAUSES = 1000, ALL = 16, TRIES = 64 };

/* The mock of the archive says at random that a heap is full, and makes a pause of its own after one that leaves something unserved. */
#ifdef MOCK_PASSES
static const bool mocked = true;
#else
static const bool mocked = false;
#endif

static pthread_mutex_t lock = PTHREAD_MUTEX_INITIALIZER;
static lxr_passes heap;

static void check(uint64_t found, uint64_t wanted, const char *what, int line) {
    if (found == wanted) return;
    fprintf(stderr, "passes_threads.c:%d: %s is %" PRIu64 ", not %" PRIu64 "\n", line, what, found, wanted);
    _Exit(1);
}

#define IS(what, wanted) check(what, wanted, #what, __LINE__)

/* Among many mutators each is visited seldom, so that each visit wants a pause. */
static void open_heap(uint32_t blocks, uint32_t mutators) {
    const uint32_t every = mutators > FEW ? OPERATIONS : 100;
    const lxr_passes_settings settings = { sizeof settings, blocks, mutators, 1, 64, 64, every, 2, 2, blocks / 8, 0, 0, 0 };
    heap = (lxr_passes){ 0, 0 };
    IS(lxr_passes_open(&heap, &settings), LXR_OK);
    IS(lxr_passes_resume(&heap), LXR_OK);
}

/* Makes a pause that is wanted, and opens the next epoch. The number of the pause. */
static uint64_t pause_and_resume(void) {
    uint64_t number = 0;
    IS(lxr_passes_pause(&heap), LXR_OK);
    IS(lxr_passes_count(&heap, LXR_COUNT_PAUSES, &number), LXR_OK);
    IS(lxr_passes_resume(&heap), LXR_OK);
    return number;
}

static void start(pthread_t *thread, void *(*what)(void *), void *with) {
    if (pthread_create(thread, NULL, what, with) != 0) IS(LXR_E_MEMORY, LXR_OK);
}

/* ---- Threads that come and go ---- */

/* What a mutator was asked for. Who has its pass reads and writes this, without a lock. */
struct mutator {
    uint32_t number;
    uint32_t done; /* operations that are answered and were not refused */
    lxr_code code; /* the last answer */
    bool waits;    /* an operation is ordered and has no answer */
};

struct host {
    uint32_t next; /* the mutator that it asks for next */
    uint64_t operations, missed, pauses;
};

static struct mutator mutators[MANY];
static uint32_t count;

/*
 * An object is made, written, added to and read, stored in the world, or in itself where that has no place for the mutator, loaded from there and
 * compared; and what each of these tells.
 */
enum { NEW, PUT, ADD, GET, STORE, LOAD, SAME, DEEDS };

static const uint64_t told[DEEDS] = { [ADD] = 7, [GET] = 12, [SAME] = 1 };

static lxr_code order(lxr_station *station, const struct mutator *mutator, uint64_t *word) {
    uint32_t same = 0, code = LXR_OK;
    const uint32_t base = mutator->number < LXR_WORLD_REFS ? 0 : 1, index = base ? 0 : mutator->number;
    switch (mutator->done % DEEDS) {
    case NEW: return lxr_station_new(station, 1, 1, 1);
    case PUT: return lxr_station_put(station, 1, 0, 7);
    case ADD: return lxr_station_add(station, 1, 0, 5, word);
    case GET: return lxr_station_get(station, 1, 0, word);
    case STORE: return lxr_station_store(station, base, index, 1);
    case LOAD: return lxr_station_load(station, 2, base, index);
    default: code = lxr_station_same(station, 1, 2, &same);
    }
    if (code == LXR_OK) *word = same;
    return code;
}

/* Does the next operation, or goes on with the one that waits; whether it is answered. */
static bool operate(lxr_station *station, struct mutator *mutator) {
    uint64_t word = 0;
    lxr_code code = mutator->waits ? lxr_station_answer(station, &word) : order(station, mutator, &word);
    if (code == LXR_E_HELD || code == LXR_E_WAITS) {
        mutator->waits = mutator->waits || code == LXR_E_WAITS;
        return false;
    }
    mutator->waits = false;
    mutator->code = code;
    if (mocked && code == LXR_E_FULL) return true;
    IS(code, LXR_OK);
    IS(word, told[mutator->done++ % DEEDS]);
    return true;
}

/* Who takes a pass is told what its last operation came to, whoever ordered it. */
static void look_back(lxr_station *station, const struct mutator *mutator) {
    uint64_t word = 0;
    if (mutator->waits || mutator->done == 0) return;
    IS(lxr_station_answer(station, &word), mutator->code);
    if (mutator->code == LXR_OK) IS(word, told[(mutator->done - 1) % DEEDS]);
}

/* Makes the pause, where one is wanted and all are at home, and takes the next pass, if it is at home; else NULL. */
static struct mutator *enter(struct host *host, lxr_station *station) {
    struct mutator *next = &mutators[host->next++ % count];
    pthread_mutex_lock(&lock);
    uint32_t made = lxr_passes_pause(&heap);
    if (made == LXR_OK) IS(lxr_passes_resume(&heap), LXR_OK);
    uint32_t left = lxr_station_leave(&heap, next->number, station);
    pthread_mutex_unlock(&lock);
    if (made != LXR_E_AWAY && made != LXR_E_BUSY && made != LXR_E_NOT_WANTED) IS(made, LXR_OK);
    host->pauses += made == LXR_OK;
    if (left == LXR_OK) return next;
    IS(left, LXR_E_AWAY);
    host->missed++;
    return NULL;
}

/*
 * The pass is at home again, which takes no lock: who lets it out next finds what this thread has left. ThreadSanitizer doesn't see the atomic
 * steps of the archive, by which that is so; there the lock orders it.
 */
static lxr_code go_home(lxr_station *station, lxr_code (*how)(lxr_station *)) {
#if defined(__SANITIZE_THREAD__) && !defined(MOCK_PASSES)
    pthread_mutex_lock(&lock);
    lxr_code code = how(station);
    pthread_mutex_unlock(&lock);
    return code;
#else
    return how(station);
#endif
}

static void *visit_all(void *with) {
    struct host *host = with;
    lxr_station station = { 0, 0 };
    for (uint32_t visit = 0; visit < VISITS; visit++) {
        struct mutator *mutator = enter(host, &station);
        if (!mutator) continue;
        look_back(&station, mutator);
        for (uint32_t left = OPERATIONS; left-- && operate(&station, mutator);) host->operations++;
        IS(go_home(&station, visit % 2 ? lxr_station_close : lxr_station_come_home), LXR_OK);
    }
    if (station.live) IS(go_home(&station, lxr_station_close), LXR_OK);
    return NULL;
}

/* Lets so many threads come and go among so many mutators, in a heap of so many blocks; how many operations were answered. */
static uint64_t come_and_go(uint32_t threads, uint32_t places, uint32_t blocks) {
    struct host hosts[FEW] = { { 0, 0, 0, 0 } }, sums = { 0, 0, 0, 0 };
    pthread_t started[FEW];
    count = places;
    open_heap(blocks, count);
    for (uint32_t at = 0; at < count; at++) mutators[at] = (struct mutator){ .number = at };
    for (uint32_t at = 0; at < threads; at++) {
        hosts[at].next = at;
        start(&started[at], visit_all, &hosts[at]);
    }
    for (uint32_t at = 0; at < threads; at++) {
        pthread_join(started[at], NULL);
        sums.operations += hosts[at].operations;
        sums.missed += hosts[at].missed;
        sums.pauses += hosts[at].pauses;
    }
    IS(sums.operations > 0, 1);
    IS(sums.pauses > 0, 1);
    IS(sums.missed < (uint64_t)threads * VISITS, 1);
    IS(lxr_passes_close(&heap), LXR_OK);
    return sums.operations;
}

/* ---- One that stays at home ---- */

/* Takes the pass of a mutator, orders an operation by it, and brings it home; after a pause it goes on, where it has to wait for one. */
static void surely(uint32_t number, lxr_code (*deed)(lxr_station *)) {
    lxr_station station = { 0, 0 };
    lxr_code code = LXR_E_HELD;
    uint64_t word = 0;
    for (uint32_t left = TRIES; code != LXR_OK && left--;) {
        IS(lxr_station_leave(&heap, number, &station), LXR_OK);
        code = code == LXR_E_WAITS ? lxr_station_answer(&station, &word) : deed(&station);
        IS(lxr_station_close(&station), LXR_OK);
        if (code != LXR_OK) IS(mocked, 1);
        if (code == LXR_E_HELD || code == LXR_E_WAITS) pause_and_resume();
    }
    IS(code, LXR_OK);
}

static lxr_code make_large(lxr_station *station) { return lxr_station_new(station, 1, LXR_MOST_REFS, LXR_MOST_WORDS); }

static lxr_code write_word(lxr_station *station) { return lxr_station_put(station, 1, LXR_MOST_WORDS - 1, 42); }

static lxr_code keep_it(lxr_station *station) { return lxr_station_store(station, 0, 0, 1); }

static lxr_code find_it(lxr_station *station) { return lxr_station_load(station, 2, 0, 0); }

static lxr_code is_it(lxr_station *station) {
    uint64_t word = 0;
    lxr_code code = lxr_station_get(station, 2, LXR_MOST_WORDS - 1, &word);
    if (code == LXR_OK) IS(word, 42);
    return code;
}

/* Its object stands in the world meanwhile, where it finds it again. */
static void try_sleep(void) {
    uint64_t pauses = 0;
    open_heap(64, FEW);
    surely(1, make_large);
    surely(1, write_word);
    surely(1, keep_it);
    for (uint32_t left = PAUSES; left--;) {
        surely(0, lxr_station_ask_pause);
        pauses = pause_and_resume();
    }
    IS(mocked ? pauses >= PAUSES : pauses == PAUSES, 1);
    surely(1, find_it);
    surely(1, is_it);
    IS(lxr_passes_close(&heap), LXR_OK);
}

/* ---- All at once ---- */

/* One of the threads that ask for half the heap. */
struct asker {
    lxr_station station;
    bool waits, replied;
    lxr_code code;
};

static pthread_barrier_t all_there;

/* Asks for it, or goes on to ask. */
static void *ask(void *with) {
    struct asker *asker = with;
    uint64_t word = 0;
    pthread_barrier_wait(&all_there);
    if (asker->replied) return NULL;
    lxr_code code = asker->waits ? lxr_station_answer(&asker->station, &word) : make_large(&asker->station);
    asker->waits = asker->waits || code == LXR_E_WAITS;
    asker->replied = code != LXR_E_WAITS && code != LXR_E_HELD;
    asker->code = code;
    return NULL;
}

/* Each thread asks once, by a station that is let out for it. How many have their answer then. */
static uint32_t ask_all(struct asker *askers) {
    pthread_t started[ALL];
    uint32_t replied = 0;
    for (uint32_t at = 0; at < ALL; at++) IS(lxr_station_leave(&heap, at, &askers[at].station), LXR_OK);
    for (uint32_t at = 0; at < ALL; at++) start(&started[at], ask, &askers[at]);
    for (uint32_t at = 0; at < ALL; at++) {
        pthread_join(started[at], NULL);
        IS(lxr_station_come_home(&askers[at].station), LXR_OK);
        replied += askers[at].replied;
    }
    return replied;
}

/* One gets it and holds it, and all others are told that the heap is full, each after a pause that collects for it. */
static void try_full(void) {
    struct asker askers[ALL] = { { { 0, 0 }, false, false, LXR_OK } };
    uint32_t made = 0, full = 0;
    uint64_t pauses = 0;
    open_heap(1, ALL);
    pthread_barrier_init(&all_there, NULL, ALL);
    for (uint32_t left = TRIES; ask_all(askers) < ALL;) {
        IS(left-- > 0, 1);
        pauses = pause_and_resume();
    }
    pthread_barrier_destroy(&all_there);
    for (uint32_t at = 0; at < ALL; at++) {
        made += askers[at].code == LXR_OK;
        full += askers[at].code == LXR_E_FULL;
        IS(lxr_station_close(&askers[at].station), LXR_OK);
    }
    IS(made + full, ALL);
    if (!mocked) {
        IS(made, 1);
        IS(pauses >= ALL, 1);
    }
    IS(lxr_passes_close(&heap), LXR_OK);
}

int main(void) {
    uint64_t operations = come_and_go(2, FEW, 64) + come_and_go(FEW, FEW, 64);
    operations += come_and_go(2, MANY, 3000) + come_and_go(FEW, MANY, 300);
    try_sleep();
    try_full();
    printf("passes_threads: %" PRIu64 " operations of threads that came and went; one stayed at home for %d pauses; %d asked at once\n",
           operations, PAUSES, ALL);
    return 0;
}
