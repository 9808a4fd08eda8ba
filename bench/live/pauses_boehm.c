/* pauses_boehm.c: the pauses of Boehm's collector on the work of work.h. SPDX: MIT OR Apache-2.0
 *
 * usage: pauses_boehm MEGABYTES acyclic|cyclic ROUNDS
 *
 * All are home where the world has stopped; the pause itself goes on until it starts again. */
#define GC_THREADS
#include <gc.h>
#include <pthread.h>

#include "work.h"

struct object {
    struct object *refs[REFS];
    uint64_t words[WORDS];
};

static struct work work;
static struct object **tables[THREADS][1024];
static struct times home, pause;
static uint64_t wanted, stopped;

static void on_event(GC_EventType event) {
    if (event == GC_EVENT_PRE_STOP_WORLD) wanted = clock_now();
    if (event == GC_EVENT_POST_STOP_WORLD) stopped = clock_now();
    if (event == GC_EVENT_POST_START_WORLD) {
        keep_time(&home, stopped - wanted);
        keep_time(&pause, clock_now() - stopped);
    }
}

static void *make(size_t bytes) {
    void *made = GC_MALLOC(bytes);
    if (made) return made;
    fprintf(stderr, "pauses_boehm: the heap is full\n");
    exit(1);
}

static struct object *make_place(void) {
    struct object *made = make(sizeof *made);
    if (!work.is_cyclic) return made;
    struct object *other = make(sizeof *other);
    made->refs[0] = other;
    other->refs[0] = made;
    return made;
}

static void *run(void *given) {
    size_t number = (size_t)(uintptr_t)given;
    uint64_t state = number + 1;
    for (uint32_t round = 0; round < work.rounds; round++) {
        for (int dropped = 0; dropped < DROPPED; dropped++) ((struct object *)make(sizeof(struct object)))->words[0] = round;
        uint32_t drawn = draw_from(&state, work.tables * IN_TABLE);
        struct object *made = make_place();
        made->words[0] = round;
        tables[number][drawn / IN_TABLE][drawn % IN_TABLE] = made;
    }
    return NULL;
}

int main(int count, char **words) {
    pthread_t threads[THREADS];
    work = work_of(count, words);
    if (work.tables > 1024) return 2;
    GC_INIT();
    GC_set_max_heap_size((GC_word)work.megabytes * 2000000u);
    for (size_t number = 0; number < THREADS; number++) {
        for (uint32_t table = 0; table < work.tables; table++) {
            tables[number][table] = make(IN_TABLE * sizeof(struct object *));
            for (uint32_t at = 0; at < IN_TABLE; at++) tables[number][table][at] = make_place();
        }
    }
    GC_set_on_collection_event(on_event);
    uint64_t begun = clock_now();
    for (size_t number = 0; number < THREADS; number++) pthread_create(&threads[number], NULL, run, (void *)(uintptr_t)number);
    for (size_t number = 0; number < THREADS; number++) pthread_join(threads[number], NULL);
    uint64_t taken = clock_now() - begun;
    GC_set_on_collection_event(NULL);
    print_row("Boehm", work, &home, &pause, taken);
    return 0;
}
