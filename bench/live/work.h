/* work.h: the work on which pauses are measured, and their times. SPDX: MIT OR Apache-2.0
 *
 * Four threads have tables of IN_TABLE objects each. In each round a thread makes DROPPED objects that nothing keeps, and one that takes
 * the place of a random one of its own: the old one is garbage. Where garbage is cyclic, two new objects that refer to each other take the
 * place, so that what they replace is a cycle. An object has two references and thirteen data words: 128 bytes with a header, in each of
 * the three systems. */
#ifndef WORK_H
#define WORK_H

#include <stdint.h>
#include <stdio.h>
#include <stdlib.h>
#include <time.h>

enum { THREADS = 4, HELPERS = 2, IN_TABLE = 500, REFS = 2, WORDS = 13, DROPPED = 3 };

/* Bytes of an object. */
#define OBJECT_BYTES 128u

/* What one run is of. */
struct work {
    const char *garbage;
    int is_cyclic;
    uint32_t megabytes, tables, rounds;
};

static inline uint64_t clock_now(void) {
    struct timespec at;
    clock_gettime(CLOCK_MONOTONIC, &at);
    return (uint64_t)at.tv_sec * 1000000000u + (uint64_t)at.tv_nsec;
}

/* usage: PROGRAM MEGABYTES acyclic|cyclic ROUNDS: tables and rounds are those of one thread. Where garbage is cyclic, a place has
 * two objects. */
static inline struct work work_of(int count, char **words) {
    struct work work = { "acyclic", 0, 0, 0, 0 };
    if (count != 4) exit(2);
    work.megabytes = (uint32_t)strtoul(words[1], NULL, 10);
    work.is_cyclic = words[2][0] == 'c';
    if (work.is_cyclic) work.garbage = "cyclic";
    work.tables = (uint32_t)((uint64_t)work.megabytes * 1000000u / OBJECT_BYTES / IN_TABLE / THREADS) / (work.is_cyclic ? 2u : 1u);
    work.rounds = (uint32_t)strtoul(words[3], NULL, 10);
    if (!work.tables) exit(2);
    return work;
}

/* Numbers in no order, of which each thread has the same in each run. */
static inline uint32_t draw_from(uint64_t *state, uint32_t end) {
    *state = *state * 6364136223846793005u + 1442695040888963407u;
    return (uint32_t)((*state >> 33) % end);
}

/* Times of one kind, in nanoseconds. */
struct times {
    uint64_t *at;
    size_t count, space;
};

static inline void keep_time(struct times *times, uint64_t time) {
    if (times->count == times->space) {
        times->space = times->space ? times->space * 2 : 4096;
        times->at = realloc(times->at, times->space * sizeof *times->at);
        if (!times->at) exit(5);
    }
    times->at[times->count++] = time;
}

static inline int compare_times(const void *left, const void *right) {
    uint64_t a = *(const uint64_t *)left, b = *(const uint64_t *)right;
    return (a > b) - (a < b);
}

/* Prints the median, the 99th percentile and the greatest of some times, in microseconds. */
static inline void print_times(struct times *times) {
    if (!times->count) {
        printf("\t-\t-\t-");
        return;
    }
    qsort(times->at, times->count, sizeof *times->at, compare_times);
    printf("\t%.0f\t%.0f\t%.0f", (double)times->at[times->count / 2] / 1e3, (double)times->at[times->count * 99 / 100] / 1e3,
           (double)times->at[times->count - 1] / 1e3);
}

/* A row: until all are home, the pause itself, and the whole work, in milliseconds. */
static inline void print_row(const char *name, struct work work, struct times *home, struct times *pause, uint64_t taken) {
    printf("%s\t%u\t%s\t%zu", name, work.megabytes, work.garbage, pause->count);
    print_times(home);
    print_times(pause);
    printf("\t%.0f\n", (double)taken / 1e6);
}

#endif
