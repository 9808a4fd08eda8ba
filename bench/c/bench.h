/* bench.h: times of calls. SPDX: MIT OR Apache-2.0 */
#ifndef BENCH_H
#define BENCH_H

#include <stdint.h>
#include <stdio.h>
#include <stdlib.h>
#include <string.h>
#include <time.h>

/* The processor's time of this process, in nanoseconds: other programs on the machine don't count. */
static inline double now(void) {
    struct timespec at;
    clock_gettime(CLOCK_PROCESS_CPUTIME_ID, &at);
    return (double)at.tv_sec * 1e9 + (double)at.tv_nsec;
}

/* The call whose instructions are counted from without (bench/instructions), and how many tenths of a round it is made; no call where all
 * are timed. */
static const char *counted_call;
static uint32_t counted_tenths;

static inline int is_counted(const char *name) { return counted_call && strcmp(counted_call, name) == 0; }

/* Of a call that is counted there is one round, and of the others none. */
static inline int rounds_of(const char *name, int rounds) { return counted_call ? is_counted(name) : rounds; }

static inline uint32_t calls_of(uint32_t count) { return counted_call ? count / 10 * counted_tenths : count; }

static inline void print_measure(const char *name, double best, uint32_t calls) {
    if (!counted_call) printf("%s\t%.2f\n", name, best);
    if (is_counted(name)) printf("%u\n", calls);
}

/* Prints how many nanoseconds one of `count` calls takes, of the best of some rounds; or makes the calls that are counted. Each round counts
 * `i` from 0 on; `before` isn't timed. */
#define MEASURE_AFTER(name, rounds, count, before, call) \
    do { \
        double best = 1e18; \
        const uint32_t calls = calls_of(count); \
        for (int round = rounds_of(name, rounds); round > 0; round--) { \
            before; \
            double begun = now(); \
            for (uint32_t i = 0; i < calls; i++) { \
                call; \
                __asm__ volatile("" ::: "memory"); \
            } \
            double taken = (now() - begun) / (double)calls; \
            if (taken < best) best = taken; \
        } \
        print_measure(name, best, calls); \
    } while (0)

#define MEASURE(name, rounds, count, call) MEASURE_AFTER(name, rounds, count, , call)

/* Of a call that takes nanoseconds. Short rounds find a quiet moment of the machine. */
#define MEASURE_CALL(name, call) MEASURE(name, 200, 100000, call)

/* What is written to a place may be read after each call, so that no compiler leaves it out where it inlines the call. */
#define KEEP(place) __asm__ volatile("" ::"r"(&(place)) : "memory")

/* Numbers in no order, of which each round has the same. */
static inline uint32_t draw(uint32_t end) {
    static uint64_t state = 1;
    state = state * 6364136223846793005u + 1442695040888963407u;
    return (uint32_t)((state >> 33) % end);
}

/* The objects that live: tables of so many references each. */
#define IN_TABLE 1000u

/* An object of four words has two references and two data words. Beside them this collector's has a header of a word, and a word so that
 * there is an even number: 48 bytes, as Boehm's has, which adds one byte to 32. */
#define OBJECT_BYTES 48u

/* Times of pauses: their percentiles, and how many of a list there are. */
struct pauses {
    double *times;
    size_t count, space;
};

static inline void keep_pause(struct pauses *pauses, double time) {
    if (pauses->count == pauses->space) {
        pauses->space = pauses->space ? pauses->space * 2 : 4096;
        pauses->times = realloc(pauses->times, pauses->space * sizeof *pauses->times);
        if (!pauses->times) exit(5);
    }
    pauses->times[pauses->count++] = time;
}

static inline int compare_times(const void *left, const void *right) {
    double a = *(const double *)left, b = *(const double *)right;
    return (a > b) - (a < b);
}

/* Prints the number of the pauses, their median, 99th percentile and greatest, in microseconds, and all of them, in milliseconds. */
static inline void print_pauses(const char *name, struct pauses *pauses) {
    double all = 0;
    qsort(pauses->times, pauses->count, sizeof *pauses->times, compare_times);
    for (size_t at = 0; at < pauses->count; at++) all += pauses->times[at];
    if (!pauses->count) return;
    printf("%s\t%zu\t%.1f\t%.1f\t%.1f\t%.1f\n", name, pauses->count, pauses->times[pauses->count / 2] / 1e3,
           pauses->times[pauses->count * 99 / 100] / 1e3, pauses->times[pauses->count - 1] / 1e3, all / 1e6);
    free(pauses->times);
    *pauses = (struct pauses){ NULL, 0, 0 };
}

#endif
