/*
 * How long pauses took. SPDX: MIT OR Apache-2.0
 */
#define _POSIX_C_SOURCE 200809L
#include "pauses.h"
#include <inttypes.h>
#include <stdlib.h>
#include <time.h>

typedef struct times {
    uint64_t *nanoseconds;
    size_t count, room;
} Times;

static Times times[PAUSE_KINDS];
static const char *const names[PAUSE_KINDS] = {"plain", "collecting"};

uint64_t pauses_clock(void) {
    struct timespec now;
    clock_gettime(CLOCK_MONOTONIC, &now);
    return (uint64_t)now.tv_sec * 1000000000u + (uint64_t)now.tv_nsec;
}

void pauses_add(PauseKind kind, uint64_t nanoseconds) {
    Times *const of = &times[kind];
    if (of->count == of->room) {
        const size_t room = of->room ? 2 * of->room : 1024;
        uint64_t *const grown = realloc(of->nanoseconds, room * sizeof *grown);
        if (!grown) return;
        of->nanoseconds = grown;
        of->room = room;
    }
    of->nanoseconds[of->count++] = nanoseconds;
}

static int in_order(const void *left, const void *right) {
    const uint64_t a = *(const uint64_t *)left, b = *(const uint64_t *)right;
    return (a > b) - (a < b);
}

static void report_kind(FILE *to, const char *name, Times *of) {
    uint64_t sum = 0;
    qsort(of->nanoseconds, of->count, sizeof *of->nanoseconds, in_order);
    for (size_t i = 0; i < of->count; i++) sum += of->nanoseconds[i];
    fprintf(to, "pauses: %s %zu, 50%% %.1f us, 99%% %.1f us, most %.1f us, all %.1f us\n", name, of->count,
            (double)of->nanoseconds[(of->count - 1) / 2] / 1e3, (double)of->nanoseconds[(of->count - 1) * 99 / 100] / 1e3,
            (double)of->nanoseconds[of->count - 1] / 1e3, (double)sum / 1e3);
}

void pauses_report(FILE *to) {
    size_t all = 0;
    for (int kind = 0; kind < PAUSE_KINDS; kind++) {
        if (times[kind].count) report_kind(to, names[kind], &times[kind]);
        all += times[kind].count;
    }
    if (!all) fputs("pauses: none\n", to);
}
