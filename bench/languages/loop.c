/*
 * Arithmetic without memory, shared out among threads: how many times as much these processors do by several of them. SPDX: MIT OR Apache-2.0
 *
 * usage: loop --threads N
 */
#include <pthread.h>
#include <stdint.h>
#include <stdio.h>
#include <stdlib.h>
#include <string.h>

enum { THREADS_MOST = 64 };

static const uint64_t steps = 800000000;
static uint64_t threads;

/* What is computed comes back, so that it is computed. */
static void *run(void *unused) {
    uint64_t word = (uintptr_t)unused;
    for (uint64_t step = 0; step < steps / threads; step++) word = word * 6364136223846793005u + step;
    return (void *)(uintptr_t)(word | 1);
}

int main(int count, char **words) {
    pthread_t started[THREADS_MOST];
    threads = count == 3 && strcmp(words[1], "--threads") == 0 ? strtoul(words[2], NULL, 10) : 0;
    if (threads < 1 || threads > THREADS_MOST) return 2;
    for (uint64_t at = 0; at < threads; at++) {
        if (pthread_create(&started[at], NULL, run, NULL) != 0) return 5;
    }
    for (uint64_t at = 0; at < threads; at++) {
        void *told = NULL;
        pthread_join(started[at], &told);
        if (!told) return 1;
    }
    puts("done");
    return 0;
}
