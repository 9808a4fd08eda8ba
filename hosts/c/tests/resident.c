/*
 * resident.c: what memory a host takes that reserves 2 GB and lives in what it needs. SPDX: MIT OR Apache-2.0
 *
 * The same program runs in two processes: in a heap of 2 GB whose room grows, and in one of twice what lives. The first takes at most 1.3 times as
 * much of the machine's memory as the second. Then a list of 150 MB is made beside one of 15 MB, and let go of, again and again: once the heap is
 * trimmed, at least four fifths of that have gone back, and no more is left than the time before.
 */
#define _POSIX_C_SOURCE 200809L
#define _DEFAULT_SOURCE

#include "../lxr.h"

#include <limits.h>
#include <stdio.h>
#include <stdlib.h>
#include <sys/resource.h>
#include <sys/types.h>
#include <sys/wait.h>
#include <unistd.h>

enum { LIST = 1, FIRST, LAST, NODE, LIVE = 60000, LONG = 600000, LENGTH = 10000, RINGS = 200, TWICE = 960, ALL = 65536 };

static lxr_heap heap;

static void must(lxr_code code) {
    if (code == LXR_OK) return;
    fprintf(stderr, "resident: %s\n", lxr_message(code));
    _exit(1);
}

/* Register `last` leads to a list of so many objects of 256 bytes, the first of which register FIRST holds. */
static void make_list(uint32_t last, uint32_t length) {
    must(lxr_nil(&heap, last));
    for (uint32_t made = 0; made < length; made++) {
        must(lxr_new(&heap, NODE, 1, 30));
        must(lxr_store(&heap, NODE, 0, last));
        must(lxr_move(&heap, last, NODE));
        if (made == 0) must(lxr_move(&heap, FIRST, NODE));
    }
}

/* A list of 15 MB, and 500 MB of rings that nothing keeps, which counts don't reclaim. */
static void run(const lxr_settings *settings) {
    must(lxr_open(&heap, settings));
    make_list(LIST, LIVE);
    for (uint32_t made = 0; made < RINGS; made++) {
        make_list(LAST, LENGTH);
        must(lxr_store(&heap, FIRST, 0, LAST));
        must(lxr_nil(&heap, FIRST));
        must(lxr_nil(&heap, LAST));
        must(lxr_nil(&heap, NODE));
    }
    must(lxr_close(&heap));
}

/* The most KB that a process has taken which runs it. */
static long kilobytes(const lxr_settings *settings) {
    struct rusage used;
    int status = 0;
    pid_t child = fork();
    if (child == 0) {
        run(settings);
        _exit(0);
    }
    if (child < 0 || wait4(child, &status, 0, &used) != child || status != 0) exit(1);
    return used.ru_maxrss;
}

/* The KB that this process takes of the machine's memory now. */
static long resident(void) {
    long all = 0, taken = 0;
    FILE *file = fopen("/proc/self/statm", "r");
    if (!file || fscanf(file, "%ld %ld", &all, &taken) != 2) exit(1);
    fclose(file);
    return taken * (sysconf(_SC_PAGESIZE) / 1024);
}

/* Whether a heap gives back what a long list took. Its tables and what reports had stay, so that the first time leaves more than there was. */
static int gives_back(void) {
    lxr_settings settings = LXR_SETTINGS(ALL, 1);
    long before = LONG_MAX / 2;
    must(lxr_open(&heap, &settings));
    make_list(LIST, LIVE);
    for (int times = 0; times < 4; times++) {
        make_list(LAST, LONG);
        long with = resident();
        for (uint32_t at = FIRST; at <= NODE; at++) must(lxr_nil(&heap, at));
        must(lxr_collect(&heap));
        must(lxr_trim(&heap));
        long without = resident();
        printf("resident: %ld KB with a list of 150 MB, %ld KB once it is gone\n", with, without);
        if (with - without < LONG / 5 || without > before + before / 10) return 0;
        before = without;
    }
    must(lxr_close(&heap));
    return 1;
}

int main(void) {
    lxr_settings small = LXR_SETTINGS(TWICE, 1), large = LXR_SETTINGS(ALL, 1);
    large.room = TWICE / 2;
    long of_small = kilobytes(&small), of_large = kilobytes(&large);
    printf("resident: %ld KB in a heap of 2 GB, %ld KB in one of twice what lives\n", of_large, of_small);
    return of_large > of_small * 13 / 10 || !gives_back();
}
