/*
 * How long pauses took. SPDX: MIT OR Apache-2.0
 */
#ifndef PAUSES_H
#define PAUSES_H

#include <stdint.h>
#include <stdio.h>

typedef enum pause_kind { PAUSE_PLAIN, PAUSE_COLLECTING, PAUSE_KINDS } PauseKind;

/* Nanoseconds since some moment. */
uint64_t pauses_clock(void);
void pauses_add(PauseKind kind, uint64_t nanoseconds);

/* A line for each kind of pause that there was: how many, the 50th and 99th percentile and the greatest, and the sum. */
void pauses_report(FILE *to);

#endif
