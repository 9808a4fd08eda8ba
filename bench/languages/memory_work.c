/*
 * The heap on the proved collector, as memory_lxr.c has it, with slices as WORK in the environment says: 0 for none. SPDX: MIT OR Apache-2.0
 */
#include <stdint.h>
#include <stdlib.h>

static uint32_t units_by_environment(void) {
    const char *work = getenv("WORK");
    return work ? (uint32_t)strtoul(work, NULL, 10) : 32;
}

#define UNITS_OF_WORK units_by_environment()

#include "memory_lxr.c"
