/*
 * Memory for what is needed while one form is read and compiled. SPDX: MIT OR Apache-2.0
 */
#include "arena.h"
#include "fault.h"
#include <stdlib.h>
#include <string.h>

enum { CHUNK_BYTES = 65536, ALIGNMENT = 16 };

typedef struct chunk {
    struct chunk *before;
    size_t used, room;
} Chunk;

static Chunk *last, *last_kept;

static void *take(Chunk **from, size_t bytes) {
    const size_t header = (sizeof(Chunk) + ALIGNMENT - 1) / ALIGNMENT * ALIGNMENT;
    bytes = (bytes + ALIGNMENT - 1) / ALIGNMENT * ALIGNMENT;
    if (!*from || (*from)->room - (*from)->used < bytes) {
        const size_t room = bytes > CHUNK_BYTES ? bytes : CHUNK_BYTES;
        Chunk *const chunk = more_memory(NULL, header + room);
        *chunk = (Chunk){.before = *from, .used = 0, .room = room};
        *from = chunk;
    }
    void *const taken = (char *)*from + header + (*from)->used;
    (*from)->used += bytes;
    return memset(taken, 0, bytes);
}

static void clear(Chunk **from) {
    while (*from) {
        Chunk *const before = (*from)->before;
        free(*from);
        *from = before;
    }
}

void *arena_take(size_t bytes) { return take(&last, bytes); }

void *arena_keep(size_t bytes) { return take(&last_kept, bytes); }

void arena_clear(void) { clear(&last); }

void arena_close(void) {
    clear(&last);
    clear(&last_kept);
}
