/*
 * Symbols: each name has a number, by which it is told from others. SPDX: MIT OR Apache-2.0
 *
 * Threads make symbols one after another, under a lock. Names are read without it: where their array grows it becomes another one, and the
 * old one is kept for who reads there.
 */
#include "symbols.h"
#include "fault.h"
#include <stdlib.h>
#include <string.h>

#ifdef THREADS
#include <pthread.h>

static pthread_mutex_t lock = PTHREAD_MUTEX_INITIALIZER;

static void begin(void) { pthread_mutex_lock(&lock); }

static void end(void) { pthread_mutex_unlock(&lock); }
#else
static void begin(void) {}

static void end(void) {}
#endif

static char **names;
static char **outgrown; /* an array of names that became another one, or null; its own is its first item */
static Symbol *table;   /* open addressing; an entry is a symbol's number and 1 */
static size_t count, room;

static size_t hash_of(const char *name, size_t length) {
    uint64_t hash = 14695981039346656037u;
    for (size_t i = 0; i < length; i++) hash = (hash ^ (unsigned char)name[i]) * 1099511628211u;
    return (size_t)(hash ^ hash >> 32);
}

static void enter(Symbol symbol, size_t hash) {
    size_t at = hash & (room - 1);
    while (table[at]) at = (at + 1) & (room - 1);
    table[at] = symbol + 1;
}

static void grow(void) {
    const size_t before = room;
    room = room ? 2 * room : 1024;
    char **const more = (char **)more_memory(NULL, (room + 1) * sizeof *names) + 1;
    if (before) memcpy(more, names, before * sizeof *names);
    more[-1] = (char *)outgrown;
    outgrown = more - 1;
    __atomic_store_n(&names, more, __ATOMIC_RELEASE);
    free(table);
    table = memset(more_memory(NULL, room * sizeof *table), 0, room * sizeof *table);
    for (Symbol symbol = 0; symbol < count; symbol++) enter(symbol, hash_of(names[symbol], strlen(names[symbol])));
}

static Symbol find_or_add(const char *name, size_t length) {
    if (2 * (count + 1) > room) grow();
    const size_t hash = hash_of(name, length);
    for (size_t at = hash & (room - 1); table[at]; at = (at + 1) & (room - 1)) {
        const char *const other = names[table[at] - 1];
        if (strlen(other) == length && memcmp(other, name, length) == 0) return table[at] - 1;
    }
    char *const copy = more_memory(NULL, length + 1);
    memcpy(copy, name, length);
    copy[length] = '\0';
    names[count] = copy;
    enter((Symbol)count, hash);
    return (Symbol)count++;
}

Symbol symbol_of(const char *name, size_t length) {
    begin();
    const Symbol symbol = find_or_add(name, length);
    end();
    return symbol;
}

const char *symbol_name(Symbol symbol) { return __atomic_load_n(&names, __ATOMIC_ACQUIRE)[symbol]; }

void symbols_free(void) {
    for (size_t i = 0; i < count; i++) free(names[i]);
    while (outgrown) {
        char **const before = (char **)outgrown[0];
        free(outgrown);
        outgrown = before;
    }
    free(table);
}
