#include <inttypes.h>
#include <lxr.h>
#include <stdio.h>
#include <string.h>

/* Registers: a table, a larger one while it grows, an entry of it, one that moves, and the text of an entry. */
enum { TABLE = 1, LARGER, ENTRY, MOVED, TEXT };
enum { MOST_WORDS = 8, PUTS = 200000, TEXTS = 50000 };

static lxr_heap heap;

static uint32_t length_of(uint32_t table) {
    uint32_t length = 0;
    lxr_array_length(&heap, table, &length);
    return length;
}

/* Reads the text of an entry, which has a reference to its words; whether there is an entry. */
static int read_text(uint32_t entry, char *text) {
    uint64_t words[MOST_WORDS];
    uint32_t count = 0;
    if (lxr_load(&heap, TEXT, entry, 0) != LXR_OK || lxr_words_length(&heap, TEXT, &count) != LXR_OK) return 0;
    lxr_words_read(&heap, TEXT, 0, words, count);
    memcpy(text, words, count * sizeof *words);
    return 1;
}

/* Finds the place of a text, from that of its hash on: register ENTRY holds what is there, which may be nil. */
static uint32_t find(uint32_t table, const char *text) {
    char found[MOST_WORDS * 8];
    uint32_t length = length_of(table), hash = 2166136261u;
    for (const char *it = text; *it; it++) hash = (hash ^ (unsigned char)*it) * 16777619u;
    for (uint32_t at = hash % length;; at = (at + 1) % length) {
        lxr_array_load(&heap, ENTRY, table, at);
        if (!read_text(ENTRY, found) || strcmp(found, text) == 0) return at;
    }
}

/* Makes the table twice as long, and each entry moves to its place there; whether there is room. */
static int grow(void) {
    char text[MOST_WORDS * 8];
    uint32_t length = length_of(TABLE);
    if (lxr_array_new(&heap, LARGER, 2 * length) != LXR_OK) return 0;
    for (uint32_t at = 0; at < length; at++) {
        lxr_array_load(&heap, MOVED, TABLE, at);
        if (read_text(MOVED, text)) lxr_array_store(&heap, LARGER, find(LARGER, text), MOVED);
    }
    lxr_move(&heap, TABLE, LARGER);
    return 1;
}

/* Puts a text into the table once more; how often it was put by now, or 0 where there is no room. */
static uint64_t put(const char *text) {
    uint64_t words[MOST_WORDS] = { 0 }, times = 1;
    uint32_t at = find(TABLE, text), count = (uint32_t)strlen(text) / 8 + 1;
    if (lxr_get(&heap, ENTRY, 0, &times) == LXR_OK) {
        lxr_put(&heap, ENTRY, 0, ++times);
        return times;
    }
    memcpy(words, text, strlen(text));
    if (lxr_words_new(&heap, TEXT, count) != LXR_OK || lxr_words_write(&heap, TEXT, 0, words, count) != LXR_OK) return 0;
    if (lxr_new_with(&heap, ENTRY, &(uint32_t){ TEXT }, 1, &times, 1) != LXR_OK) return 0;
    lxr_array_store(&heap, TABLE, at, ENTRY);
    return times;
}

int main(void) {
    uint32_t texts = 0;
    uint64_t times = 1;
    char text[MOST_WORDS * 8];
    if (lxr_open(&heap, &(lxr_settings)LXR_SETTINGS(256, 1)) != LXR_OK || lxr_array_new(&heap, TABLE, 4) != LXR_OK) return 1;
    for (uint32_t n = 0; n < PUTS && times; n++) {
        snprintf(text, sizeof text, "text number %" PRIu32, n % TEXTS);
        times = put(text);
        texts += times == 1;
        if (2 * texts > length_of(TABLE) && !grow()) return 1;
    }
    printf("%" PRIu32 " texts in %" PRIu32 " places; the last was put %" PRIu64 " times\n", texts, length_of(TABLE), times);
    return lxr_close(&heap) != LXR_OK;
}
