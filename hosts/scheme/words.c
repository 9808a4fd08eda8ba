/*
 * Words and arrays in any number. SPDX: MIT OR Apache-2.0
 */
#include "machine.h"

enum { CHUNK_WORDS = OBJECT_MOST };

static size_t least(size_t left, size_t right) { return left < right ? left : right; }

/* Words that are those of the heap. */
static void make_whole(const Machine *machine, unsigned dest, size_t count) {
    if (memory_words(dest, count)) return;
    machine_make_room(machine);
    if (!memory_words(dest, count)) machine_full(machine);
}

void machine_array(const Machine *machine, unsigned dest, size_t length) {
    if (memory_array(dest, length)) return;
    machine_make_room(machine);
    if (!memory_array(dest, length)) machine_full(machine);
}

void machine_words(const Machine *machine, unsigned dest, size_t count) {
    if (count <= WORDS_MOST) {
        make_whole(machine, dest, count);
        return;
    }
    machine_array(machine, dest, (count + WORDS_MOST - 1) / WORDS_MOST);
    for (size_t at = 0; at < count; at += WORDS_MOST) {
        make_whole(machine, REGISTER_PART, least(count - at, WORDS_MOST));
        memory_store(dest, (unsigned)(at / WORDS_MOST), REGISTER_PART);
    }
}

void words_read(Words words, size_t index, Word *into, size_t count) {
    for (size_t done = 0, now; done < count; done += now) {
        const WordPlace place = words_find(words, index + done);
        now = least(count - done, place.all - place.index);
        memory_read(REGISTER_PART, place.all, place.index, into + done, now);
    }
}

void words_write(Words words, size_t index, const Word *from, size_t count) {
    for (size_t done = 0, now; done < count; done += now) {
        const WordPlace place = words_find(words, index + done);
        now = least(count - done, place.all - place.index);
        memory_write(REGISTER_PART, place.all, place.index, from + done, now);
    }
}

void words_fill(Words words, size_t first, size_t count, Word word) {
    Word chunk[CHUNK_WORDS];
    for (size_t i = 0; i < least(count, CHUNK_WORDS); i++) chunk[i] = word;
    for (size_t done = 0; done < count; done += CHUNK_WORDS) words_write(words, first + done, chunk, least(count - done, CHUNK_WORDS));
}

void words_copy(Words to, size_t at, Words from, size_t first, size_t count) {
    Word chunk[CHUNK_WORDS];
    for (size_t done = 0, now; done < count; done += now) {
        now = least(count - done, CHUNK_WORDS);
        const size_t begin = at > first ? count - done - now : done; /* from the end on where they move there */
        words_read(from, first + begin, chunk, now);
        words_write(to, at + begin, chunk, now);
    }
}
