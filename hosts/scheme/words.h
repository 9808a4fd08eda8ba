/*
 * Words and arrays in any number, behind references of objects. SPDX: MIT OR Apache-2.0
 *
 * Up to WORDS_MOST words are words of the heap, and more are an array of PARTS, which are WORDS_MOST words each, or the rest of them. There
 * are at most OBJECT_MOST parts, so that array is one object. They are read and written by way of the object that refers to them.
 * REGISTER_PART holds them meanwhile, and is free again after each call here.
 */
#ifndef WORDS_H
#define WORDS_H

/* So many words, to which a reference of an object leads. */
typedef struct words {
    unsigned base, reference;
    size_t count;
} Words;

/* A register becomes new words, which are 0, or a new array, whose elements are nil. */
void machine_words(const Machine *machine, unsigned dest, size_t count);
void machine_array(const Machine *machine, unsigned dest, size_t length);

/* A word in the words, or their part, that REGISTER_PART holds: how many there are, and the word's index among them. */
typedef struct word_place {
    size_t all, index;
} WordPlace;

static inline WordPlace words_find(Words words, size_t index) {
    memory_load(REGISTER_PART, words.base, words.reference);
    if (words.count <= WORDS_MOST) return (WordPlace){words.count, index};
    const size_t part = index / WORDS_MOST, left = words.count - part * WORDS_MOST;
    memory_load(REGISTER_PART, REGISTER_PART, (unsigned)part);
    return (WordPlace){left < WORDS_MOST ? left : WORDS_MOST, index % WORDS_MOST};
}

static inline Word words_get(Words words, size_t index) {
    const WordPlace place = words_find(words, index);
    return memory_word(REGISTER_PART, place.all, place.index);
}

static inline void words_put(Words words, size_t index, Word word) {
    const WordPlace place = words_find(words, index);
    memory_set_word(REGISTER_PART, place.all, place.index, word);
}

/* A word becomes another one; it is answered. */
static inline Word words_swap(Words words, size_t index, Word word) {
    const WordPlace place = words_find(words, index);
    const Word old = memory_word(REGISTER_PART, place.all, place.index);
    memory_set_word(REGISTER_PART, place.all, place.index, word);
    return old;
}

/* Some of them, from an index on. */
void words_read(Words words, size_t index, Word *into, size_t count);
void words_write(Words words, size_t index, const Word *from, size_t count);
void words_fill(Words words, size_t first, size_t count, Word word);

/* Words from an index on become what others were; both may be of one object, and overlap. */
void words_copy(Words to, size_t at, Words from, size_t first, size_t count);

#endif
