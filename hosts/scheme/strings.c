/*
 * Strings, and what is made of them and into them. SPDX: MIT OR Apache-2.0
 *
 * A string is words, eight bytes in each; where threads share the heap its own word stands before them, and a string with more of them than
 * are one object is an object that refers to them. Its length stands in its word. What works on many bytes copies them to the machine's
 * text, works there, and makes a string of it.
 */
#include "primitives.h"
#include <string.h>

enum { WORD_BYTES = 8, CHUNK_WORDS = 64 };

static size_t words_of(size_t length) { return (length + WORD_BYTES - 1) / WORD_BYTES; }

static size_t want_string(const Machine *machine, const char *name, unsigned operand) {
    if (kind_of(machine->word[operand]) != KIND_STRING) machine_fault(machine, "%s: not a string", name);
    return (size_t)payload(machine->word[operand]);
}

static unsigned char want_character(const Machine *machine, const char *name, unsigned operand) {
    if (kind_of(machine->word[operand]) != KIND_CHARACTER) machine_fault(machine, "%s: not a character", name);
    return (unsigned char)payload(machine->word[operand]);
}

void want_text(Machine *machine, size_t bytes) {
    if (machine->text_room >= bytes) return;
    machine->text_room = 2 * bytes;
    machine->text = more_memory(machine->text, machine->text_room);
}

static size_t length_of(const Machine *machine, unsigned string) { return (size_t)payload(machine->word[string]); }

/* How many words a string has that is words itself, as each is with one thread. */
static size_t all_words(size_t length) { return HEAD_WORDS + words_of(length); }

static bool is_whole(size_t length) { return all_words(length) <= WORDS_MOST; }

/* The words to which another string refers. */
static Words parts_of(unsigned string, size_t length) { return (Words){string, 0, words_of(length)}; }

static void read_words(const Machine *machine, unsigned string, size_t index, Word *into, size_t count) {
    const size_t length = length_of(machine, string);
    if (is_whole(length)) {
        memory_read(string, all_words(length), index + HEAD_WORDS, into, count);
    } else {
        words_read(parts_of(string, length), index, into, count);
    }
}

static void write_words(const Machine *machine, unsigned string, size_t index, const Word *from, size_t count) {
    const size_t length = length_of(machine, string);
    if (is_whole(length)) {
        memory_write(string, all_words(length), index + HEAD_WORDS, from, count);
    } else {
        words_write(parts_of(string, length), index, from, count);
    }
}

static Word get_word(const Machine *machine, unsigned string, size_t index) {
    const size_t length = length_of(machine, string);
    if (is_whole(length)) return memory_word(string, all_words(length), index + HEAD_WORDS);
    return words_get(parts_of(string, length), index);
}

static void put_word(const Machine *machine, unsigned string, size_t index, Word word) {
    const size_t length = length_of(machine, string);
    if (is_whole(length)) {
        memory_set_word(string, all_words(length), index + HEAD_WORDS, word);
    } else {
        words_put(parts_of(string, length), index, word);
    }
}

void read_string_text(Machine *machine, unsigned string, size_t from, size_t to, size_t at) {
    Word chunk[CHUNK_WORDS];
    want_text(machine, at + (to - from));
    while (from < to) {
        const size_t first = from / WORD_BYTES, left = words_of(to) - first;
        const size_t count = left < CHUNK_WORDS ? left : CHUNK_WORDS;
        const size_t end = (first + count) * WORD_BYTES < to ? (first + count) * WORD_BYTES : to;
        read_words(machine, string, first, chunk, count);
        memcpy(machine->text + at, (const char *)chunk + from % WORD_BYTES, end - from);
        at += end - from;
        from = end;
    }
}

/* A string that a chunk has room for is made with its words. */
static void make_short_string(const Machine *machine, unsigned dest, const char *text, size_t length) {
    static const uint32_t no_sources[1];
    Word chunk[HEAD_WORDS + CHUNK_WORDS];
    chunk[0] = REFERENCE(KIND_STRING, length); /* unless the string's first word stands there */
    chunk[HEAD_WORDS + (length ? words_of(length) - 1 : 0)] = 0;
    if (length) memcpy(chunk + HEAD_WORDS, text, length);
    machine_new_with(machine, dest, no_sources, 0, chunk, HEAD_WORDS + words_of(length));
}

void make_string_room(Machine *machine, unsigned dest, size_t length) {
    const Word word = REFERENCE(KIND_STRING, length);
    const uint32_t source = REGISTER_SCRATCH;
    if (length > STRING_MOST) machine_fault(machine, "a string of more than %d bytes", STRING_MOST);
    if (is_whole(length)) {
        machine_words(machine, dest, all_words(length));
        machine_head(dest, word);
    } else {
        machine_words(machine, source, words_of(length));
        machine_new_with(machine, REGISTER_PART, &source, 1, &word, HEAD_WORDS);
        memory_move(dest, REGISTER_PART);
    }
    machine_set(machine, dest, word);
}

void write_string_text(const Machine *machine, unsigned string, size_t at, const char *bytes, size_t count) {
    Word chunk[CHUNK_WORDS];
    while (count) {
        const size_t skipped = at % WORD_BYTES, room = sizeof chunk - skipped, now = count < room ? count : room;
        read_words(machine, string, at / WORD_BYTES, chunk, words_of(skipped + now));
        memcpy((char *)chunk + skipped, bytes, now);
        write_words(machine, string, at / WORD_BYTES, chunk, words_of(skipped + now));
        at += now;
        bytes += now;
        count -= now;
    }
}

unsigned char string_byte(const Machine *machine, unsigned string, size_t at) {
    const Word word = get_word(machine, string, at / WORD_BYTES);
    return ((const unsigned char *)&word)[at % WORD_BYTES];
}

void make_string_of(Machine *machine, unsigned dest, const char *text, size_t length) {
    Word chunk[CHUNK_WORDS];
    if (length <= sizeof chunk) {
        make_short_string(machine, dest, text, length);
        machine_set(machine, dest, REFERENCE(KIND_STRING, length));
        return;
    }
    make_string_room(machine, dest, length);
    for (size_t from = 0; from < length; from += sizeof chunk) {
        const size_t bytes = length - from < sizeof chunk ? length - from : sizeof chunk;
        chunk[words_of(bytes) - 1] = 0;
        memcpy(chunk, text + from, bytes);
        write_words(machine, dest, from / WORD_BYTES, chunk, words_of(bytes));
    }
}

void make_string_of_text(Machine *machine, unsigned dest, size_t length) { make_string_of(machine, dest, machine->text, length); }

void make_string(Machine *machine, unsigned dest, unsigned length_operand, unsigned fill, unsigned unused) {
    (void)unused;
    const size_t length = want_index(machine, "make-string", machine->word[length_operand], STRING_MOST + 1);
    want_text(machine, length);
    if (length) memset(machine->text, want_character(machine, "make-string", fill), length);
    make_string_of_text(machine, dest, length);
}

void string_length(Machine *machine, unsigned dest, unsigned string, unsigned unused, unsigned unused_too) {
    (void)unused;
    (void)unused_too;
    machine_set(machine, dest, integer((int64_t)want_string(machine, "string-length", string)));
}

void string_ref(Machine *machine, unsigned dest, unsigned string, unsigned index, unsigned unused) {
    (void)unused;
    const size_t length = want_string(machine, "string-ref", string);
    const size_t at = want_index(machine, "string-ref", machine->word[index], length);
    machine_set(machine, dest, PLAIN(KIND_CHARACTER, string_byte(machine, string, at)));
}

void string_set(Machine *machine, unsigned dest, unsigned string, unsigned index, unsigned value) {
    (void)dest;
    const size_t length = want_string(machine, "string-set!", string);
    const size_t at = want_index(machine, "string-set!", machine->word[index], length);
    Word word = get_word(machine, string, at / WORD_BYTES);
    ((unsigned char *)&word)[at % WORD_BYTES] = want_character(machine, "string-set!", value);
    put_word(machine, string, at / WORD_BYTES, word);
}

void string_append(Machine *machine, unsigned dest, unsigned left, unsigned right, unsigned unused) {
    (void)unused;
    const size_t left_length = want_string(machine, "string-append", left), right_length = want_string(machine, "string-append", right);
    read_string_text(machine, left, 0, left_length, 0);
    read_string_text(machine, right, 0, right_length, left_length);
    make_string_of_text(machine, dest, left_length + right_length);
}

void substring(Machine *machine, unsigned dest, unsigned string, unsigned from_operand, unsigned to_operand) {
    const size_t length = want_string(machine, "substring", string);
    const size_t to =
        machine->word[to_operand] == UNSPECIFIED ? length : want_index(machine, "substring", machine->word[to_operand], length + 1);
    const size_t from = want_index(machine, "substring", machine->word[from_operand], to + 1);
    read_string_text(machine, string, from, to, 0);
    make_string_of_text(machine, dest, to - from);
}

/* Below, at or above 0 as the left string stands before, with or behind the right one. */
static int compare(Machine *machine, const char *name, unsigned left, unsigned right) {
    const size_t left_length = want_string(machine, name, left), right_length = want_string(machine, name, right);
    const size_t shorter = left_length < right_length ? left_length : right_length;
    read_string_text(machine, left, 0, left_length, 0);
    read_string_text(machine, right, 0, right_length, left_length);
    const int order = shorter ? memcmp(machine->text, machine->text + left_length, shorter) : 0;
    return order ? order : (left_length > right_length) - (left_length < right_length);
}

void string_equal(Machine *machine, unsigned dest, unsigned left, unsigned right, unsigned unused) {
    (void)unused;
    machine_set(machine, dest, boolean(compare(machine, "string=?", left, right) == 0));
}

void string_less(Machine *machine, unsigned dest, unsigned left, unsigned right, unsigned unused) {
    (void)unused;
    machine_set(machine, dest, boolean(compare(machine, "string<?", left, right) < 0));
}

void symbol_to_string(Machine *machine, unsigned dest, unsigned symbol, unsigned unused, unsigned unused_too) {
    (void)unused;
    (void)unused_too;
    if (kind_of(machine->word[symbol]) != KIND_SYMBOL) machine_fault(machine, "symbol->string: not a symbol");
    const char *const name = symbol_name((Symbol)payload(machine->word[symbol]));
    make_string_of(machine, dest, name, strlen(name));
}

void string_to_symbol(Machine *machine, unsigned dest, unsigned string, unsigned unused, unsigned unused_too) {
    (void)unused;
    (void)unused_too;
    const size_t length = want_string(machine, "string->symbol", string);
    read_string_text(machine, string, 0, length, 0);
    machine_set(machine, dest, PLAIN(KIND_SYMBOL, symbol_of(length ? machine->text : "", length)));
}
