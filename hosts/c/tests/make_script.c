/*
 * make_script.c: prints a random script of `lxr large`, which a number alone determines. SPDX: MIT OR Apache-2.0
 *
 * usage: make_script SEED > SCRIPT
 *
 * Its first line is a comment with the words of the command line that it is for: '# --blocks 2 --bodies 3'. Small heaps make full ones.
 * The maker follows the graph, so most operations meet an object that has the field; some meet a nil register, or an index that is out of
 * range.
 */
#include <inttypes.h>
#include <stdbool.h>
#include <stdio.h>
#include <stdlib.h>

#define REGISTERS 16
#define FOLLOWED  64   /* references of an object that are followed: the first ones, and all of the world's */
#define MOST_MADE 4096 /* more operations than a script here has */

struct object {
    unsigned refs, words, blocks;
    struct object *to[FOLLOWED];
};

static struct object objects[MOST_MADE], *registers[REGISTERS];
static size_t made;

/* ---- Numbers ---- */

static uint64_t state;

/* The generator of the project's replays: steps a number modulo 2^64, and gives what is above its low 33 bits. */
static uint64_t draw(void) {
    state = state * 6364136223846793005u + 1442695040888963407u;
    return state >> 33;
}

static unsigned below(unsigned end) { return (unsigned)(draw() % end); }

static bool one_in(unsigned times) { return below(times) == 0; }

/* ---- Shapes, registers and indices ---- */

/* How large objects are: small, of about a line, of any size, or of no size. */
enum taste { SMALL, LINES, ANY, BARE, TASTES };

static unsigned refs_by(enum taste taste) { return taste == ANY ? below(1024) : taste == BARE ? 0 : below(5); }

static unsigned words_by(enum taste taste) {
    switch (taste) {
    case LINES: return 24 + below(12);
    case ANY: return one_in(4) ? 1023 : below(1024);
    case BARE: return 0;
    default: return below(4);
    }
}

/* A register, mostly one that holds an object for which `fits` holds. */
static unsigned pick(bool (*fits)(const struct object *)) {
    unsigned at = below(REGISTERS);
    for (unsigned tries = 0; tries < REGISTERS && !one_in(24); tries++, at = (at + 1) % REGISTERS)
        if (registers[at] && fits(registers[at])) return at;
    return at;
}

static bool has_refs(const struct object *it) { return it->refs != 0; }
static bool has_words(const struct object *it) { return it->words != 0; }
static bool has_body(const struct object *it) { return it->blocks != 0; }
static bool is_any(const struct object *it) { return it->refs < 1024; }

/* An index below `end`, mostly: often the last, and now and then the first that isn't. */
static unsigned index_of(unsigned end, unsigned most) {
    if (one_in(32)) return one_in(2) ? most : end > most ? most : end;
    return end == 0 ? 0 : one_in(4) ? end - 1 : below(end > 4 && one_in(2) ? 4 : end);
}

/* A register to be overwritten; seldom the one that has the world. */
static unsigned pick_dest(void) { return one_in(40) ? 0 : 1 + below(REGISTERS - 1); }

/* ---- Operations ---- */

static void make(unsigned dest, unsigned refs, unsigned words, unsigned blocks) {
    struct object *it = &objects[made++];
    it->refs = refs;
    it->words = words;
    it->blocks = blocks;
    registers[dest] = it;
}

static void put_new(enum taste taste) {
    unsigned dest = pick_dest(), refs = refs_by(taste), words = words_by(taste);
    printf("new r%u %u %u\n", dest, refs, words);
    make(dest, refs, words, 0);
}

static void put_big(unsigned bodies) {
    unsigned dest = pick_dest(), blocks = one_in(8) ? 1 + below(128) : 1 + below(bodies < 8 ? bodies : 8);
    printf("big r%u %u\n", dest, blocks);
    make(dest, 0, 0, blocks);
}

static void put_load(void) {
    unsigned base = pick(has_refs), dest = pick_dest(), index = index_of(registers[base] ? registers[base]->refs : 2, 1023);
    printf("load r%u r%u %u\n", dest, base, index);
    if (registers[base] && index < registers[base]->refs) registers[dest] = index < FOLLOWED ? registers[base]->to[index] : NULL;
}

static void put_store(void) {
    unsigned base = pick(has_refs), source = one_in(5) ? below(REGISTERS) : pick(is_any);
    unsigned index = index_of(registers[base] ? registers[base]->refs : 2, 1023);
    printf("store r%u %u r%u\n", base, index, source);
    if (registers[base] && index < registers[base]->refs && index < FOLLOWED) registers[base]->to[index] = registers[source];
}

static uint64_t any_word(void) { return one_in(3) ? below(10) : (draw() << 33) ^ (draw() << 13) ^ draw(); }

static void put_word(bool write) {
    unsigned base = pick(has_words), index = index_of(registers[base] ? registers[base]->words : 2, 1023);
    if (write)
        printf("put r%u %u %" PRIu64 "\n", base, index, any_word());
    else
        printf("get r%u %u\n", base, index);
}

static void put_body_word(bool write) {
    unsigned base = pick(has_body), index = index_of(registers[base] ? registers[base]->blocks * 4096 : 2, 524287);
    if (write)
        printf("bput r%u %u %" PRIu64 "\n", base, index, any_word());
    else
        printf("bget r%u %u\n", base, index);
}

static void put_registers(void) {
    unsigned left = below(REGISTERS), right = pick(is_any), sort = below(5);
    if (sort < 2) {
        printf("same r%u r%u\n", left, right);
    } else if (sort == 2) {
        unsigned dest = pick_dest();
        printf("move r%u r%u\n", dest, right);
        registers[dest] = registers[right];
    } else {
        unsigned dest = pick_dest();
        printf("nil r%u\n", dest);
        registers[dest] = NULL;
    }
}

static void put_operation(enum taste taste, unsigned bodies) {
    unsigned kind = below(100);
    if (kind < 22)
        put_new(one_in(6) ? (enum taste)below(TASTES) : taste);
    else if (kind < 26)
        put_big(bodies);
    else if (kind < 41)
        put_load();
    else if (kind < 66)
        put_store();
    else if (kind < 76)
        put_word(one_in(2));
    else if (kind < 81)
        put_body_word(one_in(2));
    else if (kind < 95)
        put_registers();
    else
        puts(kind < 99 ? "pause" : "collect");
}

int main(int count, char **words) {
    if (count != 2) {
        fputs("usage: make_script SEED\n", stderr);
        return 1;
    }
    state = strtoull(words[1], NULL, 10);
    for (unsigned at = 0; at < 4; at++) draw();
    enum taste taste = (enum taste)below(TASTES);
    unsigned blocks = 1 + below(one_in(2) ? 2 : 12), bodies = 1 + below(one_in(2) ? 4 : 40), operations = 1 + below(one_in(4) ? 4000 : 120);
    printf("# --blocks %u --bodies %u\nlxr large 1\n", blocks, bodies);
    make(0, FOLLOWED, 0, 0);
    for (unsigned at = 0; at < operations; at++) put_operation(taste, bodies);
    puts("end");
    return 0;
}
