/*
 * random.c: random calls on the archive and on plain_heap.c, which have to agree. SPDX: MIT OR Apache-2.0
 *
 * usage: random SECONDS [SEED]     rounds for so long, each from a number of its own on; with 0 seconds one round, from SEED
 *
 * A round opens both heaps with 16, 64 or 256 registers, and makes some ten thousand calls on both; most are sensible, some are wild. Each
 * code and each word that is answered has to be the same. Where the archive says that it is full, the other heap isn't called, and what it
 * can reach has to be enough to leave no room. After a collecting pause both have as many objects.
 */
#include "../plain_heap.h"
#include "calls.h"

#include <inttypes.h>
#include <stdarg.h>
#include <stdbool.h>
#include <stdio.h>
#include <stdlib.h>
#include <string.h>
#include <time.h>

#define CALLS      20000u
#define BUFFER     64u
#define LONGEST    1026u
#define OPERATIONS 24u

static struct { uint64_t rounds, calls, full, pauses; } sums;

/* A round: its two heaps, and the sizes of the archive's. */
static struct {
    uint64_t seed, calls;
    uint32_t blocks, body_blocks, registers, grow;
    lxr_heap lxr, plain;
} now;

static void differ(const char *form, ...) {
    va_list parts;
    va_start(parts, form);
    fprintf(stderr, "random: seed %" PRIu64 ", call %" PRIu64 ": ", now.seed, now.calls);
    vfprintf(stderr, form, parts);
    fputc('\n', stderr);
    va_end(parts);
    exit(1);
}

static void agree(const char *what, uint64_t on_lxr, uint64_t on_plain) {
    if (on_lxr != on_plain) differ("%s: %" PRIu64 " of the archive, and %" PRIu64, what, on_lxr, on_plain);
}

/* ---- Numbers ---- */

static uint64_t state;

static uint64_t draw(void) {
    state = state * 6364136223846793005u + 1442695040888963407u;
    return state >> 33;
}

static uint32_t below(uint32_t end) { return (uint32_t)(draw() % end); }

static bool one_in(uint32_t times) { return below(times) == 0; }

static uint32_t wild(void) {
    static const uint32_t numbers[] = {
        0, 1, 15, 16, 17, 63, 64, 65, 255, 256, 1023, 1024, 4095, 4096, 65535, 65536, UINT32_MAX - 1, UINT32_MAX
    };
    return numbers[below(sizeof numbers / sizeof *numbers)];
}

/* A register, mostly one of the first: so that many of those that are looked at hold something. */
static uint32_t any_register(void) { return below(one_in(4) ? now.registers : LXR_REGISTERS); }

static uint32_t some_register(void) { return one_in(200) ? wild() : any_register(); }

/* A register to be overwritten: seldom the one that has the world. */
static uint32_t some_dest(void) {
    uint32_t dest = some_register();
    return dest == 0 && !one_in(50) ? 1 : dest;
}

/* ---- What a base has ---- */

enum field { REFS, WORDS, BODY };

/* How many fields of a sort the object in a register has; 0 where it holds none. */
static uint32_t fields_of(uint32_t base, enum field sort) {
    uint32_t refs = 0, words = 0, blocks = 0;
    if (calls_plain.shape(&now.plain, base, &refs, &words, &blocks) != LXR_OK) return 0;
    return sort == REFS ? refs : sort == WORDS ? words : blocks * LXR_BLOCK_WORDS;
}

/* A register, mostly one whose object has such fields. */
static uint32_t some_base(enum field sort) {
    uint32_t base = some_register();
    for (int tries = 0; tries < 12 && !one_in(30) && fields_of(base, sort) == 0; tries++) base = any_register();
    return base;
}

/* An index, mostly of such a field: one of the first, the last, or any. */
static uint32_t some_index(uint32_t base, enum field sort) {
    uint32_t end = fields_of(base, sort);
    if (end == 0 || one_in(60)) return wild();
    if (one_in(40)) return end;
    return one_in(3) ? end - 1 : one_in(2) ? below(end) : below(end < 4 ? end : 4);
}

static uint64_t some_word(void) { return (draw() << 33) ^ (draw() << 11) ^ draw(); }

/* ---- Full ---- */

/* Sums over what can be reached: how many runs of `lines` lines objects can spoil, and how many of `blocks` blocks bodies can. */
struct spoiled {
    uint32_t lines, blocks;
    uint64_t of_lines, of_blocks;
};

static uint64_t divided_up(uint64_t number, uint64_t by) { return (number + by - 1) / by; }

static uint32_t lines_of(uint32_t refs, uint32_t words) { return (uint32_t)divided_up(1 + refs + words, 32); }

static void spoil(void *with, uint32_t refs, uint32_t words, uint32_t blocks) {
    struct spoiled *spoiled = with;
    spoiled->of_lines += divided_up(lines_of(refs, words), spoiled->lines) + 1;
    if (blocks) spoiled->of_blocks += divided_up(blocks, spoiled->blocks) + 1;
}

/*
 * Whether what can be reached, and so many parts of an array that are made already, can leave no room for an object of such a shape, or such a
 * body. The world has 3 of the 128 lines of a block.
 */
static void may_be_full_beside(uint32_t parts, uint32_t refs, uint32_t words, uint32_t blocks) {
    struct spoiled spoiled = { lines_of(refs, words), blocks ? blocks : 1, 0, 0 };
    plain_each_reachable(&now.plain, spoil, &spoiled);
    for (uint32_t part = 0; part < parts; part++) spoil(&spoiled, LXR_MOST_REFS, 1, 0);
    uint64_t runs = 125 / spoiled.lines + (uint64_t)(now.blocks - 1) * (128 / spoiled.lines);
    bool no_run = spoiled.of_lines >= runs, no_blocks = blocks && spoiled.of_blocks >= now.body_blocks / blocks;
    if (!no_run && !no_blocks) differ("full, where what can be reached leaves room");
    sums.full++;
}

static void may_be_full(uint32_t refs, uint32_t words, uint32_t blocks) { may_be_full_beside(0, refs, words, blocks); }

/* ---- Calls on both heaps ---- */

static void call_new(void) {
    uint32_t dest = some_dest(), large = below(20);
    uint32_t refs = one_in(300) ? wild() : large == 0 ? below(1024) : below(6);
    uint32_t words = one_in(300) ? wild() : large == 0 ? below(1024) : large < 4 ? below(64) : below(5);
    lxr_code code = calls_lxr.new(&now.lxr, dest, refs, words);
    if (code == LXR_E_FULL)
        may_be_full(refs, words, 0);
    else
        agree("new", code, calls_plain.new(&now.plain, dest, refs, words));
}

static void call_big(void) {
    uint32_t dest = some_dest(), blocks = one_in(100) ? wild() : one_in(10) ? below(129) : 1 + below(4);
    lxr_code code = calls_lxr.large_new(&now.lxr, dest, blocks);
    if (code == LXR_E_FULL)
        may_be_full(0, 0, blocks);
    else
        agree("large_new", code, calls_plain.large_new(&now.plain, dest, blocks));
}

static void call_load(void) {
    uint32_t base = some_base(REFS), index = some_index(base, REFS), dest = some_dest();
    agree("load", calls_lxr.load(&now.lxr, dest, base, index), calls_plain.load(&now.plain, dest, base, index));
}

static void call_store(void) {
    uint32_t base = some_base(REFS), index = some_index(base, REFS), source = some_register();
    agree("store", calls_lxr.store(&now.lxr, base, index, source), calls_plain.store(&now.plain, base, index, source));
}

static void call_get(void) {
    uint32_t base = some_base(WORDS), index = some_index(base, WORDS);
    uint64_t on_lxr = 1, on_plain = 1;
    agree("get", calls_lxr.get(&now.lxr, base, index, &on_lxr), calls_plain.get(&now.plain, base, index, &on_plain));
    agree("the word of get", on_lxr, on_plain);
}

static void call_put(void) {
    uint32_t base = some_base(WORDS), index = some_index(base, WORDS);
    uint64_t word = some_word();
    agree("put", calls_lxr.put(&now.lxr, base, index, word), calls_plain.put(&now.plain, base, index, word));
}

static void call_bget(void) {
    uint32_t base = some_base(BODY), index = some_index(base, BODY);
    uint64_t on_lxr = 1, on_plain = 1;
    agree("large_get", calls_lxr.large_get(&now.lxr, base, index, &on_lxr), calls_plain.large_get(&now.plain, base, index, &on_plain));
    agree("the word of bget", on_lxr, on_plain);
}

static void call_bput(void) {
    uint32_t base = some_base(BODY), index = some_index(base, BODY);
    uint64_t word = some_word();
    agree("large_put", calls_lxr.large_put(&now.lxr, base, index, word), calls_plain.large_put(&now.plain, base, index, word));
}

static void call_bread(void) {
    uint32_t base = some_base(BODY), index = some_index(base, BODY), count = below(BUFFER + 1);
    uint64_t on_lxr[BUFFER] = { 0 }, on_plain[BUFFER] = { 0 };
    agree("large_read", calls_lxr.large_read(&now.lxr, base, index, on_lxr, count),
          calls_plain.large_read(&now.plain, base, index, on_plain, count));
    if (memcmp(on_lxr, on_plain, sizeof on_lxr) != 0) differ("bread: other words");
}

static void call_bwrite(void) {
    uint32_t base = some_base(BODY), index = some_index(base, BODY), count = below(BUFFER + 1);
    uint64_t words[BUFFER];
    for (uint32_t at = 0; at < BUFFER; at++) words[at] = some_word();
    agree("large_write", calls_lxr.large_write(&now.lxr, base, index, words, count),
          calls_plain.large_write(&now.plain, base, index, words, count));
}

static void call_same(void) {
    uint32_t left = some_register(), right = some_register(), on_lxr = 7, on_plain = 7;
    agree("same", calls_lxr.same(&now.lxr, left, right, &on_lxr), calls_plain.same(&now.plain, left, right, &on_plain));
    agree("what same says", on_lxr, on_plain);
}

static void call_move(void) {
    uint32_t dest = some_dest(), source = some_register();
    agree("move", calls_lxr.move(&now.lxr, dest, source), calls_plain.move(&now.plain, dest, source));
}

static void call_nil(void) {
    uint32_t dest = some_dest();
    agree("nil", calls_lxr.nil(&now.lxr, dest), calls_plain.nil(&now.plain, dest));
}

/* Mostly few of the last are let go of, and now and then all but few. */
static void call_registers_in_use(void) {
    uint32_t left = below(9), count = one_in(10) ? wild() : one_in(4) ? 1 + below(now.registers) : now.registers - left;
    agree("registers_in_use", calls_lxr.registers_in_use(&now.lxr, count), calls_plain.registers_in_use(&now.plain, count));
}

/* A pace: never, by the room there is, each object, or so many bytes. */
static uint64_t some_pace(void) {
    uint32_t drawn = below(4);
    return drawn == 0 ? LXR_PACE_NEVER : drawn == 1 ? LXR_PACE_ROOM : drawn == 2 ? below(50) : below(20000);
}

static void call_pause(void) { agree("pause", calls_lxr.pause(&now.lxr), calls_plain.pause(&now.plain)); }

/* Growth of the room: mostly some. */
static uint32_t some_growth(void) { return one_in(4) ? 0 : one_in(8) ? below(20000) : below(400); }

/* A collecting pause sets the room to what it leaves in use and so much more, where it grows. */
static void agree_on_room(void) {
    uint64_t room = 0, free_blocks = 0;
    agree("count", calls_lxr.count(&now.lxr, LXR_COUNT_ROOM, &room), LXR_OK);
    agree("count", calls_lxr.count(&now.lxr, LXR_COUNT_FREE_BLOCKS, &free_blocks), LXR_OK);
    uint64_t used = now.blocks - free_blocks, wanted = used + used * now.grow / 100;
    if (wanted < 64) wanted = 64;
    if (wanted > now.blocks) wanted = now.blocks;
    if (now.grow) agree("the room that a collecting pause leaves", room, wanted);
}

static void call_collect(void) {
    uint64_t on_lxr = 0, on_plain = 0;
    agree("collect", calls_lxr.collect(&now.lxr), calls_plain.collect(&now.plain));
    agree("count", calls_lxr.count(&now.lxr, LXR_COUNT_LIVE, &on_lxr), calls_plain.count(&now.plain, LXR_COUNT_LIVE, &on_plain));
    agree("the objects that are left", on_lxr, on_plain);
    agree_on_room();
}

static void call_set_pace(void) {
    uint64_t bytes = some_pace();
    agree("set_pace", calls_lxr.set_pace(&now.lxr, bytes), calls_plain.set_pace(&now.plain, bytes));
}

static void call_set_room(void) {
    uint32_t blocks = one_in(8) ? wild() : below(now.blocks + 2);
    agree("set_room", calls_lxr.set_room(&now.lxr, blocks), calls_plain.set_room(&now.plain, blocks));
}

static void call_set_grow(void) {
    uint32_t hundredths = some_growth();
    lxr_code code = calls_lxr.set_grow(&now.lxr, hundredths);
    agree("set_grow", code, calls_plain.set_grow(&now.plain, hundredths));
    if (code == LXR_OK) now.grow = hundredths;
}

/* Nothing is told of it: what comes after has to be the same as ever. Mostly after a collecting pause, which leaves most blocks free. */
static void call_trim(void) {
    if (!one_in(4)) call_collect();
    agree("trim", calls_lxr.trim(&now.lxr), calls_plain.trim(&now.plain));
}

/* Units: mostly few, so that something is left to wait. */
static uint32_t some_units(void) { return one_in(12) ? wild() : one_in(3) ? below(1000) : below(8); }

static void call_set_work(void) {
    uint32_t units = some_units();
    agree("set_work", calls_lxr.set_work(&now.lxr, units), calls_plain.set_work(&now.plain, units));
}

/* Something waits where there is more to do, and nothing where nothing waited. The objects that are there stay as many until the next pause. */
static void call_work(void) {
    uint64_t before = 0, after = 0, waited = 0, waits = 0;
    uint32_t units = some_units(), more = 7, none = 7;
    agree("count", calls_lxr.count(&now.lxr, LXR_COUNT_LIVE, &before), LXR_OK);
    agree("count", calls_lxr.count(&now.lxr, LXR_COUNT_WAITING, &waited), LXR_OK);
    agree("work", calls_lxr.work(&now.lxr, units, &more), calls_plain.work(&now.plain, units, &none));
    agree("count", calls_lxr.count(&now.lxr, LXR_COUNT_LIVE, &after), LXR_OK);
    agree("count", calls_lxr.count(&now.lxr, LXR_COUNT_WAITING, &waits), LXR_OK);
    agree("the objects that are there", after, before);
    agree("nothing waits in the plain heap", none, 0);
    agree("1 or 0", more > 1, 0);
    if (more) agree("something waits", waits > 0, 1);
    if (!waited) agree("nothing waited", waits + more, 0);
    if (!units) agree("all that waited waits", waits, waited);
}

/* ---- Several at once ---- */

/* How many: mostly few, now and then as many as a long object has, or more. */
static size_t some_count(void) { return one_in(12) ? below(LONGEST) : below(8); }

/* How many fields of an object, which are mostly there. */
static size_t some_part(uint32_t base, uint32_t first, enum field sort) {
    uint32_t end = fields_of(base, sort);
    if (one_in(30) || first > end) return some_count();
    return one_in(3) ? end - first : below(end - first + 1);
}

/* The first of several fields: sometimes of them all, so that long ones come. */
static uint32_t some_first(uint32_t base, enum field sort) { return one_in(3) ? 0 : some_index(base, sort); }

/* So many registers, which seldom have `but` among them. */
static void draw_registers(uint32_t *registers, size_t count, uint32_t but) {
    bool wild_ones = one_in(20);
    for (size_t at = 0; at < count; at++) {
        registers[at] = wild_ones && one_in(20) ? wild() : any_register();
        if (registers[at] == but && !one_in(100)) registers[at] = (but + 1) % now.registers;
    }
}

static void draw_words(uint64_t *words, size_t count) {
    for (size_t at = 0; at < count; at++) words[at] = some_word();
}

static void call_new_with(void) {
    static uint32_t sources[LONGEST];
    static uint64_t data[LONGEST];
    uint32_t dest = some_dest();
    size_t refs = some_count(), words = some_count();
    draw_registers(sources, refs, dest);
    draw_words(data, words);
    lxr_code code = calls_lxr.new_with(&now.lxr, dest, sources, refs, data, words);
    if (code == LXR_E_FULL)
        may_be_full((uint32_t)refs, (uint32_t)words, 0);
    else
        agree("new_with", code, calls_plain.new_with(&now.plain, dest, sources, refs, data, words));
}

static void call_get_many(void) {
    uint32_t base = some_base(WORDS), first = some_first(base, WORDS);
    size_t count = some_part(base, first, WORDS);
    uint64_t on_lxr[LONGEST] = { 0 }, on_plain[LONGEST] = { 0 };
    agree("get_many", calls_lxr.get_many(&now.lxr, base, first, on_lxr, count),
          calls_plain.get_many(&now.plain, base, first, on_plain, count));
    if (memcmp(on_lxr, on_plain, sizeof on_lxr) != 0) differ("get_many: other words");
}

static void call_put_many(void) {
    uint32_t base = some_base(WORDS), first = some_first(base, WORDS);
    size_t count = some_part(base, first, WORDS);
    uint64_t words[LONGEST];
    draw_words(words, count);
    agree("put_many", calls_lxr.put_many(&now.lxr, base, first, words, count), calls_plain.put_many(&now.plain, base, first, words, count));
}

/* Register 0 is seldom among those that are loaded. The base is sometimes the last. */
static void call_load_many(void) {
    uint32_t base = some_base(REFS), first = some_first(base, REFS), registers[LONGEST];
    size_t count = some_part(base, first, REFS);
    draw_registers(registers, count, base);
    for (size_t at = 0; at < count; at++)
        if (registers[at] == 0 && !one_in(50)) registers[at] = base == 1 ? 2 : 1;
    if (count && one_in(10)) registers[count - 1] = base;
    agree("load_many", calls_lxr.load_many(&now.lxr, base, first, registers, count),
          calls_plain.load_many(&now.plain, base, first, registers, count));
}

static void call_store_many(void) {
    uint32_t base = some_base(REFS), first = some_first(base, REFS), registers[LONGEST];
    size_t count = some_part(base, first, REFS);
    draw_registers(registers, count, now.registers);
    agree("store_many", calls_lxr.store_many(&now.lxr, base, first, registers, count),
          calls_plain.store_many(&now.plain, base, first, registers, count));
}

/* Keeps two objects of a thousand references and stores to all of them: the second time the log is full before its end. */
static void call_long_stores(void) {
    uint32_t left = 1 + below(now.registers - 1), right = 1 + below(now.registers - 1), registers[LONGEST];
    draw_registers(registers, LXR_MOST_REFS, now.registers);
    for (int news = 0; news < 2; news++) {
        lxr_code code = calls_lxr.new(&now.lxr, news ? left : right, LXR_MOST_REFS, 1);
        if (code == LXR_E_FULL) {
            may_be_full(LXR_MOST_REFS, 1, 0);
            return;
        }
        agree("new", code, calls_plain.new(&now.plain, news ? left : right, LXR_MOST_REFS, 1));
    }
    call_pause();
    for (int stores = 0; stores < 3; stores++) {
        uint32_t base = stores & 1 ? left : right, count = 1 + below(LXR_MOST_REFS);
        agree("store_many", calls_lxr.store_many(&now.lxr, base, LXR_MOST_REFS - count, registers, count),
              calls_plain.store_many(&now.plain, base, LXR_MOST_REFS - count, registers, count));
    }
}

/* An operation by the shares of the calls that it is one of. Its base is chosen by what registers hold before the first. */
static lxr_operation some_operation(void) {
    lxr_operation it = { one_in(400) ? wild() : below(LXR_OP_IS_NIL + 1), wild(), wild(), wild(), some_word() };
    it.a = some_register();
    switch (it.op) {
    case LXR_OP_NEW: it.a = some_dest(), it.b = one_in(300) ? wild() : below(6), it.c = below(6); break;
    case LXR_OP_LOAD: it.a = some_dest(), it.b = some_base(REFS), it.c = some_index(it.b, REFS); break;
    case LXR_OP_STORE: it.a = some_base(REFS), it.b = some_index(it.a, REFS), it.c = some_register(); break;
    case LXR_OP_GET:
    case LXR_OP_PUT: it.a = some_base(WORDS), it.b = some_index(it.a, WORDS); break;
    case LXR_OP_SAME: it.b = some_register(); break;
    case LXR_OP_MOVE: it.a = some_dest(), it.b = some_register(); break;
    case LXR_OP_NIL: it.a = some_dest(); break;
    default: break;
    }
    return it;
}

/* Where the archive says that it is full, the other heap does what comes before that. */
static void call_apply(void) {
    lxr_operation on_lxr[OPERATIONS], on_plain[OPERATIONS];
    size_t count = below(OPERATIONS + 1), done_on_lxr = 99, done_on_plain = 99;
    for (size_t at = 0; at < count; at++) on_plain[at] = on_lxr[at] = some_operation();
    lxr_code code = calls_lxr.apply(&now.lxr, on_lxr, count, &done_on_lxr);
    lxr_code wanted = calls_plain.apply(&now.plain, on_plain, code == LXR_E_FULL ? done_on_lxr : count, &done_on_plain);
    agree("the operations that are done", done_on_lxr, done_on_plain);
    agree("apply", code == LXR_E_FULL ? LXR_OK : code, wanted);
    if (code == LXR_E_FULL) may_be_full(on_lxr[done_on_lxr].b, on_lxr[done_on_lxr].c, 0);
    for (size_t at = 0; at < count; at++) agree("the word of an operation", on_lxr[at].word, on_plain[at].word);
}

/* ---- Arrays and words of any length ---- */

static uint32_t some_length(void) {
    static const uint32_t borders[] = { 0, 1, 1022, 1023, 1024, 2046, 2047, 4095, 4096 };
    return one_in(200) ? wild() : one_in(2) ? borders[below(sizeof borders / sizeof *borders)] : one_in(3) ? below(9000) : below(20);
}

static void call_array_new(void) {
    uint32_t dest = some_dest(), length = some_length();
    lxr_code code = calls_lxr.array_new(&now.lxr, dest, length);
    if (code == LXR_E_FULL && length <= LXR_MOST_REFS)
        may_be_full(length, 0, 0);
    else if (code == LXR_E_FULL)
        may_be_full_beside(length / LXR_MOST_REFS + 1, LXR_MOST_REFS, 0, 0);
    else
        agree("array_new", code, calls_plain.array_new(&now.plain, dest, length));
}

static void call_words_new(void) {
    uint32_t dest = some_dest(), length = some_length(), blocks = length > LXR_MOST_WORDS ? length / LXR_BLOCK_WORDS + 1 : 0;
    lxr_code code = calls_lxr.words_new(&now.lxr, dest, length);
    if (code == LXR_E_FULL)
        may_be_full(0, blocks ? 0 : length, blocks);
    else
        agree("words_new", code, calls_plain.words_new(&now.plain, dest, length));
}

/* How many elements or words the object in a register has as an array or as words; 0 where it holds none. */
static uint32_t length_of(uint32_t base, bool words) {
    uint32_t length = 0;
    lxr_code code = words ? calls_plain.words_length(&now.plain, base, &length) : calls_plain.array_length(&now.plain, base, &length);
    return code == LXR_OK ? length : 0;
}

/* A register, mostly one whose object has such fields; half of the time one with many of them. */
static uint32_t some_long_base(bool words) {
    uint32_t base = some_register(), wanted = one_in(2) ? LXR_MOST_REFS + 1 : 1;
    for (int tries = 0; tries < 12 && !one_in(30) && length_of(base, words) < wanted; tries++) base = any_register();
    return base;
}

/* An index of so many: often one at the border of two parts. */
static uint32_t index_below(uint32_t length) {
    if (length == 0 || one_in(60)) return wild();
    uint32_t border = LXR_MOST_REFS * below(4) + below(3);
    return one_in(3) && border > 0 && border - 1 < length ? border - 1 : one_in(30) ? length : below(length);
}

/* How many from an index on: mostly few, and seldom more than there are. */
static uint32_t count_from(uint32_t first, uint32_t length) {
    if (one_in(40) || first > length) return one_in(2) ? wild() : below(5);
    return one_in(4) ? length - first : below((one_in(2) && length - first > 30 ? 30 : length - first) + 1);
}

static void call_length(void) {
    uint32_t base = some_register(), on_lxr = 7, on_plain = 7;
    agree("array_length", calls_lxr.array_length(&now.lxr, base, &on_lxr), calls_plain.array_length(&now.plain, base, &on_plain));
    agree("the length of an array", on_lxr, on_plain);
    agree("words_length", calls_lxr.words_length(&now.lxr, base, &on_lxr), calls_plain.words_length(&now.plain, base, &on_plain));
    agree("the length of words", on_lxr, on_plain);
}

static void call_array_load(void) {
    uint32_t base = some_long_base(false), index = index_below(length_of(base, false)), dest = some_dest();
    agree("array_load", calls_lxr.array_load(&now.lxr, dest, base, index), calls_plain.array_load(&now.plain, dest, base, index));
}

static void call_array_store(void) {
    uint32_t base = some_long_base(false), index = index_below(length_of(base, false)), source = some_register();
    agree("array_store", calls_lxr.array_store(&now.lxr, base, index, source), calls_plain.array_store(&now.plain, base, index, source));
}

static void call_array_fill(void) {
    uint32_t base = some_long_base(false), length = length_of(base, false), source = some_register();
    uint32_t first = index_below(length), count = count_from(first, length);
    agree("array_fill", calls_lxr.array_fill(&now.lxr, base, first, count, source),
          calls_plain.array_fill(&now.plain, base, first, count, source));
}

/* Half of them within one array, and these mostly to a place nearby. */
static void call_array_copy(void) {
    uint32_t to = some_long_base(false), from = one_in(2) ? to : some_long_base(false);
    uint32_t room = length_of(to, false), length = length_of(from, false);
    uint32_t first = index_below(length), at = one_in(3) ? index_below(room) : first + 2 - below(5);
    uint32_t count = count_from(first > at ? first : at, room < length ? room : length);
    agree("array_copy", calls_lxr.array_copy(&now.lxr, to, at, from, first, count),
          calls_plain.array_copy(&now.plain, to, at, from, first, count));
}

static void call_words_get(void) {
    uint32_t base = some_long_base(true), index = index_below(length_of(base, true));
    uint64_t on_lxr = 1, on_plain = 1;
    agree("words_get", calls_lxr.words_get(&now.lxr, base, index, &on_lxr), calls_plain.words_get(&now.plain, base, index, &on_plain));
    agree("the word of words_get", on_lxr, on_plain);
}

static void call_words_put(void) {
    uint32_t base = some_long_base(true), index = index_below(length_of(base, true));
    uint64_t word = some_word();
    agree("words_put", calls_lxr.words_put(&now.lxr, base, index, word), calls_plain.words_put(&now.plain, base, index, word));
}

static void call_words_read(void) {
    static uint64_t on_lxr[LONGEST], on_plain[LONGEST];
    uint32_t base = some_long_base(true), length = length_of(base, true), first = index_below(length), count = count_from(first, length);
    if (count > LONGEST && first <= length && count <= length - first) count = LONGEST;
    agree("words_read", calls_lxr.words_read(&now.lxr, base, first, on_lxr, count),
          calls_plain.words_read(&now.plain, base, first, on_plain, count));
    if (memcmp(on_lxr, on_plain, sizeof on_lxr) != 0) differ("words_read: other words");
}

static void call_words_write(void) {
    static uint64_t words[LONGEST];
    uint32_t base = some_long_base(true), length = length_of(base, true), first = index_below(length), count = count_from(first, length);
    if (count > LONGEST && first <= length && count <= length - first) count = LONGEST;
    draw_words(words, LONGEST);
    agree("words_write", calls_lxr.words_write(&now.lxr, base, first, words, count),
          calls_plain.words_write(&now.plain, base, first, words, count));
}

/* ---- Rounds ---- */

/* Whether all registers hold the like on both heaps. */
static void agree_on_registers(void) {
    for (uint32_t at = 0; at < now.registers; at++) {
        uint32_t on_lxr[5] = { 0 }, on_plain[5] = { 0 }, with = any_register();
        on_lxr[0] = calls_lxr.shape(&now.lxr, at, &on_lxr[1], &on_lxr[2], &on_lxr[3]);
        on_plain[0] = calls_plain.shape(&now.plain, at, &on_plain[1], &on_plain[2], &on_plain[3]);
        for (size_t part = 0; part < 4; part++) agree("shape", on_lxr[part], on_plain[part]);
        agree("same", calls_lxr.same(&now.lxr, at, with, &on_lxr[4]), calls_plain.same(&now.plain, at, with, &on_plain[4]));
        agree("what same says", on_lxr[4], on_plain[4]);
        agree("is_nil", calls_lxr.is_nil(&now.lxr, at, &on_lxr[4]), calls_plain.is_nil(&now.plain, at, &on_plain[4]));
        agree("what is_nil says", on_lxr[4], on_plain[4]);
    }
}

/* Each call with how often it is made, of all their sum. */
static const struct {
    void (*call)(void);
    uint32_t share;
} kinds[] = {
    { call_new, 200 },       { call_load, 200 },        { call_store, 250 },
    { call_get, 80 },        { call_put, 80 },          { call_move, 40 },
    { call_nil, 60 },        { call_same, 20 },         { call_big, 20 },
    { call_bget, 20 },       { call_bput, 20 },         { call_bread, 10 },
    { call_bwrite, 10 },     { call_new_with, 60 },     { call_get_many, 30 },
    { call_put_many, 30 },   { call_load_many, 30 },    { call_store_many, 40 },
    { call_apply, 30 },      { call_long_stores, 1 },   { call_pause, 4 },
    { call_collect, 2 },     { call_set_pace, 1 },      { call_set_room, 2 },
    { call_set_grow, 1 },    { agree_on_registers, 2 }, { call_registers_in_use, 6 },
    { call_array_new, 20 },  { call_words_new, 20 },    { call_length, 10 },
    { call_array_load, 40 }, { call_array_store, 40 },  { call_array_fill, 6 },
    { call_array_copy, 12 }, { call_words_get, 20 },    { call_words_put, 20 },
    { call_words_read, 10 }, { call_words_write, 10 },  { call_trim, 1 },
    { call_work, 20 },       { call_set_work, 1 },
};

static void make_call(void) {
    uint32_t all = 0, at = 0;
    for (size_t kind = 0; kind < sizeof kinds / sizeof *kinds; kind++) all += kinds[kind].share;
    for (uint32_t drawn = below(all); drawn >= kinds[at].share; at++) drawn -= kinds[at].share;
    kinds[at].call();
    now.calls++;
}

static void play_round(uint64_t seed) {
    static const uint32_t registers[] = { 0, LXR_REGISTERS, 64, LXR_MOST_REGISTERS };
    uint64_t pauses = 0;
    now.seed = state = seed;
    now.calls = 0;
    now.blocks = one_in(3) ? 1 + below(3) : one_in(4) ? 1 + below(3000) : 1 + below(64);
    now.body_blocks = one_in(3) ? 1 + below(6) : 1 + below(200);
    uint32_t calls = 1 + below(CALLS);
    lxr_settings settings = LXR_SETTINGS(now.blocks, now.body_blocks);
    settings.pace = some_pace();
    settings.room = below(now.blocks + 1);
    settings.grow = now.grow = below(400);
    settings.registers = registers[below(4)];
    now.registers = settings.registers ? settings.registers : LXR_REGISTERS;
    agree("open", calls_lxr.open(&now.lxr, &settings), calls_plain.open(&now.plain, &settings));
    while (now.calls < calls) make_call();
    agree_on_registers();
    call_collect();
    agree("count", calls_lxr.count(&now.lxr, LXR_COUNT_PAUSES, &pauses), LXR_OK);
    agree("close", calls_lxr.close(&now.lxr), calls_plain.close(&now.plain));
    sums.rounds++;
    sums.calls += now.calls;
    sums.pauses += pauses;
}

int main(int count, char **words) {
    if (count < 2 || count > 3) {
        fputs("usage: random SECONDS [SEED]\n", stderr);
        return 2;
    }
    time_t end = time(NULL) + strtol(words[1], NULL, 10);
    uint64_t seed = count == 3 ? strtoull(words[2], NULL, 10) : 1;
    do play_round(seed++);
    while (time(NULL) < end);
    printf("random: %" PRIu64 " rounds, %" PRIu64 " calls, %" PRIu64 " times full, ", sums.rounds, sums.calls, sums.full);
    printf("%" PRIu64 " pauses\n", sums.pauses);
    return 0;
}
