/*
 * threads_random.c: random hosts of lxr_threads.h, with 1 to 255 threads. SPDX: MIT OR Apache-2.0
 *
 * usage: threads_random SECONDS [SEED]     rounds for so long, each from a number of its own on; with 0 seconds one round, from SEED
 *
 * A round opens a heap of 1 to 3,000 blocks, of which a trace evacuates up to an eighth, for 1 to 255 mutators with 16 to 256 registers each,
 * and starts threads: mostly up to sixteen, and rarely more. They enter and leave it, rest, poll, ask for pauses, have memory of free blocks go
 * back, and make some thousand operations each, or as many together where they are more. What only one thread holds is kept beside the heap as a plain graph, and each
 * code and word has to be that of the graph. What threads share has to keep what they agree on: tokens that are swapped stay as many as they
 * were, and one thread or field holds each; adds to a counter lose nothing; and an object that a thread finds is one that was made whole
 * before it was stored.
 */
#include "../lxr_threads.h"

#include <inttypes.h>
#include <pthread.h>
#include <stdarg.h>
#include <stdbool.h>
#include <stdio.h>
#include <stdlib.h>
#include <string.h>
#include <time.h>

/* Registers: the world, a token, what is shared, a published object; from OWN on a thread's own objects. The last is always nil. */
enum { WORLD, TOKEN, COUNTER, FOUND, OWN };

/* References of the world: places for tokens, the counter, and a published object of each thread up to the last place. */
enum { TOKEN_PLACES = 8, COUNTER_PLACE = 8, PUBLISHED = 16, PUBLISHERS = LXR_WORLD_REFS - PUBLISHED };

/* Where names are to be renewed early, as the mock of the archive can be told, pauses come often enough for it. */
#ifdef LXR_OPERATIONS
enum { RENEWS = 1 };
#else
enum { RENEWS = 0 };
#endif

enum { COUNTER_WORDS = 4, MOST_FIELDS = 6, OPERATIONS = 4000, SEVERAL = 8, FEW = 16, MOST_BLOCKS = 3000 };

/* An object of the graph beside the heap. */
struct node {
    struct node *older;
    uint32_t refs, words;
    struct node *ref[MOST_FIELDS];
    uint64_t word[MOST_FIELDS];
};

/* A thread of the round. */
struct player {
    uint32_t number;
    uint64_t dice, adds[COUNTER_WORDS], least[COUNTER_WORDS], published, seen[PUBLISHERS];
    uint64_t token; /* the token that it holds, or 0 */
    struct node *registers[LXR_MOST_REGISTERS], *newest;
    lxr_mutator *mutator;
    uint64_t operations, fulls, pauses;
};

static struct {
    uint64_t seed;
    lxr_shared_heap *heap;
    uint32_t blocks, players, tokens, registers;
    struct player player[LXR_MOST_MUTATORS];
} now;

static struct { uint64_t rounds, operations, fulls, pauses; } sums;

static void differ(const struct player *player, const char *form, ...) {
    va_list parts;
    va_start(parts, form);
    fprintf(stderr, "threads_random: seed %" PRIu64 ", thread %" PRIu32 ", operation %" PRIu64 ": ", now.seed, player->number,
            player->operations);
    vfprintf(stderr, form, parts);
    fputc('\n', stderr);
    va_end(parts);
    _Exit(1);
}

static void agree(const struct player *player, const char *what, uint64_t found, uint64_t wanted) {
    if (found != wanted) differ(player, "%s: %" PRIu64 ", and %" PRIu64 " is wanted", what, found, wanted);
}

static void done(const struct player *player, const char *what, lxr_code code) {
    if (code != LXR_OK) differ(player, "%s: %s", what, lxr_message(code));
}

/* ---- Numbers ---- */

static uint64_t draw(uint64_t *dice) {
    *dice = *dice * 6364136223846793005u + 1442695040888963407u;
    return *dice >> 33;
}

static uint32_t below(struct player *player, uint32_t end) { return (uint32_t)(draw(&player->dice) % end); }

static bool one_in(struct player *player, uint32_t times) { return below(player, times) == 0; }

/* The register that is always nil: the last. */
static uint32_t nil_register(void) { return now.registers - 1; }

/* A register of the thread's own, mostly one of the first; rarely one that isn't there. */
static uint32_t own(struct player *player) {
    if (one_in(player, 200)) return now.registers + below(player, 3) * 1000;
    return OWN + below(player, (one_in(player, 5) ? nil_register() : LXR_REGISTERS - 1) - OWN);
}

/* What an object that a thread publishes has in its second word, by what the first has. */
static uint64_t seal(uint64_t owner, uint64_t word) { return (word ^ (owner << 56)) * 0x9E3779B97F4A7C15u; }

static void nap(struct player *player) {
    struct timespec time = { 0, (long)below(player, 200) * 1000 };
    nanosleep(&time, NULL);
}

/* ---- What is a thread's own ---- */

static struct node *make_node(struct player *player, uint32_t refs, uint32_t words) {
    struct node *made = calloc(1, sizeof *made);
    if (!made) differ(player, "no memory for the test");
    made->refs = refs;
    made->words = words;
    made->older = player->newest;
    player->newest = made;
    return made;
}

static void drop_own(struct player *player) {
    while (player->newest) {
        struct node *it = player->newest;
        player->newest = it->older;
        free(it);
    }
    memset(player->registers, 0, sizeof player->registers);
}

/* Makes room in a heap that is full. */
static void let_go(struct player *player) {
    player->fulls++;
    for (uint32_t at = OWN; at < nil_register(); at++) {
        if (one_in(player, 3)) continue;
        done(player, "nil", lxr_mutator_nil(player->mutator, at));
        player->registers[at] = NULL;
    }
}

static void play_new(struct player *player) {
    uint32_t dest = own(player), refs = below(player, MOST_FIELDS + 1), words = below(player, MOST_FIELDS + 1);
    bool wild = one_in(player, 300);
    lxr_code code = lxr_mutator_new(player->mutator, dest, wild ? 1024 + refs : refs, words);
    uint32_t wanted = dest >= now.registers ? LXR_E_REGISTER : wild ? LXR_E_SIZE : LXR_OK;
    if (code == LXR_E_FULL && wanted == LXR_OK) {
        let_go(player);
        return;
    }
    agree(player, "new", code, wanted);
    if (code == LXR_OK) player->registers[dest] = make_node(player, refs, words);
}

/* The code that an operation has whose base and field are these. */
static lxr_code field_code(const struct player *player, uint32_t base, uint32_t index, bool words) {
    const struct node *node = player->registers[base];
    if (!node) return LXR_E_NIL;
    return index < (words ? node->words : node->refs) ? LXR_OK : LXR_E_INDEX;
}

static void play_load(struct player *player) {
    uint32_t dest = own(player), base = own(player), index = below(player, MOST_FIELDS);
    bool fits = dest < now.registers && base < now.registers;
    uint32_t wanted = fits ? field_code(player, base, index, false) : LXR_E_REGISTER;
    agree(player, "load", lxr_mutator_load(player->mutator, dest, base, index), wanted);
    if (wanted == LXR_OK) player->registers[dest] = player->registers[base]->ref[index];
}

static void play_store(struct player *player) {
    uint32_t base = own(player), index = below(player, MOST_FIELDS), source = own(player);
    bool fits = source < now.registers && base < now.registers;
    uint32_t wanted = fits ? field_code(player, base, index, false) : LXR_E_REGISTER;
    agree(player, "store", lxr_mutator_store(player->mutator, base, index, source), wanted);
    if (wanted == LXR_OK) player->registers[base]->ref[index] = player->registers[source];
}

static void play_swap(struct player *player) {
    uint32_t dest = own(player), base = own(player), index = below(player, MOST_FIELDS), source = own(player);
    bool fits = dest < now.registers && source < now.registers && base < now.registers;
    uint32_t wanted = fits ? field_code(player, base, index, false) : LXR_E_REGISTER;
    agree(player, "swap", lxr_mutator_swap(player->mutator, dest, base, index, source), wanted);
    if (wanted != LXR_OK) return;
    struct node *it = player->registers[base], *old = it->ref[index];
    it->ref[index] = player->registers[source];
    player->registers[dest] = old;
}

static void play_word(struct player *player) {
    uint32_t base = own(player), index = below(player, MOST_FIELDS), which = below(player, 3);
    uint64_t word = draw(&player->dice), old = 0xA5A5;
    uint32_t wanted = base < now.registers ? field_code(player, base, index, true) : LXR_E_REGISTER;
    lxr_code code = which == 0   ? lxr_mutator_get(player->mutator, base, index, &old)
                    : which == 1 ? lxr_mutator_add(player->mutator, base, index, word, &old)
                                 : lxr_mutator_put(player->mutator, base, index, word);
    agree(player, "get, add or put", code, wanted);
    uint64_t *there = wanted == LXR_OK ? &player->registers[base]->word[index] : NULL;
    agree(player, "the word of get or add", old, there && which < 2 ? *there : 0xA5A5);
    if (there && which == 1) *there += word;
    if (there && which == 2) *there = word;
}

/* Few registers are in use from here on; rarely a number that there isn't. */
static void play_in_use(struct player *player) {
    uint32_t count = one_in(player, 10) ? below(player, 2) * (now.registers + 1) : OWN + below(player, now.registers + 1 - OWN);
    bool fits = count != 0 && count <= now.registers;
    agree(player, "registers_in_use", lxr_mutator_registers_in_use(player->mutator, count), fits ? LXR_OK : LXR_E_REGISTER);
    for (uint32_t at = count; fits && at < now.registers; at++) player->registers[at] = NULL;
}

static void play_registers(struct player *player) {
    uint32_t dest = own(player), source = own(player), same = 7;
    bool fits = dest < now.registers && source < now.registers;
    switch (below(player, 3)) {
    case 0:
        agree(player, "move", lxr_mutator_move(player->mutator, dest, source), fits ? LXR_OK : LXR_E_REGISTER);
        if (fits) player->registers[dest] = player->registers[source];
        break;
    case 1:
        agree(player, "nil", lxr_mutator_nil(player->mutator, dest), dest < now.registers ? LXR_OK : LXR_E_REGISTER);
        if (dest < now.registers) player->registers[dest] = NULL;
        break;
    default:
        agree(player, "same", lxr_mutator_same(player->mutator, dest, source, &same), fits ? LXR_OK : LXR_E_REGISTER);
        agree(player, "same", same, fits ? player->registers[dest] == player->registers[source] : 7);
    }
}

/* ---- Several at once ---- */

/* Draws registers of the thread's own; whether they are all there. */
static bool draw_registers(struct player *player, uint32_t *registers, size_t count) {
    bool there = true;
    for (size_t at = 0; at < count; at++) {
        registers[at] = own(player);
        there = there && registers[at] < now.registers;
    }
    return there;
}

static bool is_among(const uint32_t *registers, size_t count, uint32_t it) {
    bool found = false;
    for (size_t at = 0; at < count; at++) found = found || registers[at] == it;
    return found;
}

static void play_new_with(struct player *player) {
    uint32_t dest = own(player), sources[MOST_FIELDS];
    size_t refs = below(player, MOST_FIELDS + 1), words = below(player, MOST_FIELDS + 1);
    uint64_t data[MOST_FIELDS] = { draw(&player->dice), 1, 2, 3, 4, draw(&player->dice) };
    bool there = draw_registers(player, sources, refs) && dest < now.registers && !is_among(sources, refs, dest);
    lxr_code code = lxr_mutator_new_with(player->mutator, dest, sources, refs, data, words);
    if (code == LXR_E_FULL && there) {
        let_go(player);
        return;
    }
    agree(player, "new_with", code, there ? LXR_OK : LXR_E_REGISTER);
    if (!there) return;
    struct node *made = make_node(player, (uint32_t)refs, (uint32_t)words);
    for (size_t at = 0; at < refs; at++) made->ref[at] = player->registers[sources[at]];
    memcpy(made->word, data, words * sizeof *data);
    player->registers[dest] = made;
}

/* Of several words those before the first that isn't there are read or written. */
static void play_words(struct player *player) {
    uint32_t base = own(player), first = below(player, MOST_FIELDS);
    size_t count = below(player, MOST_FIELDS + 1);
    uint64_t found[MOST_FIELDS] = { 0 }, wanted[MOST_FIELDS] = { 0 };
    bool puts = one_in(player, 2);
    lxr_code expected = base < now.registers ? LXR_OK : LXR_E_REGISTER;
    for (size_t at = 0; at < count; at++) wanted[at] = found[at] = draw(&player->dice);
    lxr_code code = puts ? lxr_mutator_put_many(player->mutator, base, first, wanted, count)
                         : lxr_mutator_get_many(player->mutator, base, first, found, count);
    for (uint32_t at = 0; at < count && expected == LXR_OK; at++) {
        expected = field_code(player, base, first + at, true);
        if (expected != LXR_OK) break;
        uint64_t *there = &player->registers[base]->word[first + at];
        if (puts) *there = wanted[at];
        wanted[at] = *there;
    }
    agree(player, "get_many or put_many", code, expected);
    if (!puts && memcmp(found, wanted, sizeof found) != 0) differ(player, "get_many: other words");
}

static void play_refs(struct player *player) {
    uint32_t base = own(player), first = below(player, MOST_FIELDS), registers[MOST_FIELDS];
    size_t count = below(player, MOST_FIELDS + 1);
    bool loads = one_in(player, 2), there = draw_registers(player, registers, count) && base < now.registers;
    lxr_code code = loads ? lxr_mutator_load_many(player->mutator, base, first, registers, count)
                          : lxr_mutator_store_many(player->mutator, base, first, registers, count);
    if (loads && count && is_among(registers, count - 1, base)) there = false;
    lxr_code expected = there ? LXR_OK : LXR_E_REGISTER;
    for (uint32_t at = 0; at < count && expected == LXR_OK; at++) {
        expected = field_code(player, base, first + at, false);
        if (expected != LXR_OK) break;
        struct node **ref = &player->registers[base]->ref[first + at], **held = &player->registers[registers[at]];
        *(loads ? held : ref) = *(loads ? ref : held);
    }
    agree(player, "load_many or store_many", code, expected);
}

/* An operation on the thread's own registers. */
static lxr_operation draw_operation(struct player *player) {
    lxr_operation it = { below(player, LXR_OP_ADD + 1), own(player), below(player, MOST_FIELDS), below(player, MOST_FIELDS),
                         draw(&player->dice) };
    switch (it.op) {
    case LXR_OP_SWAP: it.word = own(player); /* fallthrough */
    case LXR_OP_LOAD:
    case LXR_OP_SAME:
    case LXR_OP_MOVE: it.b = own(player); break;
    case LXR_OP_STORE: it.c = own(player); break;
    default: break;
    }
    return it;
}

/* Whether all registers of an operation are there. */
static bool is_there(const lxr_operation *it) {
    if (it->a >= now.registers || it->b >= now.registers || it->c >= now.registers) return false;
    return it->op != LXR_OP_SWAP || it->word < now.registers;
}

/* Does an operation on the graph: its code, and what it tells. */
static lxr_code do_on_graph(struct player *player, lxr_operation *it) {
    struct node **of = player->registers, *old = NULL;
    bool words = it->op == LXR_OP_GET || it->op == LXR_OP_PUT || it->op == LXR_OP_ADD;
    bool swaps = it->op == LXR_OP_SWAP, loads = it->op == LXR_OP_LOAD || swaps;
    if (words || loads || it->op == LXR_OP_STORE) {
        lxr_code code = loads ? field_code(player, it->b, it->c, false) : field_code(player, it->a, it->b, words);
        if (code != LXR_OK) return code;
    }
    uint64_t *word = words ? &of[it->a]->word[it->b] : NULL, before = words ? *word : 0;
    switch (it->op) {
    case LXR_OP_NEW: of[it->a] = make_node(player, it->b, it->c); break;
    case LXR_OP_STORE: of[it->a]->ref[it->b] = of[it->c]; break;
    case LXR_OP_SWAP:
    case LXR_OP_LOAD:
        old = of[it->b]->ref[it->c];
        if (swaps) of[it->b]->ref[it->c] = of[it->word];
        of[it->a] = old;
        break;
    case LXR_OP_PUT: *word = it->word; break;
    case LXR_OP_ADD: *word += it->word; /* fallthrough */
    case LXR_OP_GET: it->word = before; break;
    case LXR_OP_SAME: it->word = of[it->a] == of[it->b]; break;
    case LXR_OP_MOVE: of[it->a] = of[it->b]; break;
    case LXR_OP_NIL: of[it->a] = NULL; break;
    default: it->word = of[it->a] == NULL;
    }
    return LXR_OK;
}

static void play_apply(struct player *player) {
    lxr_operation found[SEVERAL], wanted[SEVERAL];
    size_t count = below(player, SEVERAL + 1), done_of = 99, at = 0;
    lxr_code expected = LXR_OK;
    for (size_t it = 0; it < count; it++) {
        found[it] = wanted[it] = draw_operation(player);
        if (!is_there(&wanted[it])) expected = LXR_E_REGISTER;
    }
    lxr_code code = lxr_mutator_apply(player->mutator, found, count, &done_of);
    if (code == LXR_E_FULL && done_of < count && found[done_of].op == LXR_OP_NEW) count = done_of;
    while (expected == LXR_OK && at < count) {
        expected = do_on_graph(player, &wanted[at]);
        at += expected == LXR_OK;
    }
    agree(player, "the operations that are done", done_of, at);
    agree(player, "apply", code == LXR_E_FULL ? LXR_OK : code, expected);
    for (size_t it = 0; it < count; it++) agree(player, "the word of an operation", found[it].word, wanted[it].word);
    if (code == LXR_E_FULL) let_go(player);
}

static void play_several(struct player *player) {
    switch (below(player, 4)) {
    case 0: play_new_with(player); break;
    case 1: play_words(player); break;
    case 2: play_refs(player); break;
    default: play_apply(player);
    }
}

/* ---- What threads share ---- */

/* The token in the thread's register for it is the one that it holds. */
static void see_token(struct player *player) {
    uint64_t word = 0;
    lxr_code code = lxr_mutator_get(player->mutator, TOKEN, 0, &word);
    if (code != LXR_E_NIL) done(player, "get of a token", code);
    player->token = word;
    if (word > now.tokens) differ(player, "there is no token %" PRIu64, word);
}

static void play_token(struct player *player) {
    uint64_t word = 0, before = player->token;
    if (before) done(player, "get of a token", lxr_mutator_get(player->mutator, TOKEN, 0, &word));
    agree(player, "the token that is held", word, before);
    done(player, "swap of a token", lxr_mutator_swap(player->mutator, TOKEN, WORLD, below(player, TOKEN_PLACES), TOKEN));
    see_token(player);
}

/* Puts the token back, into a place that may have one; then that is the one that is held. */
static void bring_token(struct player *player) {
    for (uint32_t at = 0; player->token; at = (at + 1) % TOKEN_PLACES) {
        done(player, "swap of a token", lxr_mutator_swap(player->mutator, TOKEN, WORLD, at, TOKEN));
        see_token(player);
    }
}

static void play_counter(struct player *player) {
    uint32_t at = below(player, COUNTER_WORDS);
    uint64_t by = below(player, 100) + 1, old = 0;
    done(player, "load of the counter", lxr_mutator_load(player->mutator, COUNTER, WORLD, COUNTER_PLACE));
    done(player, "add to the counter", lxr_mutator_add(player->mutator, COUNTER, at, by, &old));
    if (old < player->least[at]) differ(player, "a counter fell");
    player->least[at] = old + by;
    player->adds[at] += by;
}

static void publish(struct player *player) {
    const uint32_t source = nil_register();
    uint64_t word = ++player->published, words[2] = { word, seal(player->number, word) };
    bool whole = one_in(player, 2);
    lxr_code code =
        whole ? lxr_mutator_new_with(player->mutator, FOUND, &source, 1, words, 2) : lxr_mutator_new(player->mutator, FOUND, 1, 2);
    if (code == LXR_E_FULL) {
        let_go(player);
        return;
    }
    done(player, "new of an object to publish", code);
    if (!whole) done(player, "put", lxr_mutator_put_many(player->mutator, FOUND, 0, words, 2));
    done(player, "store", lxr_mutator_store(player->mutator, WORLD, PUBLISHED + player->number, FOUND));
    if (one_in(player, 2)) done(player, "nil", lxr_mutator_nil(player->mutator, FOUND));
}

static void find_published(struct player *player) {
    uint32_t owner = below(player, now.players < PUBLISHERS ? now.players : PUBLISHERS);
    uint64_t word = 0, sealed = 0;
    done(player, "load", lxr_mutator_load(player->mutator, FOUND, WORLD, PUBLISHED + owner));
    lxr_code code = lxr_mutator_get(player->mutator, FOUND, 0, &word);
    if (code == LXR_E_NIL && player->seen[owner] == 0) return;
    done(player, "get of a published object", code);
    done(player, "get of a published object", lxr_mutator_get(player->mutator, FOUND, 1, &sealed));
    agree(player, "what a published object has", sealed, seal(owner, word));
    if (word < player->seen[owner]) differ(player, "an older object of thread %" PRIu32 " is found", owner);
    player->seen[owner] = word;
}

/* ---- Threads that come and go ---- */

static void enter(struct player *player) {
    lxr_code code = LXR_E_NUMBER;
    while (code == LXR_E_NUMBER) {
        code = lxr_mutator_enter(now.heap, &player->mutator);
        if (code == LXR_E_NUMBER) nap(player);
    }
    done(player, "enter", code);
    uint32_t same = 0;
    for (uint32_t at = 1; at < now.registers; at++) {
        done(player, "same", lxr_mutator_same(player->mutator, at, nil_register(), &same));
        agree(player, "a register of a thread that has entered", same, 1);
    }
    done(player, "same", lxr_mutator_same(player->mutator, WORLD, nil_register(), &same));
    agree(player, "the world of a thread that has entered", same, 0);
}

static void leave(struct player *player, bool rests) {
    bring_token(player);
    drop_own(player);
    if (rests) done(player, "rest", lxr_mutator_rest(player->mutator));
    done(player, "leave", lxr_mutator_leave(&player->mutator));
    agree(player, "a thread that has left", lxr_mutator_leave(&player->mutator), LXR_E_NO_HEAP);
}

static void rest(struct player *player) {
    done(player, "rest", lxr_mutator_rest(player->mutator));
    agree(player, "an operation at rest", lxr_mutator_nil(player->mutator, OWN), LXR_E_RESTS);
    agree(player, "a rest at rest", lxr_mutator_rest(player->mutator), LXR_E_RESTS);
    if (one_in(player, 4)) nap(player);
    done(player, "wake", lxr_mutator_wake(player->mutator));
    agree(player, "a wake awake", lxr_mutator_wake(player->mutator), LXR_E_AWAKE);
}

/* Sets the room, up or down, or how it grows. */
static void set_room(struct player *player) {
    if (one_in(player, 2)) {
        done(player, "set_grow", lxr_shared_heap_set_grow(now.heap, one_in(player, 3) ? 0 : below(player, 300)));
    } else {
        done(player, "set_room", lxr_shared_heap_set_room(now.heap, below(player, now.blocks + 1)));
    }
}

static void play_rarely(struct player *player) {
    player->pauses++;
    switch (below(player, 11)) {
    case 5: set_room(player); break;
    case 0: done(player, "pause", lxr_mutator_pause(player->mutator)); break;
    case 1: done(player, "collect", lxr_mutator_collect(player->mutator)); break;
    case 2: nap(player); break;
    case 3:
        leave(player, one_in(player, 2));
        enter(player);
        break;
    case 6:
    case 7: done(player, "trim", lxr_mutator_trim(player->mutator)); break;
    case 4: agree(player, "a write to the world's register", lxr_mutator_nil(player->mutator, WORLD), LXR_E_REGISTER); break;
    default: rest(player);
    }
}

static void play_once(struct player *player) {
    player->operations++;
    if (one_in(player, 300)) play_rarely(player);
    switch (below(player, 13)) {
    case 0:
    case 1: play_new(player); break;
    case 2: play_load(player); break;
    case 3: play_store(player); break;
    case 4: play_swap(player); break;
    case 5:
    case 6: play_word(player); break;
    case 7: one_in(player, 10) ? play_in_use(player) : play_registers(player); break;
    case 8: play_token(player); break;
    case 9: play_counter(player); break;
    case 10:
        if (player->number < PUBLISHERS) publish(player);
        break;
    case 11: play_several(player); break;
    default: find_published(player);
    }
    if (one_in(player, 50)) done(player, "poll", lxr_mutator_poll(player->mutator));
}

static void *play(void *with) {
    struct player *player = with;
    enter(player);
    for (uint32_t left = OPERATIONS * FEW / (now.players < FEW ? FEW : now.players); left--;) play_once(player);
    leave(player, false);
    return NULL;
}

/* ---- Rounds ---- */

/* Makes an object in a heap that has room for it; the mock of the archive may say once and again that it is full. */
static void make_object(struct player *player, uint32_t dest, uint32_t words) {
    lxr_code code = LXR_E_FULL;
    for (uint32_t left = 100; code == LXR_E_FULL && left--;) code = lxr_mutator_new(player->mutator, dest, 0, words);
    done(player, "new", code);
}

/* What stands in the world as a round begins: tokens, and the counter. */
static void set_out(struct player *player) {
    enter(player);
    make_object(player, COUNTER, COUNTER_WORDS);
    done(player, "store", lxr_mutator_store(player->mutator, WORLD, COUNTER_PLACE, COUNTER));
    for (uint32_t at = 0; at < now.tokens; at++) {
        make_object(player, TOKEN, 1);
        done(player, "put", lxr_mutator_put(player->mutator, TOKEN, 0, at + 1));
        done(player, "store", lxr_mutator_store(player->mutator, WORLD, at, TOKEN));
    }
    done(player, "nil", lxr_mutator_nil(player->mutator, TOKEN));
    done(player, "leave", lxr_mutator_leave(&player->mutator));
}

/* What stands there as it ends: each token once, and all that was added. */
static void take_stock(struct player *player) {
    uint64_t word = 0, found = 0;
    enter(player);
    for (uint32_t at = 0; at < TOKEN_PLACES; at++) {
        done(player, "load", lxr_mutator_load(player->mutator, TOKEN, WORLD, at));
        lxr_code code = lxr_mutator_get(player->mutator, TOKEN, 0, &word);
        if (code == LXR_E_NIL) continue;
        done(player, "get", code);
        if (found & (UINT64_C(1) << word)) differ(player, "token %" PRIu64 " is in two places", word);
        found |= UINT64_C(1) << word;
    }
    agree(player, "the tokens that are left", found, ((UINT64_C(1) << now.tokens) - 1) << 1);
    done(player, "load", lxr_mutator_load(player->mutator, COUNTER, WORLD, COUNTER_PLACE));
    for (uint32_t at = 0; at < COUNTER_WORDS; at++) {
        uint64_t sum = 0;
        for (uint32_t it = 0; it < now.players; it++) sum += now.player[it].adds[at];
        done(player, "get", lxr_mutator_get(player->mutator, COUNTER, at, &word));
        agree(player, "the sum of a counter", word, sum);
    }
    done(player, "leave", lxr_mutator_leave(&player->mutator));
}

static uint32_t draw_up_to(uint64_t *dice, uint32_t most) { return 1 + (uint32_t)draw(dice) % most; }

/* Mostly a small heap; a large one may have any size. */
static uint32_t draw_blocks(uint64_t *dice) { return draw_up_to(dice, draw(dice) % 3 ? 32 : MOST_BLOCKS); }

/* Mostly few threads. */
static uint32_t draw_players(uint64_t *dice) { return draw_up_to(dice, draw(dice) % 8 ? FEW : LXR_MOST_MUTATORS); }

/* Mostly the header's own; else any number that fits. */
static uint32_t draw_evacuate(uint64_t *dice, const lxr_shared_heap_settings *settings) {
    return draw(dice) % 2 ? settings->evacuate : (uint32_t)draw(dice) % (settings->blocks / 8 + 1);
}

/* As many registers as without a word, as few or as many as there can be, and mostly any number of them. */
static uint32_t draw_registers_of(uint64_t *dice) {
    static const uint32_t ends[] = { 0, LXR_REGISTERS, LXR_MOST_REGISTERS };
    uint32_t kind = (uint32_t)draw(dice) % 6;
    return kind < 3 ? ends[kind] : LXR_REGISTERS + (uint32_t)draw(dice) % (LXR_MOST_REGISTERS + 1 - LXR_REGISTERS);
}

/* As many mutators as threads, or one fewer, or, half of the time, any number above, of which most are never in the heap. */
static uint32_t draw_mutators(uint64_t *dice) {
    uint32_t kind = (uint32_t)draw(dice) % 4;
    if (kind == 0 && now.players > 2) return now.players - 1;
    return kind > 1 ? now.players + (uint32_t)draw(dice) % (LXR_MOST_MUTATORS + 1 - now.players) : now.players;
}

/* So few that names are renewed in time; an operation of a mutator after the sixteenth counts sixteen times for that. */
static uint32_t draw_renewing(uint64_t *dice) { return 20 + (uint32_t)draw(dice) % (now.players > FEW ? 20 : 100); }

static lxr_shared_heap_settings draw_settings(uint64_t *dice) {
    uint32_t blocks = draw_blocks(dice), mutators = draw_mutators(dice);
    lxr_shared_heap_settings settings = LXR_SHARED_HEAP_SETTINGS(blocks, mutators);
    settings.evacuate = draw_evacuate(dice, &settings);
    settings.helpers = (uint32_t)draw(dice) % 3;
    settings.every = RENEWS ? draw_renewing(dice) : draw(dice) % 2 ? 20 + (uint32_t)draw(dice) % 500 : 65536;
    settings.log = draw(dice) % 2 ? 8 : 1024;
    settings.pace = draw(dice) % 3 == 0 ? LXR_PACE_ROOM : draw(dice) % 2 ? LXR_PACE_NEVER : 1 + draw(dice) % 20000;
    settings.trace = draw(dice) % 2 ? (uint32_t)draw(dice) % 9 : 0;
    settings.within = (uint32_t)draw(dice) % 5;
    settings.registers = draw_registers_of(dice);
    settings.room = (uint32_t)draw(dice) % (blocks + 1);
    settings.grow = draw(dice) % 3 ? (uint32_t)draw(dice) % 300 : 0;
    settings.runs = draw(dice) % 3 ? LXR_LEAST_RUNS + (uint32_t)draw(dice) % 1000 : 0;
    now.blocks = blocks;
    return settings;
}

static void count_round(struct player *keeper) {
    uint64_t number = 0;
    done(keeper, "count", lxr_shared_heap_count(now.heap, LXR_COUNT_PAUSES, &number));
    sums.pauses += number;
    sums.rounds++;
    for (uint32_t at = 0; at < now.players; at++) {
        sums.operations += now.player[at].operations;
        sums.fulls += now.player[at].fulls;
    }
}

static void play_round(uint64_t seed) {
    uint64_t dice = seed * 7919 + 17;
    struct player keeper = { .number = LXR_MOST_MUTATORS, .dice = seed };
    memset(&now, 0, sizeof now);
    now.seed = seed;
    now.players = draw_players(&dice);
    now.tokens = (uint32_t)draw(&dice) % TOKEN_PLACES;
    lxr_shared_heap_settings settings = draw_settings(&dice);
    now.registers = settings.registers ? settings.registers : LXR_REGISTERS;
    pthread_t threads[LXR_MOST_MUTATORS];
    done(&keeper, "open", lxr_shared_heap_open(&now.heap, &settings));
    set_out(&keeper);
    for (uint32_t at = 0; at < now.players; at++) {
        now.player[at].number = at;
        now.player[at].dice = draw(&dice) * 31 + at;
        if (pthread_create(&threads[at], NULL, play, &now.player[at]) != 0) differ(&keeper, "no further thread");
    }
    for (uint32_t at = 0; at < now.players; at++) pthread_join(threads[at], NULL);
    take_stock(&keeper);
    count_round(&keeper);
    done(&keeper, "close", lxr_shared_heap_close(&now.heap));
}

int main(int count, char **words) {
    uint64_t seconds = count > 1 ? strtoull(words[1], NULL, 10) : 10;
    uint64_t seed = count > 2 ? strtoull(words[2], NULL, 10) : 1;
    time_t end = time(NULL) + (time_t)seconds;
    do play_round(seed++);
    while (time(NULL) < end);
    printf("threads_random: %" PRIu64 " rounds, %" PRIu64 " operations, %" PRIu64 " pauses, %" PRIu64 " times full\n", sums.rounds,
           sums.operations, sums.pauses, sums.fulls);
    return 0;
}
