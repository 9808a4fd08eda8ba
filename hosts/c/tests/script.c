/*
 * script.c: plays a script of `lxr large` by calls of lxr.h, and prints its replies as the program does. SPDX: MIT OR Apache-2.0
 *
 * usage: script [--blocks N] [--bodies N] < SCRIPT
 *
 * The program's replies tell names of objects, and the functions of lxr.h tell none. So the script is played on two heaps at once. The
 * first one has the objects as the script has them, and its codes and words are what is printed. The second has the same objects with the
 * same references, each with one data word that holds its name; a name is printed as it is read there from the object that a `load` found.
 * Nothing here remembers what an object refers to. What both heaps can tell has to agree: which codes they answer, which registers are
 * nil, which hold one object, and at the end how many objects can be reached.
 *
 * Ends with 0, or with 1 for wrong words, 2 for what is no script, 3 where the heaps disagree, and 5 where memory ran out.
 */
#include "../lxr.h"

#include <inttypes.h>
#include <stdarg.h>
#include <stdbool.h>
#include <stdio.h>
#include <stdlib.h>
#include <string.h>

#define MOST_BYTES      67108864u
#define MOST_OPERATIONS 1048576u
#define MOST_PARTS      3

/* The operations, in the order of `kinds`. */
enum kind { NEW, LOAD, STORE, PUT, GET, MOVE, NIL, SAME, PAUSE, COLLECT, BIG, BPUT, BGET, KINDS };

/* The word of an operation, and what stands after it: r a register, s a number of fields, f an index of one, k a number of blocks, b the
 * index of a word of a body, n any number. */
static const struct {
    const char *word, *parts;
} kinds[KINDS] = {
    { "new", "rss" }, { "load", "rrf" }, { "store", "rfr" }, { "put", "rfn" }, { "get", "rf" },   { "move", "rr" }, { "nil", "r" },
    { "same", "rr" }, { "pause", "" },   { "collect", "" },  { "big", "rk" },  { "bput", "rbn" }, { "bget", "rb" },
};

struct operation {
    enum kind kind;
    uint64_t parts[MOST_PARTS];
};

static _Noreturn void stop(int status, const char *form, ...) {
    va_list parts;
    va_start(parts, form);
    vfprintf(stderr, form, parts);
    va_end(parts);
    fputc('\n', stderr);
    exit(status);
}

static void *room(void *old, size_t bytes) {
    void *made = realloc(old, bytes);
    if (!made) stop(5, "lxr: out of memory");
    return made;
}

/* ---- Reading ---- */

struct script {
    char *text, *rest;
    uint64_t line; /* of the line at hand, from 1 */
    struct operation *operations;
    size_t count, space;
};

static _Noreturn void fault(const struct script *script, const char *what) {
    stop(2, "lxr: script line %" PRIu64 ": %s", script->line, what);
}

/* Reads the whole input, and puts a zero after it. */
static void read_input(struct script *script) {
    size_t length = 0, taken = 0;
    do {
        script->text = room(script->text, length + 65537);
        taken = fread(script->text + length, 1, 65536, stdin);
        length += taken;
    } while (taken && length <= MOST_BYTES);
    if (length > MOST_BYTES) stop(2, "lxr: script: too long");
    script->text[length] = '\0';
    script->rest = script->text;
}

/* Splits off the next line that isn't skipped, into at most `most` words and how many there are; false at the end of the input. */
static bool next_line(struct script *script, char **words, size_t most, size_t *count) {
    for (*count = 0; !*count && *script->rest;) {
        char *line = script->rest, *end = strchr(line, '\n');
        script->rest = end ? end + 1 : line + strlen(line);
        script->line++;
        if (!end) end = script->rest;
        if (end > line && end[-1] == '\r' && *end) end--;
        *end = '\0';
        for (char *word = strtok(line, " \t"); word && !(*count == 0 && *word == '#'); word = strtok(NULL, " \t"))
            if ((*count)++ < most) words[*count - 1] = word;
    }
    if (!*count) script->line++;
    return *count != 0;
}

/* Reads a number below 2^64. */
static bool read_number(const char *word, uint64_t *number) {
    *number = 0;
    if (!*word) return false;
    for (; *word; word++) {
        if (*word < '0' || *word > '9') return false;
        uint64_t digit = (uint64_t)(*word - '0');
        if (*number > (UINT64_MAX - digit) / 10) return false;
        *number = *number * 10 + digit;
    }
    return true;
}

/* Reads one part of an operation, or tells what is wrong with it. */
static const char *read_part(char sort, const char *word, uint64_t *part) {
    if (sort == 'r') return *word == 'r' && read_number(word + 1, part) && *part < LXR_REGISTERS ? NULL : "register";
    if (!read_number(word, part)) return "number";
    switch (sort) {
    case 's': return *part <= LXR_MOST_REFS ? NULL : "shape";
    case 'k': return *part >= 1 && *part <= LXR_MOST_BODY_BLOCKS ? NULL : "shape";
    case 'f': return *part <= LXR_MOST_REFS ? NULL : "field";
    case 'b': return *part < (uint64_t)LXR_MOST_BODY_BLOCKS * LXR_BLOCK_WORDS ? NULL : "field";
    default: return NULL;
    }
}

static struct operation read_operation(const struct script *script, char **words, size_t count) {
    struct operation found = { .kind = NEW };
    while (found.kind < KINDS && strcmp(words[0], kinds[found.kind].word) != 0) found.kind++;
    if (found.kind == KINDS || count != strlen(kinds[found.kind].parts) + 1) fault(script, "operation");
    for (size_t at = 0; at + 1 < count; at++) {
        const char *wrong = read_part(kinds[found.kind].parts[at], words[at + 1], &found.parts[at]);
        if (wrong) fault(script, wrong);
    }
    return found;
}

static void read_script(struct script *script) {
    char *words[MOST_PARTS + 1];
    size_t count;
    uint64_t version;
    read_input(script);
    if (!next_line(script, words, MOST_PARTS + 1, &count) || count != 3 || strcmp(words[0], "lxr") != 0 || strcmp(words[1], "large") != 0 ||
        !read_number(words[2], &version) || version != 1)
        fault(script, "header");
    for (;;) {
        if (!next_line(script, words, MOST_PARTS + 1, &count)) fault(script, "no end");
        if (count == 1 && strcmp(words[0], "end") == 0) break;
        struct operation read = read_operation(script, words, count);
        if (script->count == MOST_OPERATIONS) fault(script, "too many operations");
        if (script->count == script->space) {
            script->space = script->space ? script->space * 2 : 1024;
            script->operations = room(script->operations, script->space * sizeof *script->operations);
        }
        script->operations[script->count++] = read;
    }
    if (next_line(script, words, MOST_PARTS + 1, &count)) fault(script, "after end");
}

/* ---- Playing ---- */

/* The two heaps, how many objects were made, and the operation at hand, from 1. */
struct host {
    lxr_heap script, names;
    uint64_t made;
    size_t at;
};

static void agree(const struct host *host, const char *what, uint64_t on_script, uint64_t on_names) {
    if (on_script != on_names)
        stop(3, "script: operation %zu: the heaps disagree on %s: %" PRIu64 " and %" PRIu64, host->at, what, on_script, on_names);
}

static void must(const struct host *host, lxr_code code) {
    if (code != LXR_OK) stop(3, "script: operation %zu: %s", host->at, lxr_message(code));
}

/* Whether the registers that hold what `one` holds are the same ones on both heaps, and it is nil on both or on neither. */
static void agree_on_register(struct host *host, uint32_t one) {
    uint32_t on_script = 0, on_names = 0;
    must(host, lxr_is_nil(&host->script, one, &on_script));
    must(host, lxr_is_nil(&host->names, one, &on_names));
    agree(host, "nil", on_script, on_names);
    for (uint32_t other = 0; other < LXR_REGISTERS; other++) {
        must(host, lxr_same(&host->script, one, other, &on_script));
        must(host, lxr_same(&host->names, one, other, &on_names));
        agree(host, "same", on_script, on_names);
    }
}

/* Prints the reply of a call that answered no object and no word. */
static void tell(const char *word, lxr_code code) {
    const char *reply = code == LXR_OK        ? "ok"
                        : code == LXR_E_NIL   ? "bad"
                        : code == LXR_E_INDEX ? "range"
                        : code == LXR_E_FULL  ? "full"
                                              : "?";
    printf("%s %s\n", word, reply);
}

static void tell_word(const char *word, lxr_code code, uint64_t found) {
    if (code == LXR_OK)
        printf("%s %" PRIu64 "\n", word, found);
    else
        tell(word, code);
}

/* Gives a new object its name on the second heap, where the first one made it. */
static void tell_made(struct host *host, const char *word, lxr_code code, uint32_t dest, uint32_t refs) {
    if (code != LXR_OK) {
        tell(word, code);
        return;
    }
    host->made++;
    must(host, lxr_new(&host->names, dest, refs, 1));
    must(host, lxr_put(&host->names, dest, 0, host->made));
    printf("%s 1.%" PRIu64 "\n", word, host->made);
}

/* Tells what a `load` found, by the name that it has on the second heap. The world alone has no word there. */
static void tell_loaded(struct host *host, lxr_code code, uint32_t dest) {
    uint32_t is_nil = 0;
    uint64_t name = 0;
    if (code != LXR_OK) {
        tell("load", code);
        return;
    }
    agree_on_register(host, dest);
    must(host, lxr_is_nil(&host->script, dest, &is_nil));
    if (is_nil)
        printf("load nil\n");
    else if (lxr_get(&host->names, dest, 0, &name) == LXR_E_INDEX)
        printf("load 0.0\n");
    else
        printf("load 1.%" PRIu64 "\n", name);
}

static void play_same(struct host *host, uint32_t left, uint32_t right) {
    uint32_t on_script = 0, on_names = 0;
    must(host, lxr_same(&host->script, left, right, &on_script));
    must(host, lxr_same(&host->names, left, right, &on_names));
    agree(host, "same", on_script, on_names);
    printf("same %s\n", on_script ? "yes" : "no");
}

/* Makes a call on both heaps, and answers the code that both gave. */
#define BOTH(call, ...) both(host, #call, call(&host->script, __VA_ARGS__), call(&host->names, __VA_ARGS__))

static lxr_code both(const struct host *host, const char *what, lxr_code on_script, lxr_code on_names) {
    agree(host, what, on_script, on_names);
    return on_script;
}

static void play(struct host *host, const struct operation *it) {
    uint64_t word = 0, last = it->parts[2];
    uint32_t a = (uint32_t)it->parts[0], b = (uint32_t)it->parts[1], c = (uint32_t)it->parts[2];
    lxr_code code;
    switch (it->kind) {
    case NEW:
        code = lxr_new(&host->script, a, b, c);
        tell_made(host, "new", code, a, b);
        break;
    case BIG:
        code = lxr_large_new(&host->script, a, b);
        tell_made(host, "big", code, a, 0);
        break;
    case LOAD:
        code = BOTH(lxr_load, a, b, c);
        tell_loaded(host, code, a);
        break;
    case STORE:
        code = BOTH(lxr_store, a, b, c);
        tell("store", code);
        break;
    case MOVE:
        code = BOTH(lxr_move, a, b);
        tell("move", code);
        break;
    case NIL:
        code = BOTH(lxr_nil, a);
        tell("nil", code);
        break;
    case SAME: play_same(host, a, b); break;
    case PUT:
        code = lxr_put(&host->script, a, b, last);
        tell("put", code);
        break;
    case GET:
        code = lxr_get(&host->script, a, b, &word);
        tell_word("get", code, word);
        break;
    case BPUT:
        code = lxr_large_put(&host->script, a, b, last);
        tell("bput", code);
        break;
    case BGET:
        code = lxr_large_get(&host->script, a, b, &word);
        tell_word("bget", code, word);
        break;
    case PAUSE:
        code = lxr_pause(&host->script);
        tell("pause", code);
        break;
    case COLLECT:
        code = lxr_collect(&host->script);
        tell("collect", code);
        break;
    case KINDS: break;
    }
}

/* Whether as many objects can be reached on both heaps. */
static void agree_at_the_end(struct host *host) {
    uint64_t on_script = 0, on_names = 0;
    must(host, lxr_collect(&host->script));
    must(host, lxr_collect(&host->names));
    must(host, lxr_count(&host->script, LXR_COUNT_LIVE, &on_script));
    must(host, lxr_count(&host->names, LXR_COUNT_LIVE, &on_names));
    agree(host, "what can be reached", on_script, on_names);
}

/* Opens a heap whose pauses are those of the script, and those that are needed. */
static void open_heap(lxr_heap *heap, uint32_t blocks, uint32_t bodies) {
    lxr_settings settings = LXR_SETTINGS(blocks, bodies);
    settings.pace = LXR_PACE_NEVER;
    settings.grow = 0;
    settings.work = 0; /* lines are free when they are in the program, and `full` comes where it comes there */
    if (lxr_open(heap, &settings) != LXR_OK) stop(5, "lxr: out of memory");
}

static void play_script(const struct script *script, uint32_t blocks, uint32_t bodies) {
    struct host host = { LXR_HEAP_INIT, LXR_HEAP_INIT, 0, 0 };
    /* An object takes at most one line more for its name, so at most twice its own. */
    open_heap(&host.script, blocks, bodies);
    open_heap(&host.names, 4 * blocks + 4, 1);
    puts("thread 1");
    while (host.at < script->count) play(&host, &script->operations[host.at++]);
    agree_at_the_end(&host);
    lxr_close(&host.script);
    lxr_close(&host.names);
}

/* Reads an option's value, 1 to 1,024. */
static bool read_option(const char *word, uint64_t *option) { return read_number(word, option) && *option >= 1 && *option <= 1024; }

int main(int count, char **words) {
    struct script script = { NULL, NULL, 0, NULL, 0, 0 };
    uint64_t blocks = 64, bodies = 64;
    for (int at = 1; at < count; at += 2) {
        uint64_t *option = strcmp(words[at], "--blocks") == 0 ? &blocks : strcmp(words[at], "--bodies") == 0 ? &bodies : NULL;
        if (!option || at + 1 == count || !read_option(words[at + 1], option)) stop(1, "lxr: words: options");
    }
    read_script(&script);
    play_script(&script, (uint32_t)blocks, (uint32_t)bodies);
    free(script.text);
    free(script.operations);
    return fflush(stdout) == 0 && !ferror(stdout) ? 0 : 4;
}
