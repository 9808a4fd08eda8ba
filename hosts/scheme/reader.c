/*
 * The reader: from text to data. SPDX: MIT OR Apache-2.0
 */
#include "reader.h"
#include "arena.h"
#include "decimal.h"
#include "symbols.h"
#include <string.h>

enum { DEPTH_MOST = 1000 };

typedef struct items {
    Datum **list;
    size_t count, room;
} Items;

static Read read_at(Reader *reader, Datum **datum, unsigned depth);

Reader reader_of(const char *text, size_t length) { return (Reader){.text = text, .length = length, .at = {.line = 1, .column = 1}}; }

static bool at_end(const Reader *reader) { return reader->next == reader->length; }

static char peek(const Reader *reader) { return reader->text[reader->next]; }

static char take(Reader *reader) {
    const char c = reader->text[reader->next++];
    if (c == '\n') {
        reader->at.line++;
        reader->at.column = 1;
    } else if (((unsigned char)c & 0xc0) != 0x80) { /* bytes within a character of UTF-8 take no column */
        reader->at.column++;
    }
    return c;
}

static Datum *datum_at(Position at, DatumKind kind) {
    Datum *const datum = arena_take(sizeof *datum);
    datum->kind = kind;
    datum->at = at;
    return datum;
}

static Datum *word_at(Position at, Word word) {
    Datum *const datum = datum_at(at, DATUM_WORD);
    datum->word = word;
    return datum;
}

static void add_item(Items *items, Datum *datum) {
    if (items->count == items->room) {
        const size_t room = items->room ? 2 * items->room : 8;
        Datum **const list = arena_take(room * sizeof *list);
        if (items->count) memcpy(list, items->list, items->count * sizeof *list);
        items->list = list;
        items->room = room;
    }
    items->list[items->count++] = datum;
}

static bool is_space(char c) { return c == ' ' || c == '\n' || c == '\t' || c == '\r' || c == '\f'; }

static bool ends_token(char c) {
    switch (c) {
    case '(':
    case ')':
    case '"':
    case ';':
    case '\'':
    case '`':
    case ',':
    case '|': return true;
    default: return is_space(c);
    }
}

/* Skips `#| .. |#`, which nest, from behind the first two. */
static Read skip_block(Reader *reader, Position from) {
    unsigned depth = 1;
    char before = ' ';
    while (depth) {
        if (at_end(reader)) {
            if (reader->has_more) return READ_UNFINISHED;
            fault(from, "a comment without an end");
        }
        const char c = take(reader);
        if (before == '|' && c == '#') depth--;
        if (before == '#' && c == '|') depth++;
        before = (before == '|' && c == '#') || (before == '#' && c == '|') ? ' ' : c;
    }
    return READ_DATUM;
}

/* Skips `#;` and the datum after it. */
static Read skip_datum(Reader *reader, unsigned depth) {
    const Position from = reader->at;
    Datum *datum;
    take(reader);
    take(reader);
    if (depth > DEPTH_MOST) fault(from, "comments within comments, more than %d deep", DEPTH_MOST);
    const Read read = read_at(reader, &datum, depth + 1);
    if (read == READ_END && !reader->has_more) fault(from, "nothing after #;");
    return read == READ_DATUM ? READ_DATUM : READ_UNFINISHED;
}

static bool is_next(const Reader *reader, char second) {
    return peek(reader) == '#' && reader->next + 1 < reader->length && reader->text[reader->next + 1] == second;
}

/* Skips what stands before the next datum. */
static Read skip_blank(Reader *reader, unsigned depth) {
    while (!at_end(reader)) {
        const char c = peek(reader);
        if (c == ';') {
            while (!at_end(reader) && peek(reader) != '\n') take(reader);
        } else if (is_next(reader, ';')) {
            if (skip_datum(reader, depth) == READ_UNFINISHED) return READ_UNFINISHED;
        } else if (is_next(reader, '|')) {
            const Position from = reader->at;
            take(reader);
            take(reader);
            if (skip_block(reader, from) == READ_UNFINISHED) return READ_UNFINISHED;
        } else if (is_space(c)) {
            take(reader);
        } else {
            return READ_DATUM;
        }
    }
    return READ_END;
}

static int digit_of(char c) {
    if (c >= '0' && c <= '9') return c - '0';
    if (c >= 'a' && c <= 'z') return c - 'a' + 10;
    if (c >= 'A' && c <= 'Z') return c - 'A' + 10;
    return 99;
}

/* The datum of a number, or null where a text is none. */
static Datum *number_at(Position at, const char *text, size_t length) {
    if (*text > '9') return NULL; /* most texts: names that begin with a letter */
    const Number number_read = read_number(text, length, 10);
    if (number_read.kind == NUMBER_NONE) return NULL;
    if (number_read.kind == NUMBER_TOO_LARGE) fault(at, "an integer of more than 62 bits: %.*s", (int)length, text);
    if (number_read.kind == NUMBER_INTEGER) return word_at(at, number_read.word);
    Datum *const datum = datum_at(at, DATUM_REAL);
    datum->real = number_read.real;
    return datum;
}

bool is_plain_name(const char *name) {
    const size_t length = strlen(name);
    for (size_t i = 0; i < length; i++) {
        if (ends_token(name[i])) return false;
    }
    return length && *name != '#' && strcmp(name, ".") != 0 && read_number(name, length, 10).kind == NUMBER_NONE;
}

static Datum *read_token(Reader *reader) {
    const Position at = reader->at;
    const char *const text = reader->text + reader->next;
    size_t length = 0;
    while (!at_end(reader) && !ends_token(peek(reader))) {
        take(reader);
        length++;
    }
    Datum *const number = number_at(at, text, length);
    return number ? number : word_at(at, PLAIN(KIND_SYMBOL, symbol_of(text, length)));
}

static const struct {
    const char *name;
    unsigned char code;
} character_names[] = {{"space", ' '}, {"newline", '\n'}, {"tab", '\t'},       {"return", '\r'}, {"null", '\0'},
                       {"nul", '\0'},  {"alarm", '\a'},   {"backspace", '\b'}, {"delete", 0x7f}, {"escape", 0x1b}};

const char *character_name(unsigned char code) {
    for (size_t i = 0; i < sizeof character_names / sizeof *character_names; i++) {
        if (character_names[i].code == code) return character_names[i].name;
    }
    return NULL;
}

int character_code(const char *name, size_t length) {
    if (length == 1) return (unsigned char)*name;
    for (size_t i = 0; i < sizeof character_names / sizeof *character_names; i++) {
        if (strlen(character_names[i].name) == length && memcmp(character_names[i].name, name, length) == 0) return character_names[i].code;
    }
    if (*name != 'x' || digit_of(name[1]) > 15) return -1;
    const Number code = read_number(name + 1, length - 1, 16);
    return code.kind == NUMBER_INTEGER && number(code.word) < 256 ? (int)number(code.word) : -1;
}

static Datum *read_character(Reader *reader, Position at) {
    const char *const text = reader->text + reader->next;
    if (at_end(reader)) fault(at, "a character without a name");
    size_t length = 1;
    take(reader);
    while (!at_end(reader) && !ends_token(peek(reader))) {
        take(reader);
        length++;
    }
    const int code = character_code(text, length);
    if (code < 0) fault(at, "no such character: #\\%.*s", (int)length, text);
    return word_at(at, PLAIN(KIND_CHARACTER, code));
}

/* `\x41;` is the character of this code. */
static char read_code(Reader *reader, Position at) {
    unsigned code = 0;
    while (!at_end(reader) && code < 256 && digit_of(peek(reader)) < 16) code = 16 * code + (unsigned)digit_of(take(reader));
    if (at_end(reader) || code > 255 || take(reader) != ';') fault(at, "no such escape: \\x");
    return (char)code;
}

/* A line's end within a string is left out after `\\`, with the blanks around it. Whether there is one. */
static bool skip_line_end(Reader *reader) {
    size_t end = reader->next;
    while (end < reader->length && (reader->text[end] == ' ' || reader->text[end] == '\t')) end++;
    if (end == reader->length || reader->text[end] != '\n') return false;
    while (reader->next <= end) take(reader);
    while (!at_end(reader) && (peek(reader) == ' ' || peek(reader) == '\t')) take(reader);
    return true;
}

static char read_escape(Reader *reader, Position at) {
    const char c = take(reader);
    switch (c) {
    case 'n': return '\n';
    case 't': return '\t';
    case 'r': return '\r';
    case 'a': return '\a';
    case 'b': return '\b';
    case 'x': return read_code(reader, at);
    case '\\':
    case '|':
    case '"': return c;
    default: fault(at, "no such escape: \\%c", c);
    }
}

/* Reads what stands between two marks, the first of which is next. */
static Read read_between(Reader *reader, char mark, const char *what, const char **text, size_t *length) {
    const Position from = reader->at;
    take(reader);
    char *const bytes = arena_take(reader->length - reader->next + 1);
    size_t count = 0;
    while (!at_end(reader) && peek(reader) != mark) {
        const Position at = reader->at;
        char c = take(reader);
        if (c == '\\' && skip_line_end(reader)) continue;
        if (c == '\\' && !at_end(reader)) c = read_escape(reader, at);
        bytes[count++] = c;
    }
    if (at_end(reader)) {
        if (reader->has_more) return READ_UNFINISHED;
        fault(from, "%s without an end", what);
    }
    take(reader);
    *text = bytes;
    *length = count;
    return READ_DATUM;
}

static Read read_string(Reader *reader, Datum **datum) {
    *datum = datum_at(reader->at, DATUM_STRING);
    return read_between(reader, '"', "a string", &(*datum)->text, &(*datum)->count);
}

/* A symbol between bars. */
static Read read_name(Reader *reader, Datum **datum) {
    const Position at = reader->at;
    const char *text = "";
    size_t length = 0;
    const Read read = read_between(reader, '|', "a symbol", &text, &length);
    if (read == READ_DATUM) *datum = word_at(at, PLAIN(KIND_SYMBOL, symbol_of(text, length)));
    return read;
}

static bool is_dot(const Datum *datum) {
    return datum->kind == DATUM_WORD && kind_of(datum->word) == KIND_SYMBOL && strcmp(symbol_name((Symbol)payload(datum->word)), ".") == 0;
}

/* Reads the items of a list or a vector, from behind its `(`. */
static Read read_items(Reader *reader, Datum *list, unsigned depth) {
    Items items = {0};
    for (;;) {
        const Read blank = skip_blank(reader, depth);
        if (blank == READ_END && !reader->has_more) fault(list->at, "a list without an end");
        if (blank != READ_DATUM) return READ_UNFINISHED;
        if (peek(reader) == ')') break;
        Datum *item;
        const Read read = read_at(reader, &item, depth + 1);
        if (read != READ_DATUM) return read;
        if (list->tail && list->tail->kind == DATUM_WORD && is_dot(list->tail)) {
            if (is_dot(item)) fault(item->at, "two dots in a list");
            list->tail = item;
        } else if (list->tail) {
            fault(item->at, "two data after a dot");
        } else if (is_dot(item)) {
            if (list->kind == DATUM_VECTOR || !items.count) fault(item->at, "a dot where none can stand");
            list->tail = item;
        } else {
            add_item(&items, item);
        }
    }
    if (list->tail && is_dot(list->tail)) fault(list->tail->at, "nothing after a dot");
    take(reader);
    if (list->tail && list->tail->kind == DATUM_LIST) { /* (a . (b c)) is (a b c) */
        const Datum *const rest = list->tail;
        for (size_t i = 0; i < rest->count; i++) add_item(&items, rest->items[i]);
        list->tail = rest->tail;
    }
    list->items = items.list;
    list->count = items.count;
    return READ_DATUM;
}

static Read read_list(Reader *reader, Datum **datum, Position at, DatumKind kind, unsigned depth) {
    if (depth > DEPTH_MOST) fault(at, "lists within lists, more than %d deep", DEPTH_MOST);
    *datum = datum_at(at, kind);
    take(reader);
    return read_items(reader, *datum, depth);
}

/* Reads `'x` as (quote x), and its like. */
static Read read_quoted(Reader *reader, Datum **datum, const char *name, unsigned depth) {
    const Position at = reader->at;
    Items items = {0};
    Datum *item;
    take(reader);
    if (name[0] == 'u' && !at_end(reader) && peek(reader) == '@') {
        take(reader);
        name = "unquote-splicing";
    }
    if (depth > DEPTH_MOST) fault(at, "quotes within quotes, more than %d deep", DEPTH_MOST);
    const Read read = read_at(reader, &item, depth + 1);
    if (read != READ_DATUM) {
        if (read == READ_END && !reader->has_more) fault(at, "nothing after a quote");
        return READ_UNFINISHED;
    }
    add_item(&items, word_at(at, PLAIN(KIND_SYMBOL, symbol_of(name, strlen(name)))));
    add_item(&items, item);
    *datum = datum_at(at, DATUM_LIST);
    (*datum)->items = items.list;
    (*datum)->count = items.count;
    return READ_DATUM;
}

/* Reads what begins with `#`. */
static Read read_hash(Reader *reader, Datum **datum, unsigned depth) {
    const Position at = reader->at;
    take(reader);
    if (!at_end(reader) && peek(reader) == '(') return read_list(reader, datum, at, DATUM_VECTOR, depth);
    if (!at_end(reader) && peek(reader) == '\\') {
        take(reader);
        *datum = read_character(reader, at);
        return READ_DATUM;
    }
    const char *const text = reader->text + reader->next - 1;
    size_t length = 1;
    while (!at_end(reader) && !ends_token(peek(reader))) {
        take(reader);
        length++;
    }
    if ((length == 2 && text[1] == 't') || (length == 5 && memcmp(text, "#true", 5) == 0)) {
        *datum = word_at(at, TRUE);
    } else if ((length == 2 && text[1] == 'f') || (length == 6 && memcmp(text, "#false", 6) == 0)) {
        *datum = word_at(at, FALSE);
    } else if ((*datum = number_at(at, text, length)) == NULL) {
        fault(at, "unknown: %.*s", (int)length, text);
    }
    return READ_DATUM;
}

static Read read_at(Reader *reader, Datum **datum, unsigned depth) {
    const Read blank = skip_blank(reader, depth);
    if (blank != READ_DATUM) return blank;
    switch (peek(reader)) {
    case '(': return read_list(reader, datum, reader->at, DATUM_LIST, depth);
    case ')': fault(reader->at, "a ) without a (");
    case '\'': return read_quoted(reader, datum, "quote", depth);
    case '`': return read_quoted(reader, datum, "quasiquote", depth);
    case ',': return read_quoted(reader, datum, "unquote", depth);
    case '"': return read_string(reader, datum);
    case '|': return read_name(reader, datum);
    case '#': return read_hash(reader, datum, depth);
    default: *datum = read_token(reader); return READ_DATUM;
    }
}

Read read_datum(Reader *reader, Datum **datum) {
    Read read = read_at(reader, datum, 0);
    if (read == READ_DATUM && (*datum)->kind == DATUM_WORD && is_dot(*datum)) fault((*datum)->at, "a dot where none can stand");
    return read;
}
