/*
 * Ports, and how values are written. SPDX: MIT OR Apache-2.0
 *
 * The standard ports are words alone. A port that reads a string is an object of the string and of how many bytes are read. One that writes
 * a string is an object of a string with room, and of how many bytes are written; where the room ends, a string of twice that takes its
 * place.
 */
#define _POSIX_C_SOURCE 200809L
#include "decimal.h"
#include "primitives.h"
#include "reader.h"
#include <ctype.h>
#include <string.h>

enum { PORT_STRING = 0, PORT_USED = 1, LEAST_ROOM = 64 };

/* What a function does not ask for. */
#define UNUSED(operand) (void)(operand)

/* Output */

static FILE *file_of(const Machine *machine, Word port) { return port == STANDARD_ERROR ? stderr : machine->output; }

/* The string of a port stands in the register for it. Answers how many bytes of it are used, which are no more than it has, whatever other
 * threads write. */
static size_t load_string(Machine *machine, unsigned port) {
    machine_load(machine, REGISTER_SCRATCH, port, PORT_STRING);
    const size_t used = (size_t)number(memory_get(port, PORT_USED + HEAD_WORDS)), length = (size_t)payload(machine->word[REGISTER_SCRATCH]);
    return used < length ? used : length;
}

/* The string of a port, which the register for it has, gets room for so many bytes. The first `kept` bytes of the machine's text stay as
 * they are. */
static void make_room(Machine *machine, unsigned port, size_t used, size_t wanted, size_t kept) {
    const size_t room = (size_t)payload(machine->word[REGISTER_SCRATCH]);
    if (wanted <= room) return;
    read_string_text(machine, REGISTER_SCRATCH, 0, used, kept);
    const size_t twice = 2 * room < STRING_MOST ? 2 * room : STRING_MOST;
    make_string_room(machine, REGISTER_SCRATCH, wanted > twice ? wanted : twice);
    write_string_text(machine, REGISTER_SCRATCH, 0, machine->text + kept, used);
    machine_store(machine, port, PORT_STRING, REGISTER_SCRATCH);
}

/* The first bytes of the machine's text go to a port. */
static void put_text(Machine *machine, unsigned port, size_t length) {
    const Word word = machine->word[port];
    if (!length) return;
    if (word == STANDARD_OUTPUT || word == STANDARD_ERROR) {
        memory_rest();
        fwrite(machine->text, 1, length, file_of(machine, word));
        memory_wake();
        return;
    }
    if (word != OUTPUT_STRING) machine_fault(machine, "not a port for output");
    const size_t used = load_string(machine, port);
    make_room(machine, port, used, used + length, length);
    write_string_text(machine, REGISTER_SCRATCH, used, machine->text, length);
    memory_put(port, PORT_USED + HEAD_WORDS, integer((int64_t)(used + length)));
}

static void put(Machine *machine, unsigned port, const char *bytes, size_t length) {
    want_text(machine, length);
    if (length) memcpy(machine->text, bytes, length);
    put_text(machine, port, length);
}

static void put_name(Machine *machine, unsigned port, const char *name) { put(machine, port, name, strlen(name)); }

/* Atoms */

static void write_constant(Machine *machine, unsigned port, Word word) {
    static const char *const names[] = {"()", "#f", "#t", "#<unspecified>", "#<undefined>", "#<eof>", "."};
    put_name(machine, port, names[payload(word)]);
}

static void write_character(Machine *machine, unsigned port, Word word, bool is_quoted) {
    const char *const name = is_quoted ? character_name((unsigned char)payload(word)) : NULL;
    const char text[] = {'#', '\\', (char)payload(word)};
    if (name) put(machine, port, text, 2);
    if (name) {
        put_name(machine, port, name);
    } else {
        put(machine, port, is_quoted ? text : text + 2, is_quoted ? 3 : 1);
    }
}

/* The first bytes of the machine's text become what a source has for them. Answers how many bytes these are. */
static size_t quote_text(Machine *machine, size_t length) {
    static const char escaped[] = "\"\\\n\t\r", letters[] = "\"\\ntr";
    size_t at = 0;
    want_text(machine, 3 * length + 2); /* at most two bytes for each, from the end of the text on */
    char *const text = machine->text, *const quoted = text + length;
    quoted[at++] = '"';
    for (size_t i = 0; i < length; i++) {
        const char c = text[i];
        const char *const found = c ? strchr(escaped, c) : NULL;
        if (found) quoted[at++] = '\\';
        quoted[at++] = found ? letters[found - escaped] : c;
    }
    quoted[at++] = '"';
    memmove(text, quoted, at);
    return at;
}

static void write_string(Machine *machine, unsigned port, unsigned string, bool is_quoted) {
    const size_t length = (size_t)payload(machine->word[string]);
    read_string_text(machine, string, 0, length, 0);
    put_text(machine, port, is_quoted ? quote_text(machine, length) : length);
}

/* A symbol that a source can't have as it is stands between bars. */
static void write_symbol(Machine *machine, unsigned port, const char *name, bool is_quoted) {
    if (!is_quoted || is_plain_name(name)) {
        put_name(machine, port, name);
        return;
    }
    put(machine, port, "|", 1);
    for (; *name; name++) {
        if (*name == '|' || *name == '\\') put(machine, port, "\\", 1);
        put(machine, port, name, 1);
    }
    put(machine, port, "|", 1);
}

/* A record is written as the name of its type, without the angles that this may have. */
static void write_record(Machine *machine, unsigned port, Word word) {
    const char *const name = symbol_name(PUBLISHED(program.records)[payload(word)].name);
    const size_t length = strlen(name);
    const bool has_angles = length > 2 && name[0] == '<' && name[length - 1] == '>';
    put_name(machine, port, is_reference(word) ? "#<" : "#<type ");
    put(machine, port, name + has_angles, has_angles ? length - 2 : length);
    put(machine, port, ">", 1);
}

static void write_procedure(Machine *machine, unsigned port, Word word) {
    put_name(machine, port, "#<procedure ");
    put_name(machine, port, symbol_name(PUBLISHED(program.codes)[payload(word)].name));
    put(machine, port, ">", 1);
}

static void write_number(Machine *machine, unsigned port, unsigned operand) {
    char text[REAL_TEXT_MOST];
    put(machine, port, text, number_text(machine, operand, text));
}

void write_atom(Machine *machine, unsigned dest, unsigned atom, unsigned quoted, unsigned port) {
    UNUSED(dest);
    const Word word = machine->word[atom];
    const bool is_quoted = machine->word[quoted] != FALSE;
    switch (kind_of(word)) {
    case KIND_REAL:
    case KIND_INTEGER: write_number(machine, port, atom); break;
    case KIND_CONSTANT: write_constant(machine, port, word); break;
    case KIND_CHARACTER: write_character(machine, port, word, is_quoted); break;
    case KIND_SYMBOL: write_symbol(machine, port, symbol_name((Symbol)payload(word)), is_quoted); break;
    case KIND_PROCEDURE: write_procedure(machine, port, word); break;
    case KIND_STRING: write_string(machine, port, atom, is_quoted); break;
    case KIND_CONTINUATION: put_name(machine, port, "#<continuation>"); break;
    case KIND_VALUES: put_name(machine, port, "#<values>"); break;
    case KIND_RECORD: write_record(machine, port, word); break;
    case KIND_PORT: put_name(machine, port, "#<port>"); break;
    case KIND_PAIR:
    case KIND_VECTOR:
    case KIND_SLOTS: machine_fault(machine, "not an atom");
    }
}

void write_char(Machine *machine, unsigned dest, unsigned character, unsigned port, unsigned unused) {
    UNUSED(dest);
    UNUSED(unused);
    const Word word = machine->word[character];
    if (kind_of(word) != KIND_CHARACTER) machine_fault(machine, "write-char: not a character");
    write_character(machine, port, word, false);
}

/* Ports of strings */

/* The object is in the scratch register only: a port's string may be held by the register that gets the port. */
static void make_port(Machine *machine, unsigned dest, Word port, unsigned string) {
    machine_new(machine, REGISTER_SCRATCH, 1, 2 + HEAD_WORDS);
    machine_head(REGISTER_SCRATCH, port);
    if (string) machine_begin(machine, REGISTER_SCRATCH, PORT_STRING, string);
    memory_put(REGISTER_SCRATCH, PORT_USED + HEAD_WORDS, integer(0));
    machine_set(machine, REGISTER_SCRATCH, port);
    machine_move(machine, dest, REGISTER_SCRATCH);
}

void open_input_string(Machine *machine, unsigned dest, unsigned string, unsigned unused, unsigned unused_too) {
    UNUSED(unused);
    UNUSED(unused_too);
    if (kind_of(machine->word[string]) != KIND_STRING) machine_fault(machine, "open-input-string: not a string");
    make_port(machine, dest, INPUT_STRING, string);
}

void open_output_string(Machine *machine, unsigned dest, unsigned unused, unsigned unused_too, unsigned unused_as_well) {
    UNUSED(unused);
    UNUSED(unused_too);
    UNUSED(unused_as_well);
    make_string_room(machine, REGISTER_NIL, LEAST_ROOM); /* is nil again below */
    make_port(machine, dest, OUTPUT_STRING, REGISTER_NIL);
    memory_nil(REGISTER_NIL);
}

void get_output_string(Machine *machine, unsigned dest, unsigned port, unsigned unused, unsigned unused_too) {
    UNUSED(unused);
    UNUSED(unused_too);
    if (machine->word[port] != OUTPUT_STRING) machine_fault(machine, "get-output-string: not a port of a string for output");
    const size_t used = load_string(machine, port);
    read_string_text(machine, REGISTER_SCRATCH, 0, used, 0);
    make_string_of_text(machine, dest, used);
}

/* Input */

/* The standard input may have to be waited for, and no other thread reads from here .. */
static void begin_reading(void) {
    memory_rest();
    flockfile(stdin);
}

/* .. to here. */
static void end_reading(void) {
    funlockfile(stdin);
    memory_wake();
}

/* The next byte of the standard input. */
static int read_byte(bool takes) {
    begin_reading();
    const int byte = getc(stdin);
    if (byte != EOF && !takes) ungetc(byte, stdin);
    end_reading();
    return byte;
}

/* The next byte of a port, or a number below 0 at its end. */
static int peek_byte(Machine *machine, const char *name, unsigned port) {
    const Word word = machine->word[port];
    if (word == STANDARD_INPUT) return read_byte(false);
    if (word != INPUT_STRING) machine_fault(machine, "%s: not a port for input", name);
    const size_t used = load_string(machine, port);
    if (used == payload(machine->word[REGISTER_SCRATCH])) return EOF;
    return string_byte(machine, REGISTER_SCRATCH, used);
}

static int take_byte(Machine *machine, const char *name, unsigned port) {
    if (machine->word[port] == STANDARD_INPUT) return read_byte(true);
    const int byte = peek_byte(machine, name, port);
    if (byte == EOF) return EOF;
    memory_put(port, PORT_USED + HEAD_WORDS, memory_get(port, PORT_USED + HEAD_WORDS) + integer(1));
    return byte;
}

static Word character_or_end(int byte) { return byte == EOF ? END_OF_FILE : PLAIN(KIND_CHARACTER, byte); }

void read_char(Machine *machine, unsigned dest, unsigned port, unsigned unused, unsigned unused_too) {
    UNUSED(unused);
    UNUSED(unused_too);
    machine_set(machine, dest, character_or_end(take_byte(machine, "read-char", port)));
}

void peek_char(Machine *machine, unsigned dest, unsigned port, unsigned unused, unsigned unused_too) {
    UNUSED(unused);
    UNUSED(unused_too);
    machine_set(machine, dest, character_or_end(peek_byte(machine, "peek-char", port)));
}

/* A string of what a port has up to some byte, which is left out, or of so many bytes; at the port's end there is none. */
static void read_up_to(Machine *machine, const char *name, unsigned dest, unsigned port, int last, size_t most) {
    const bool is_standard = machine->word[port] == STANDARD_INPUT;
    size_t length = 0;
    int byte = 0;
    if (is_standard) begin_reading(); /* of two threads each reads all that it reads here at once */
    while (length < most && (byte = is_standard ? getc(stdin) : take_byte(machine, name, port)) != EOF && byte != last) {
        want_text(machine, length + 1);
        machine->text[length++] = (char)byte;
    }
    if (is_standard) end_reading();
    if (byte == EOF && !length) {
        machine_set(machine, dest, END_OF_FILE);
    } else {
        make_string_of_text(machine, dest, length);
    }
}

void read_line(Machine *machine, unsigned dest, unsigned port, unsigned unused, unsigned unused_too) {
    UNUSED(unused);
    UNUSED(unused_too);
    read_up_to(machine, "read-line", dest, port, '\n', SIZE_MAX);
}

/* The machine's text gets the next byte of the standard input. */
static int add_byte(Machine *machine, size_t *length) {
    const int byte = getc(stdin);
    if (byte == EOF) return EOF;
    want_text(machine, *length + 1);
    machine->text[(*length)++] = (char)byte;
    return byte;
}

/* The byte that is read next, which is added where it is this one. */
static bool add_if(Machine *machine, size_t *length, int wanted) {
    const int byte = getc(stdin);
    if (byte == EOF) return false;
    ungetc(byte, stdin);
    if (byte == wanted) add_byte(machine, length);
    return byte == wanted;
}

/* Up to a mark, but for one that is escaped. */
static void add_up_to(Machine *machine, size_t *length, int mark, int escape) {
    int byte;
    while ((byte = add_byte(machine, length)) != EOF && byte != mark) {
        if (byte == escape) add_byte(machine, length);
    }
}

/* What is left of a comment, within which others may stand. */
static void add_block(Machine *machine, size_t *length) {
    int byte, before = ' ';
    for (unsigned depth = 1; depth && (byte = add_byte(machine, length)) != EOF; before = byte) {
        const bool ends = before == '|' && byte == '#', begins = before == '#' && byte == '|';
        depth = depth - ends + begins;
        if (ends || begins) byte = ' ';
    }
}

static void add_token(Machine *machine, size_t *length) {
    static const char others[] = {'(', ')', '"', ';', '\'', '`', ',', '|'};
    for (int byte = getc(stdin); byte != EOF; byte = getc(stdin)) {
        ungetc(byte, stdin);
        if (isspace(byte) || memchr(others, byte, sizeof others)) return;
        add_byte(machine, length);
    }
}

/* What is added may begin a datum, or a list of some, end one, or be none. */
typedef enum part { PART_NONE, PART_DATUM, PART_BEGIN, PART_END, PART_TWO, PART_LAST } Part;

static Part add_hashed(Machine *machine, size_t *length) {
    if (add_if(machine, length, ';')) return PART_TWO; /* a datum that is none, and the next one */
    if (add_if(machine, length, '(')) return PART_BEGIN;
    if (add_if(machine, length, '|')) {
        add_block(machine, length);
        return PART_NONE;
    }
    if (add_if(machine, length, '\\')) add_byte(machine, length);
    add_token(machine, length);
    return PART_DATUM;
}

static Part add_part(Machine *machine, size_t *length) {
    const int byte = add_byte(machine, length);
    switch (byte) {
    case EOF: return PART_LAST;
    case '(': return PART_BEGIN;
    case ')': return PART_END;
    case '#': return add_hashed(machine, length);
    case '\'':
    case '`': return PART_NONE;
    case ',': add_if(machine, length, '@'); return PART_NONE;
    case ';': add_up_to(machine, length, '\n', EOF); return PART_NONE;
    case '"':
    case '|': add_up_to(machine, length, byte, '\\'); return PART_DATUM;
    default:
        if (isspace(byte)) return PART_NONE;
        add_token(machine, length);
        return PART_DATUM;
    }
}

/* A string of the next datum of the standard input, with what stands before it. Of two threads each takes a whole one. */
void datum_text(Machine *machine, unsigned dest, unsigned unused, unsigned unused_too, unsigned unused_as_well) {
    size_t length = 0, depth = 0, wanted = 1;
    UNUSED(unused);
    UNUSED(unused_too);
    UNUSED(unused_as_well);
    begin_reading();
    while (wanted) {
        const Part part = add_part(machine, &length);
        if (part == PART_LAST || (part == PART_END && !depth)) break;
        if (part == PART_BEGIN) depth++;
        if (part == PART_END) depth--;
        if (!depth && part == PART_TWO) wanted++;
        if (!depth && (part == PART_DATUM || part == PART_END)) wanted--;
    }
    end_reading();
    make_string_of_text(machine, dest, length);
}

void read_string(Machine *machine, unsigned dest, unsigned count, unsigned port, unsigned unused) {
    UNUSED(unused);
    const size_t most = want_index(machine, "read-string", machine->word[count], INT64_MAX);
    read_up_to(machine, "read-string", dest, port, EOF - 1, most);
}

void named_character(Machine *machine, unsigned dest, unsigned string, unsigned unused, unsigned unused_too) {
    UNUSED(unused);
    UNUSED(unused_too);
    const size_t length = (size_t)payload(machine->word[string]);
    read_string_text(machine, string, 0, length, 0);
    const int code = character_code(machine->text, length);
    machine_set(machine, dest, code < 0 ? FALSE : PLAIN(KIND_CHARACTER, code));
}

void is_input_port(Machine *machine, unsigned dest, unsigned port, unsigned unused, unsigned unused_too) {
    UNUSED(unused);
    UNUSED(unused_too);
    machine_set(machine, dest, boolean(machine->word[port] == INPUT_STRING || machine->word[port] == STANDARD_INPUT));
}

void is_output_port(Machine *machine, unsigned dest, unsigned port, unsigned unused, unsigned unused_too) {
    UNUSED(unused);
    UNUSED(unused_too);
    const Word word = machine->word[port];
    machine_set(machine, dest, boolean(word == OUTPUT_STRING || word == STANDARD_OUTPUT || word == STANDARD_ERROR));
}
