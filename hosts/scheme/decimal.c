/*
 * Numbers as texts. SPDX: MIT OR Apache-2.0
 */
#include "decimal.h"
#include "fault.h"
#include <math.h>
#include <stdio.h>
#include <stdlib.h>
#include <string.h>

enum { DIGITS_MOST = 17, POSITIONAL_MOST = 21, ZEROS_MOST = 6 };

/* What is left of a text to be read. */
typedef struct left {
    const char *text;
    size_t length;
} Left;

static int digit_of(char c) {
    if (c >= '0' && c <= '9') return c - '0';
    if (c >= 'a' && c <= 'z') return c - 'a' + 10;
    if (c >= 'A' && c <= 'Z') return c - 'A' + 10;
    return 99;
}

static Number read_integer(Left left, int base) {
    const bool is_negative = left.length && *left.text == '-';
    size_t at = left.length && (*left.text == '-' || *left.text == '+') ? 1 : 0;
    int64_t sum = 0;
    bool fits = true;
    if (at == left.length) return (Number){.kind = NUMBER_NONE};
    for (; at < left.length; at++) {
        const int digit = digit_of(left.text[at]);
        if (digit >= base) return (Number){.kind = NUMBER_NONE};
        if (sum < (INTEGER_LEAST + digit) / base) fits = false;
        if (fits) sum = sum * base - digit;
    }
    if (!fits || (!is_negative && sum == INTEGER_LEAST)) return (Number){.kind = NUMBER_TOO_LARGE};
    return (Number){.kind = NUMBER_INTEGER, .word = integer(is_negative ? sum : -sum)};
}

static size_t skip_digits(Left left, size_t from) {
    while (from < left.length && left.text[from] >= '0' && left.text[from] <= '9') from++;
    return from;
}

/* Whether a text is digits with a point or an exponent, after a sign or none. */
static bool is_decimal(Left left) {
    const size_t first = left.length && (*left.text == '-' || *left.text == '+') ? 1 : 0, whole = skip_digits(left, first);
    size_t end = whole, digits = whole - first;
    if (end < left.length && left.text[end] == '.') {
        end = skip_digits(left, whole + 1);
        digits += end - whole - 1;
    }
    if (!digits) return false;
    if (end < left.length && (left.text[end] == 'e' || left.text[end] == 'E')) {
        const bool is_signed = end + 1 < left.length && (left.text[end + 1] == '-' || left.text[end + 1] == '+');
        const size_t exponent = end + 1 + is_signed;
        end = skip_digits(left, exponent);
        if (end == exponent) return false;
    }
    return end == left.length;
}

/* A fraction is an integer where nothing is left; else it is a real number. */
static Number read_fraction(Left left, int base) {
    const char *const bar = left.length ? memchr(left.text, '/', left.length - 1) : NULL;
    if (!bar || digit_of(bar[1]) >= base) return (Number){.kind = NUMBER_NONE};
    const size_t before = (size_t)(bar - left.text);
    const Left after = {.text = bar + 1, .length = left.length - before - 1};
    const Number above = read_integer((Left){.text = left.text, .length = before}, base), below = read_integer(after, base);
    if (above.kind != NUMBER_INTEGER || below.kind != NUMBER_INTEGER || below.word == integer(0)) return (Number){.kind = NUMBER_NONE};
    const int64_t quotient = number(above.word) / number(below.word);
    if (number(above.word) % number(below.word) == 0) return (Number){.kind = NUMBER_INTEGER, .word = integer(quotient)};
    return (Number){.kind = NUMBER_REAL, .real = (double)number(above.word) / (double)number(below.word)};
}

static Number read_real(Left left) {
    static const struct {
        const char *name;
        double real;
    } names[] = {{"+inf.0", INFINITY}, {"-inf.0", -INFINITY}, {"+nan.0", NAN}, {"-nan.0", NAN}};
    for (size_t i = 0; i < sizeof names / sizeof *names; i++) {
        if (strlen(names[i].name) == left.length && memcmp(names[i].name, left.text, left.length) == 0) {
            return (Number){.kind = NUMBER_REAL, .real = names[i].real};
        }
    }
    if (!is_decimal(left)) return (Number){.kind = NUMBER_NONE};
    char *const copy = more_memory(NULL, left.length + 1);
    memcpy(copy, left.text, left.length);
    copy[left.length] = '\0';
    const double real = strtod(copy, NULL);
    free(copy);
    return (Number){.kind = NUMBER_REAL, .real = real};
}

/* A number becomes exact or inexact, as a prefix says. */
static Number converted(Number number_read, char exactness) {
    if (exactness == 'i' && number_read.kind == NUMBER_INTEGER) {
        return (Number){.kind = NUMBER_REAL, .real = (double)number(number_read.word)};
    }
    if (exactness != 'e' || number_read.kind != NUMBER_REAL) return number_read;
    const double real = number_read.real;
    if (real != floor(real)) return (Number){.kind = NUMBER_NONE};
    if (real >= (double)INTEGER_MOST || real < (double)INTEGER_LEAST) return (Number){.kind = NUMBER_TOO_LARGE};
    return (Number){.kind = NUMBER_INTEGER, .word = integer((int64_t)real)};
}

Number read_number(const char *text, size_t length, int base) {
    static const char letters[] = "xdob";
    static const int bases[] = {16, 10, 8, 2};
    Left left = {.text = text, .length = length};
    char exactness = ' ';
    while (left.length > 2 && *left.text == '#') {
        const char letter = left.text[1];
        const char *const found = letter ? strchr(letters, letter) : NULL;
        if (!found && letter != 'e' && letter != 'i') return (Number){.kind = NUMBER_NONE};
        if (found) base = bases[found - letters];
        if (!found) exactness = letter;
        left = (Left){.text = left.text + 2, .length = left.length - 2};
    }
    Number read = read_integer(left, base);
    if (read.kind == NUMBER_NONE) read = read_fraction(left, base);
    if (read.kind == NUMBER_NONE && base == 10) read = read_real(left);
    return converted(read, exactness);
}

/* The fewest digits that are read as the number, as `d.ddde-dd`; it is finite. */
static void shortest_digits(double real, char *into) {
    for (int digits = 1; digits <= DIGITS_MOST; digits++) {
        snprintf(into, REAL_TEXT_MOST, "%.*e", digits - 1, real);
        if (strtod(into, NULL) == real) return;
    }
}

/* Writes digits with a point after so many of them, of which there may be more or fewer. */
static size_t positional(const char *digits, int count, int before, char *into) {
    size_t at = 0;
    for (int i = before < 1 ? before - 1 : 0; i < count || i < before; i++) {
        into[at++] = i < 0 || i >= count ? '0' : digits[i];
        if (i + 1 == before || (before < 1 && i == before - 1)) into[at++] = '.';
    }
    if (into[at - 1] == '.') into[at++] = '0';
    return at;
}

static size_t finite_text(double real, char *into) {
    char scientific[REAL_TEXT_MOST], digits[REAL_TEXT_MOST];
    int count = 0;
    size_t at = 0;
    shortest_digits(fabs(real), scientific);
    const char *const mark = strchr(scientific, 'e');
    const int exponent = atoi(mark + 1);
    for (const char *from = scientific; from < mark; from++) {
        if (*from != '.') digits[count++] = *from;
    }
    if (signbit(real)) into[at++] = '-';
    if (exponent < POSITIONAL_MOST && exponent >= -ZEROS_MOST) return at + positional(digits, count, exponent + 1, into + at);
    into[at++] = digits[0];
    if (count > 1) into[at++] = '.';
    memcpy(into + at, digits + 1, (size_t)count - 1);
    at += (size_t)count - 1;
    return at + (size_t)snprintf(into + at, REAL_TEXT_MOST - at, "e%d", exponent);
}

size_t real_text(double real, char *into) {
    if (isfinite(real)) return finite_text(real, into);
    memcpy(into, isnan(real) ? "+nan.0" : real > 0 ? "+inf.0" : "-inf.0", 6);
    return 6;
}
