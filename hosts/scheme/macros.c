/*
 * Macros: `syntax-rules`. SPDX: MIT OR Apache-2.0
 *
 * What a template inserts is no plain symbol, but an alias: a number of its own for each expansion, which says what identifier it was in
 * the template, and which macro inserted it. Where something binds an alias, it means that; where nothing does, it means what the
 * template's identifier means in the scope of the macro's definition. So neither does a macro catch a variable of the program, nor the
 * reverse.
 */
#include "arena.h"
#include "forms.h"
#include <inttypes.h>
#include <stdio.h>
#include <stdlib.h>
#include <string.h>

enum { EXPANSIONS_MOST = 100000 };

struct macro {
    const Scope *scope; /* of its definition */
    bool has_ellipsis;  /* it has an ellipsis of its own, which is this */
    Symbol ellipsis;
    const Datum *literals;
    Datum **rules; /* each is a list of a pattern and a template */
    size_t count;
};

/* What a variable of a pattern has matched: a datum, or where it stands before an ellipsis what each round has bound. */
typedef struct bound {
    const struct bound *next;
    Symbol name;
    const Datum *datum;
    const struct bound **rounds;
    size_t count;
    size_t depth; /* how many ellipses it stands before */
} Bound;

/* A use of a macro. */
typedef struct use {
    const Macro *macro;
    const Datum *form;
    Place place;
    const Bound *aliases; /* what its template's identifiers have become */
} Use;

typedef struct alias {
    Symbol of;
    const Macro *macro;
} Alias;

static const Symbol first_alias = (Symbol)1 << 31;
static Alias *aliases;
static size_t alias_count, alias_room;

static void tell_items(const Datum *datum);

/* Aliases */

bool is_alias(Symbol name) { return name >= first_alias; }

Symbol alias_source(Symbol name, const Scope **scope) {
    const Alias *const alias = &aliases[name - first_alias];
    *scope = alias->macro->scope;
    return alias->of;
}

Symbol base_of(Symbol name) {
    while (is_alias(name)) name = aliases[name - first_alias].of;
    return name;
}

static Symbol new_alias(Symbol of, const Macro *macro) {
    if (alias_count == alias_room) {
        alias_room = alias_room ? 2 * alias_room : 256;
        aliases = more_memory(aliases, alias_room * sizeof *aliases);
    }
    aliases[alias_count] = (Alias){.of = of, .macro = macro};
    return first_alias + (Symbol)alias_count++;
}

void macros_close(void) { free(aliases); }

/* Tells a datum as a source has it, but for the names of characters. */
static void tell_datum(const Datum *datum) {
    static const char *const constants[] = {"()", "#f", "#t"};
    if (datum->kind == DATUM_STRING) {
        fprintf(stderr, "\"%.*s\"", (int)datum->count, datum->text);
    } else if (datum->kind == DATUM_REAL) {
        fprintf(stderr, "%.17g", datum->real);
    } else if (is_symbol(datum)) {
        fputs(symbol_name(base_of(name_of(datum))), stderr);
    } else if (datum->kind != DATUM_WORD) {
        tell_items(datum);
    } else if (is_integer(datum->word)) {
        fprintf(stderr, "%" PRId64, number(datum->word));
    } else if (kind_of(datum->word) == KIND_CHARACTER) {
        fprintf(stderr, "#\\%c", (int)payload(datum->word));
    } else {
        fputs(constants[payload(datum->word)], stderr);
    }
}

static void tell_items(const Datum *datum) {
    fputs(datum->kind == DATUM_VECTOR ? "#(" : "(", stderr);
    for (size_t i = 0; i < datum->count; i++) {
        if (i) fputc(' ', stderr);
        tell_datum(datum->items[i]);
    }
    if (datum->tail) {
        fputs(" . ", stderr);
        tell_datum(datum->tail);
    }
    fputc(')', stderr);
}

/* Definitions */

static bool is_base(const Datum *datum, const char *name) {
    return is_symbol(datum) && strcmp(symbol_name(base_of(name_of(datum))), name) == 0;
}

/* The datum stays when its form is gone. */
static Datum *kept(const Datum *datum) {
    Datum *const copy = arena_keep(sizeof *copy);
    *copy = *datum;
    if (datum->kind == DATUM_STRING) {
        copy->text = memcpy(arena_keep(datum->count + 1), datum->text, datum->count);
    } else if ((datum->kind == DATUM_LIST || datum->kind == DATUM_VECTOR) && datum->items) {
        copy->items = arena_keep(datum->count * sizeof *copy->items);
        for (size_t i = 0; i < datum->count; i++) copy->items[i] = kept(datum->items[i]);
        if (datum->tail) copy->tail = kept(datum->tail);
    }
    return copy;
}

static void check_rule(const Datum *rule) {
    want_list(rule);
    if (rule->count != 2) fault(rule->at, "a pattern and a template are wanted here");
    if (rule->items[0]->kind != DATUM_LIST || !rule->items[0]->count)
        fault(rule->items[0]->at, "a pattern is a list that begins with a name");
}

/* The macro of `(syntax-rules (literal ..) (pattern template) ..)`, or with an ellipsis of its own before the literals. */
static Macro *macro_of_rules(const Datum *rules, Place place) {
    const bool is_global = !place.scope;
    if (rules->kind != DATUM_LIST || rules->count < 2 || !is_keyword(rules->items[0], "syntax-rules", place)) {
        fault(rules->at, "syntax-rules are wanted here");
    }
    if (is_global) rules = kept(rules);
    Macro *const macro = is_global ? arena_keep(sizeof *macro) : arena_take(sizeof *macro);
    macro->scope = place.scope;
    macro->has_ellipsis = is_symbol(rules->items[1]);
    if (macro->has_ellipsis) macro->ellipsis = name_of(rules->items[1]);
    const size_t literals = macro->has_ellipsis ? 2 : 1;
    if (literals == rules->count) fault(rules->at, "literals are wanted here");
    macro->literals = want_list(rules->items[literals]);
    for (size_t i = 0; i < macro->literals->count; i++) want_name(macro->literals->items[i]);
    macro->rules = rules->items + literals + 1;
    macro->count = rules->count - literals - 1;
    for (size_t i = 0; i < macro->count; i++) check_rule(macro->rules[i]);
    return macro;
}

static Variable *macro_variable(const Datum *name, const Datum *rules, Place place) {
    Variable *const variable = variable_of(want_name(name), true);
    variable->macro = macro_of_rules(rules, place);
    return variable;
}

Variable *bind_macro(const Datum *form, Place place) {
    want_items(form, 3, 3);
    return macro_variable(form->items[1], form->items[2], place);
}

void open_macro(const Variable *variable, const Scope *scope) { variable->macro->scope = scope; }

Node *parse_define_syntax(const Datum *form, Place place) {
    want_outermost(form, place);
    want_items(form, 3, 3);
    define_global_macro(base_of(want_name(form->items[1])), macro_of_rules(form->items[2], place));
    return word_node(form->at, UNSPECIFIED);
}

/* Macros of `let-syntax` see what is around it, and those of `letrec-syntax` each other too. */
Node *parse_let_syntax(const Datum *form, Place place) {
    want_items(form, 3, SIZE_MAX);
    const Datum *const bindings = want_list(form->items[1]);
    const bool is_recursive = strcmp(spelled(form), "letrec-syntax") == 0;
    /* a scope of their own makes them local where there is none around */
    const Place around = inner(place, unnamed_variable());
    Place body = around;
    for (size_t i = 0; i < bindings->count; i++) {
        const Datum *const binding = want_list(bindings->items[i]);
        if (binding->count != 2) fault(binding->at, "a name and its syntax-rules are wanted here");
        body = inner(body, macro_variable(binding->items[0], binding->items[1], around));
    }
    for (const Scope *scope = body.scope; is_recursive && scope != around.scope; scope = scope->outer)
        open_macro(scope->variable, body.scope);
    return parse_body(form, 2, body);
}

/* (syntax-error text datum ..): a fault of what a macro has made. */
Node *parse_syntax_error(const Datum *form, Place place) {
    (void)place;
    want_items(form, 2, SIZE_MAX);
    const Datum *const text = form->items[1];
    if (text->kind != DATUM_STRING) fault(text->at, "a string is wanted here");
    fault_begin(form->at);
    fprintf(stderr, "%.*s", (int)text->count, text->text);
    for (size_t i = 2; i < form->count; i++) {
        fputc(' ', stderr);
        tell_datum(form->items[i]);
    }
    fault_end();
}

/* Matching */

static bool is_literal(const Macro *macro, Symbol name) {
    for (size_t i = 0; i < macro->literals->count; i++) {
        if (name_of(macro->literals->items[i]) == name) return true;
    }
    return false;
}

static bool is_ellipsis(const Macro *macro, const Datum *datum) {
    if (!is_symbol(datum) || is_literal(macro, name_of(datum))) return false;
    return macro->has_ellipsis ? name_of(datum) == macro->ellipsis : is_base(datum, "...");
}

static const Bound *bind_datum(const Bound *bounds, Symbol name, const Datum *datum) {
    Bound *const bound = arena_take(sizeof *bound);
    *bound = (Bound){.next = bounds, .name = name, .datum = datum};
    return bound;
}

static const Bound *find_bound(const Bound *bounds, Symbol name) {
    while (bounds && bounds->name != name) bounds = bounds->next;
    return bounds;
}

/* How many ellipses stand after an item of a pattern or a template. */
static size_t ellipses_after(const Use *use, const Datum *list, size_t item) {
    size_t end = item + 1;
    while (end < list->count && is_ellipsis(use->macro, list->items[end])) end++;
    return end - item - 1;
}

/* Each variable of a pattern that stands before an ellipsis gets what the rounds have bound. */
static const Bound *bind_rounds(const Use *use, const Datum *pattern, Bound repeated, const Bound *bounds) {
    if (is_symbol(pattern)) {
        if (is_literal(use->macro, name_of(pattern)) || is_ellipsis(use->macro, pattern) || is_base(pattern, "_")) return bounds;
        Bound *const bound = arena_take(sizeof *bound);
        *bound = repeated;
        bound->next = bounds;
        bound->name = name_of(pattern);
        return bound;
    }
    if (pattern->kind != DATUM_LIST && pattern->kind != DATUM_VECTOR) return bounds;
    for (size_t i = 0; i < pattern->count; i++) {
        Bound inside = repeated;
        inside.depth += ellipses_after(use, pattern, i);
        bounds = bind_rounds(use, pattern->items[i], inside, bounds);
    }
    return pattern->tail ? bind_rounds(use, pattern->tail, repeated, bounds) : bounds;
}

static bool match(const Use *use, const Datum *pattern, const Datum *datum, const Bound **bounds);

/* What is left of a list from some item on. */
static const Datum *rest_of(const Datum *list, size_t from) {
    if (from == list->count && list->tail) return list->tail;
    Datum *const rest = arena_take(sizeof *rest);
    *rest = *list;
    rest->kind = DATUM_LIST;
    rest->items = list->items + from;
    rest->count = list->count - from;
    return rest;
}

static bool match_rounds(const Use *use, const Datum *pattern, Datum **items, size_t count, const Bound **bounds) {
    const Bound **const rounds = arena_take((count + 1) * sizeof *rounds);
    for (size_t i = 0; i < count; i++) {
        if (!match(use, pattern, items[i], &rounds[i])) return false;
    }
    *bounds = bind_rounds(use, pattern, (Bound){.rounds = rounds, .count = count, .depth = 1}, *bounds);
    return true;
}

/* The item of a pattern that an ellipsis follows, or the number of its items. */
static size_t find_ellipsis(const Use *use, const Datum *pattern, size_t from) {
    for (size_t i = from; i + 1 < pattern->count; i++) {
        if (is_ellipsis(use->macro, pattern->items[i + 1])) return i;
    }
    return pattern->count;
}

/* Whether items of a list or a vector match those of a pattern, both from some item on. */
static bool match_items(const Use *use, const Datum *pattern, const Datum *datum, size_t from, const Bound **bounds) {
    const size_t repeated = find_ellipsis(use, pattern, from);
    const bool repeats = repeated < pattern->count;
    const size_t after = repeats ? pattern->count - repeated - 2 : 0, least = repeated + after;
    if (datum->count < least) return false;
    for (size_t i = from; i < repeated; i++) {
        if (!match(use, pattern->items[i], datum->items[i], bounds)) return false;
    }
    const size_t rounds = repeats ? datum->count - least : 0;
    if (repeats && !match_rounds(use, pattern->items[repeated], datum->items + repeated, rounds, bounds)) return false;
    for (size_t i = 0; i < after; i++) {
        if (!match(use, pattern->items[repeated + 2 + i], datum->items[repeated + rounds + i], bounds)) return false;
    }
    const size_t end = repeated + rounds + after;
    if (pattern->tail) return match(use, pattern->tail, rest_of(datum, end), bounds);
    return end == datum->count && !datum->tail;
}

static bool match_symbol(const Use *use, const Datum *pattern, const Datum *datum, const Bound **bounds) {
    if (!is_literal(use->macro, name_of(pattern))) {
        if (!is_base(pattern, "_")) *bounds = bind_datum(*bounds, name_of(pattern), datum);
        return true;
    }
    if (!is_symbol(datum)) return false;
    const Meaning wanted = meaning_of(name_of(pattern), use->macro->scope), given = meaning_of(name_of(datum), use->place.scope);
    return wanted.variable == given.variable && (wanted.variable || wanted.symbol == given.symbol);
}

static bool match(const Use *use, const Datum *pattern, const Datum *datum, const Bound **bounds) {
    if (is_symbol(pattern)) return match_symbol(use, pattern, datum, bounds);
    if (pattern->kind != datum->kind) return false;
    switch (pattern->kind) {
    case DATUM_WORD: return pattern->word == datum->word;
    case DATUM_REAL: return memcmp(&pattern->real, &datum->real, sizeof datum->real) == 0;
    case DATUM_STRING: return pattern->count == datum->count && memcmp(pattern->text, datum->text, datum->count) == 0;
    case DATUM_LIST:
    case DATUM_VECTOR: return match_items(use, pattern, datum, 0, bounds);
    }
    return false;
}

/* Templates */

/* A list or a vector that is made. */
typedef struct made {
    Datum **items;
    size_t count, room;
} Made;

static Datum *instance(Use *use, const Datum *template, const Bound *bounds, bool is_escaped);

static void add_made(Made *made, Datum *datum) {
    if (made->count == made->room) {
        const size_t room = made->room ? 2 * made->room : 8;
        Datum **const items = arena_take(room * sizeof *items);
        if (made->count) memcpy(items, made->items, made->count * sizeof *items);
        made->items = items;
        made->room = room;
    }
    made->items[made->count++] = datum;
}

static Datum *symbol_instance(Use *use, const Datum *template, const Bound *bounds) {
    const Bound *const bound = find_bound(bounds, name_of(template));
    Datum *const made = arena_take(sizeof *made);
    if (bound && !bound->datum) fault(template->at, "%s stands without its ellipsis", symbol_name(base_of(name_of(template))));
    *made = bound ? *bound->datum : *template;
    if (bound) return made;
    const Bound *alias = find_bound(use->aliases, name_of(template));
    if (!alias) {
        Datum *const renamed = arena_take(sizeof *renamed);
        *renamed = (Datum){.kind = DATUM_WORD, .at = use->form->at};
        renamed->word = PLAIN(KIND_SYMBOL, new_alias(name_of(template), use->macro));
        use->aliases = alias = bind_datum(use->aliases, name_of(template), renamed);
    }
    *made = *alias->datum;
    return made;
}

/* A round of an ellipsis in a template. */
typedef struct round {
    const Use *use;
    const Bound *bounds; /* of the template */
    size_t number;
    size_t count; /* how many rounds there are, or SIZE_MAX where no variable has told it */
} Round;

static bool escapes(const Use *use, const Datum *template) {
    return template->kind == DATUM_LIST && template->count == 2 && is_ellipsis(use->macro, template->items[0]);
}

/* How many ellipses can stand around a template, beside those in it: as many as some variable needs. */
static size_t depth_of(const Round *round, const Datum *template, bool is_escaped) {
    if (is_symbol(template)) {
        const Bound *const bound = find_bound(round->bounds, name_of(template));
        return bound ? bound->depth : 0;
    }
    if (template->kind != DATUM_LIST && template->kind != DATUM_VECTOR) return 0;
    is_escaped = is_escaped || escapes(round->use, template);
    size_t most = template->tail ? depth_of(round, template->tail, is_escaped) : 0;
    for (size_t i = 0; i < template->count; i++) {
        const size_t depth = depth_of(round, template->items[i], is_escaped);
        const size_t inside = is_escaped ? 0 : ellipses_after(round->use, template, i);
        if (depth > most + inside) most = depth - inside;
    }
    return most;
}

/* Binds a variable of a template to what a round has bound. All of one ellipsis have as many rounds. */
static const Bound *bind_variable(Round *round, const Datum *template, const Bound *inside) {
    const Bound *const bound = find_bound(round->bounds, name_of(template));
    if (!bound || bound->datum) return inside;
    if (round->count != SIZE_MAX && round->count != bound->count)
        fault(template->at, "variables of one ellipsis with unlike numbers of items");
    round->count = bound->count;
    if (round->number >= bound->count) return inside;
    Bound *const copy = arena_take(sizeof *copy);
    *copy = *find_bound(bound->rounds[round->number], bound->name);
    copy->next = inside;
    return copy;
}

/* Binds the variables of a template, but for those that are used up by the ellipses within it: `b` in `(a b ...)`, where it has one. */
static const Bound *bind_round(Round *round, const Datum *template, bool is_escaped, const Bound *inside) {
    if (is_symbol(template)) return bind_variable(round, template, inside);
    if (template->kind != DATUM_LIST && template->kind != DATUM_VECTOR) return inside;
    is_escaped = is_escaped || escapes(round->use, template);
    for (size_t i = 0; i < template->count; i++) {
        const size_t ellipses = is_escaped ? 0 : ellipses_after(round->use, template, i);
        if (!ellipses || depth_of(round, template->items[i], is_escaped) > ellipses)
            inside = bind_round(round, template->items[i], is_escaped, inside);
    }
    return template->tail ? bind_round(round, template->tail, is_escaped, inside) : inside;
}

/* Adds a template once for each round of as many ellipses. */
static void add_rounds(Use *use, const Datum *template, const Bound *bounds, size_t ellipses, Made *made) {
    Round round = {.use = use, .bounds = bounds, .number = SIZE_MAX, .count = SIZE_MAX};
    if (!ellipses) {
        add_made(made, instance(use, template, bounds, false));
        return;
    }
    bind_round(&round, template, false, NULL);
    if (round.count == SIZE_MAX) fault(template->at, "an ellipsis after what has none in the pattern");
    for (round.number = 0; round.number < round.count; round.number++)
        add_rounds(use, template, bind_round(&round, template, false, bounds), ellipses - 1, made);
}

static Datum *list_instance(Use *use, const Datum *template, const Bound *bounds, bool is_escaped) {
    Made made = {0};
    for (size_t i = 0; i < template->count;) {
        const Datum *const item = template->items[i++];
        size_t ellipses = 0;
        for (; !is_escaped && i < template->count && is_ellipsis(use->macro, template->items[i]); i++) ellipses++;
        if (ellipses) {
            add_rounds(use, item, bounds, ellipses, &made);
        } else {
            add_made(&made, instance(use, item, bounds, is_escaped));
        }
    }
    Datum *tail = template->tail ? instance(use, template->tail, bounds, is_escaped) : NULL;
    if (tail && tail->kind == DATUM_LIST) {
        for (size_t i = 0; i < tail->count; i++) add_made(&made, tail->items[i]);
        tail = tail->tail;
    }
    Datum *const list = arena_take(sizeof *list);
    *list = (Datum){.kind = template->kind, .at = use->form->at, .items = made.items, .tail = tail, .count = made.count};
    return list;
}

static Datum *instance(Use *use, const Datum *template, const Bound *bounds, bool is_escaped) {
    if (is_symbol(template)) return symbol_instance(use, template, bounds);
    if (template->kind == DATUM_LIST || template->kind == DATUM_VECTOR) {
        const bool is_escape = !is_escaped && escapes(use, template);
        return is_escape ? instance(use, template->items[1], bounds, true) : list_instance(use, template, bounds, is_escaped);
    }
    Datum *const copy = arena_take(sizeof *copy);
    *copy = *template;
    return copy;
}

/* Uses */

static const Macro *macro_of(const Datum *datum, Place place) {
    if (datum->kind != DATUM_LIST || !datum->count || !is_symbol(datum->items[0])) return NULL;
    const Meaning meaning = meaning_of(name_of(datum->items[0]), place.scope);
    return meaning.variable ? meaning.variable->macro : global_of(meaning.symbol)->macro;
}

static const Datum *expand(const Macro *macro, const Datum *form, Place place) {
    Use use = {.macro = macro, .form = form, .place = place};
    for (size_t i = 0; i < macro->count; i++) {
        const Bound *bounds = NULL;
        if (match_items(&use, macro->rules[i]->items[0], form, 1, &bounds)) return instance(&use, macro->rules[i]->items[1], bounds, false);
    }
    fault(form->at, "%s: no rule fits", spelled(form));
}

const Datum *expanded(const Datum *datum, Place place) {
    unsigned rounds = 0;
    for (const Macro *macro = macro_of(datum, place); macro; macro = macro_of(datum, place)) {
        if (++rounds > EXPANSIONS_MOST) fault(datum->at, "%s: more than %d expansions, one after another", spelled(datum), EXPANSIONS_MOST);
        datum = expand(macro, datum, place);
    }
    return datum;
}
