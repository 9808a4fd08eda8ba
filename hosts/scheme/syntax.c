/*
 * The syntax: from data to a tree of expressions, in which each name is resolved. SPDX: MIT OR Apache-2.0
 */
#include "forms.h"
#include "arena.h"
#include "table.h"
#include <stdio.h>
#include <stdlib.h>
#include <string.h>

enum { PATH_MOST = 4, DEPTH_MOST = 2000 };

static Machine *machine;
static Global *globals;
static size_t global_room;
static bool is_prelude = true;
static Node **constants; /* of the form that is read: each sets an entry of the table */
static size_t constant_count, constant_room;
static unsigned depth_of_parse; /* forms within forms */

Node *node_at(Position at, NodeKind kind, size_t count) {
    Node *const node = arena_take(sizeof *node);
    node->kind = kind;
    if (!is_prelude) node->at = at; /* what stands in no source of the program has no position */
    node->count = (unsigned)count;
    node->nodes = count ? arena_take(count * sizeof *node->nodes) : NULL;
    return node;
}

Node *word_node(Position at, Word word) {
    Node *const node = node_at(at, NODE_WORD, 0);
    node->word = word;
    return node;
}

Node *local_node(Position at, Variable *variable) {
    Node *const node = node_at(at, NODE_LOCAL, 0);
    node->variable = variable;
    return node;
}

/* A node whose variables are still to be set. */
static Node *binding_node(Position at, NodeKind kind, size_t count, size_t variables) {
    Node *const node = node_at(at, kind, count);
    node->variable_count = (unsigned)variables;
    node->variables = arena_take((variables + 1) * sizeof(Variable *));
    return node;
}

Node *let_node(Position at, size_t count) { return binding_node(at, NODE_LET, count + 1, count); }

Node *lambda_node(Position at, Symbol name, size_t count) {
    Node *const lambda = binding_node(at, NODE_LAMBDA, 1, count);
    lambda->name = base_of(name);
    return lambda;
}

Node *apply_node(Position at, Node *procedure, Node *list) {
    Node *const apply = node_at(at, NODE_APPLY, 2);
    apply->nodes[0] = procedure;
    apply->nodes[1] = list;
    return apply;
}

Variable *variable_of(Symbol name, bool is_defined) {
    Variable *const variable = arena_take(sizeof *variable);
    variable->name = name;
    variable->is_defined = is_defined;
    return variable;
}

Variable *unnamed_variable(void) { return variable_of(symbol(" "), true); }

Symbol symbol(const char *name) { return symbol_of(name, strlen(name)); }

Global *global_of(Symbol name) {
    if (name >= global_room) {
        const size_t room = 2 * ((size_t)name + 512);
        globals = more_memory(globals, room * sizeof *globals);
        for (size_t i = global_room; i < room; i++) globals[i] = (Global){0};
        global_room = room;
    }
    return &globals[name];
}

/* The entry by which the prelude knows a global. */
static unsigned prelude_entry(Symbol name) {
    Global *const global = global_of(name);
    if (!global->has_prelude_entry) {
        global->has_prelude_entry = true;
        global->prelude_entry = machine_add_entry(name);
    }
    return global->prelude_entry;
}

/* What a program's own entry begins as: what the prelude has, where it has something for programs. */
static void begin_entry(const Global *global, Symbol name) {
    if (!global->has_prelude_entry || symbol_name(name)[0] == '%') return;
    if (machine_get_entry(machine, REGISTER_FIRST, global->prelude_entry)) machine_set_entry(machine, global->entry, REGISTER_FIRST);
}

/* The entry of a global. A program's is another than the prelude's, so that it may be defined anew, and the prelude goes on. */
static unsigned entry_of(Symbol name) {
    Global *const global = global_of(name);
    if (is_prelude) return prelude_entry(name);
    if (!global->has_entry) {
        global->has_entry = true;
        global->entry = machine_add_entry(name);
        begin_entry(global, name);
    }
    return global->entry;
}

static Node *entry_node(Position at, unsigned entry) {
    Node *const node = node_at(at, NODE_TABLE, 0);
    node->entry = entry;
    return node;
}

static Node *global_node(Position at, Symbol name) { return entry_node(at, entry_of(name)); }

bool is_symbol(const Datum *datum) { return datum->kind == DATUM_WORD && kind_of(datum->word) == KIND_SYMBOL; }

Symbol name_of(const Datum *datum) { return (Symbol)payload(datum->word); }

bool is_keyword(const Datum *datum, const char *name, Place place) {
    if (!is_symbol(datum) || strcmp(symbol_name(base_of(name_of(datum))), name) != 0) return false;
    return !meaning_of(name_of(datum), place.scope).variable;
}

Form *form_of(const Datum *datum, Place place) {
    if (datum->kind != DATUM_LIST || !datum->count || !is_symbol(datum->items[0])) return NULL;
    const Meaning meaning = meaning_of(name_of(datum->items[0]), place.scope);
    return meaning.variable ? NULL : global_of(meaning.symbol)->form;
}

const char *spelled(const Datum *datum) { return symbol_name(base_of(name_of(datum->items[0]))); }

Symbol want_name(const Datum *datum) {
    if (!is_symbol(datum)) fault(datum->at, "a name is wanted here");
    return name_of(datum);
}

/* A form is a list of so many items, the first of which is its keyword. */
void want_items(const Datum *form, size_t least, size_t most) {
    if (form->tail) fault(form->at, "a form with a dot");
    if (form->count < least || form->count > most) fault(form->at, "%s: a wrong number of parts", spelled(form));
}

const Datum *want_list(const Datum *datum) {
    if (datum->kind != DATUM_LIST || datum->tail) fault(datum->at, "a list is wanted here");
    return datum;
}

static Variable *find_variable(const Scope *scope, Symbol name) {
    while (scope && scope->variable->name != name) scope = scope->outer;
    return scope ? scope->variable : NULL;
}

Meaning meaning_of(Symbol name, const Scope *scope) {
    Variable *variable = find_variable(scope, name);
    while (!variable && is_alias(name)) {
        name = alias_source(name, &scope);
        variable = find_variable(scope, name);
    }
    return (Meaning){.variable = variable, .symbol = name};
}

Place inner(Place place, Variable *variable) {
    Scope *const scope = arena_take(sizeof *scope);
    *scope = (Scope){.outer = place.scope, .variable = variable};
    return (Place){.scope = scope, .tail = place.tail};
}

Place not_last(Place place) { return (Place){.scope = place.scope, .tail = NULL}; }

static Node *parse_reference(const Datum *datum, Place place) {
    const Meaning meaning = meaning_of(name_of(datum), place.scope);
    Variable *const variable = meaning.variable;
    const bool is_form = variable ? variable->macro != NULL : global_of(meaning.symbol)->is_keyword || global_of(meaning.symbol)->macro;
    if (is_form) fault(datum->at, "%s is a keyword", symbol_name(base_of(name_of(datum))));
    if (!variable) return global_node(datum->at, meaning.symbol);
    if (variable->loop) variable->loop->is_broken = true;
    if (!variable->is_defined) variable->is_assigned = true;
    return local_node(datum->at, variable);
}

/* Constants */

static Node *quote(const Datum *datum);

static Node *list_of_items(const Datum *datum) {
    Node *const list = node_at(datum->at, NODE_LIST, datum->count + 1);
    for (size_t i = 0; i < datum->count; i++) list->nodes[i] = quote(datum->items[i]);
    list->nodes[datum->count] = datum->tail ? quote(datum->tail) : word_node(datum->at, EMPTY_LIST);
    return list;
}

Node *global_call(Position at, const char *global, Node *const *arguments, size_t count) {
    Node *const call = node_at(at, NODE_CALL, count + 1);
    call->nodes[0] = entry_node(at, prelude_entry(symbol(global)));
    for (size_t i = 0; i < count; i++) call->nodes[i + 1] = arguments[i];
    return call;
}

Node *call_of_global(const char *global, Node *argument) { return global_call(argument->at, global, &argument, 1); }

void syntax_define(const char *name, Word word) { machine_define(machine, prelude_entry(symbol(name)), word); }

unsigned syntax_entry(const char *name) { return prelude_entry(symbol(name)); }

static void add_constant(Node *set) {
    if (constant_count == constant_room) {
        constant_room = constant_room ? 2 * constant_room : 64;
        constants = more_memory(constants, constant_room * sizeof(Node *));
    }
    constants[constant_count++] = set;
}

/* A constant with a reference has an entry of the table, which is set before its form runs. */
static Node *quote(const Datum *datum) {
    if (is_symbol(datum)) return word_node(datum->at, PLAIN(KIND_SYMBOL, base_of(name_of(datum))));
    if (datum->kind == DATUM_WORD) return word_node(datum->at, datum->word);
    if (datum->kind == DATUM_LIST && !datum->count) return word_node(datum->at, EMPTY_LIST);
    Node *const node = node_at(datum->at, NODE_TABLE, 0);
    node->entry = machine_add_entry(symbol("constant"));
    if (datum->kind == DATUM_STRING || datum->kind == DATUM_REAL) {
        if (datum->kind == DATUM_REAL) {
            make_real(machine, REGISTER_FIRST, datum->real);
        } else {
            make_string_of(machine, REGISTER_FIRST, datum->text, datum->count);
        }
        machine_set_entry(machine, node->entry, REGISTER_FIRST);
        return node;
    }
    Node *const set = node_at(datum->at, NODE_SET_TABLE, 1);
    set->defines = true;
    set->entry = node->entry;
    set->nodes[0] = list_of_items(datum);
    if (datum->kind == DATUM_VECTOR) set->nodes[0] = call_of_global("list->vector", set->nodes[0]);
    add_constant(set);
    return node;
}

static Node *parse_quote(const Datum *form, Place place) {
    (void)place;
    want_items(form, 2, 2);
    return quote(form->items[1]);
}

static Node *quasi(const Datum *datum, unsigned depth, Place place);

static Node *list_node(Position at, Node *first, Node *second, Node *tail) {
    Node *const list = node_at(at, NODE_LIST, second ? 3 : 2);
    list->nodes[0] = first;
    if (second) list->nodes[1] = second;
    list->nodes[second ? 2 : 1] = tail;
    return list;
}

static Node *append_node(Node *first, Node *second) {
    Node *const both[] = {first, second};
    return global_call(first->at, "%append", both, 2);
}

/* Whether a datum is a list of such a keyword and one item more. */
static bool is_quasi(const Datum *datum, const char *name, Place place) {
    return datum->kind == DATUM_LIST && datum->count == 2 && is_keyword(datum->items[0], name, place);
}

/* How many items of a list stand before its end: `(a . ,b)` is (a unquote b). */
static size_t count_before_end(const Datum *datum, Place place) {
    const bool is_unquoted = datum->kind == DATUM_LIST && datum->count > 2 && !datum->tail;
    return is_unquoted && is_keyword(datum->items[datum->count - 2], "unquote", place) ? datum->count - 2 : datum->count;
}

/* What a list within a quasi-quotation ends in, from some item on. */
static Node *quasi_end(const Datum *datum, size_t from, unsigned depth, Place place) {
    if (datum->tail) return quasi(datum->tail, depth, place);
    if (from == datum->count) return word_node(datum->at, EMPTY_LIST);
    Datum *const rest = arena_take(sizeof *rest);
    *rest = *datum;
    rest->items += from;
    rest->count -= from;
    return quasi(rest, depth, place);
}

/* The items of a list within a quasi-quotation, from the last to the first. */
static Node *quasi_items(const Datum *datum, unsigned depth, Place place) {
    const size_t count = count_before_end(datum, place);
    Node *list = quasi_end(datum, count, depth, place);
    for (size_t i = count; i > 0; i--) {
        const Datum *const item = datum->items[i - 1];
        if (is_quasi(item, "unquote-splicing", place) && depth == 1) {
            list = append_node(parse(item->items[1], not_last(place)), list);
        } else {
            list = list_node(item->at, quasi(item, depth, place), NULL, list);
        }
    }
    return list;
}

static Node *quasi(const Datum *datum, unsigned depth, Place place) {
    if (datum->kind == DATUM_VECTOR) return call_of_global("list->vector", quasi_items(datum, depth, place));
    if (datum->kind != DATUM_LIST || !datum->count) return quote(datum);
    const bool is_unquote = is_quasi(datum, "unquote", place);
    if (is_unquote && depth == 1) return parse(datum->items[1], not_last(place));
    if (is_unquote || (is_quasi(datum, "unquote-splicing", place) && depth > 1)) return quasi_items(datum, depth - 1, place);
    if (is_quasi(datum, "quasiquote", place)) return quasi_items(datum, depth + 1, place);
    return quasi_items(datum, depth, place);
}

static Node *parse_quasiquote(const Datum *form, Place place) {
    want_items(form, 2, 2);
    return quasi(form->items[1], 1, place);
}

/* Bindings and bodies */

Node *lambda_of(Position at, Symbol name, const Datum *parameters, size_t from, Place *place) {
    const bool is_list = parameters->kind == DATUM_LIST;
    const Datum *const rest = is_list ? parameters->tail : parameters;
    const size_t count = is_list ? parameters->count - from : 0;
    if (!is_list && !is_symbol(parameters)) fault(parameters->at, "parameters are wanted here");
    if (count > ARGUMENTS_MOST) fault(parameters->at, "more than %d parameters", ARGUMENTS_MOST);
    Node *const lambda = lambda_node(at, name, count + (rest != NULL));
    lambda->has_rest = rest != NULL;
    *place = not_last(*place);
    for (size_t i = 0; i < lambda->variable_count; i++) {
        const Datum *const parameter = i < count ? parameters->items[from + i] : rest;
        lambda->variables[i] = variable_of(want_name(parameter), true);
        *place = inner(*place, lambda->variables[i]);
    }
    return lambda;
}

static Node *parse_lambda_of(Position at, Symbol name, const Datum *parameters, size_t from, const Datum *form, size_t body, Place place) {
    Node *const lambda = lambda_of(at, name, parameters, from, &place);
    lambda->nodes[0] = parse_body(form, body, place);
    return lambda;
}

Node *parse_lambda(const Datum *form, Place place) {
    want_items(form, 3, SIZE_MAX);
    return parse_lambda_of(form->at, symbol("lambda"), form->items[1], 0, form, 2, place);
}

/* What a definition defines: its second part is a name, or a list that begins with one. */
Symbol defined_name(const Datum *form) {
    if (form->count < 2 || form->tail) fault(form->at, "define: a wrong number of parts");
    const Datum *const what = form->items[1];
    if (what->kind == DATUM_LIST && what->count) return want_name(what->items[0]);
    want_items(form, 2, 3);
    return want_name(what);
}

Node *defined_value(const Datum *form, Place place) {
    const Datum *const what = form->items[1];
    if (what->kind == DATUM_LIST) {
        if (form->count < 3) fault(form->at, "define: a procedure without a body");
        return parse_lambda_of(form->at, name_of(what->items[0]), what, 1, form, 2, place);
    }
    if (form->count == 2) return word_node(form->at, UNSPECIFIED);
    Node *const value = parse(form->items[2], not_last(place));
    if (value->kind == NODE_LAMBDA) value->name = base_of(name_of(what));
    return value;
}

Node *parse_sequence(Position at, Datum **items, size_t count, Place place) {
    if (!count) fault(at, "an expression is wanted here");
    if (count == 1) return parse(items[0], place);
    Node *const sequence = node_at(at, NODE_SEQUENCE, count);
    for (size_t i = 0; i < count; i++) sequence->nodes[i] = parse(items[i], i + 1 < count ? not_last(place) : place);
    return sequence;
}

/* A binding is a list of a name and an expression. */
static const Datum *want_binding(const Datum *binding) {
    want_list(binding);
    if (binding->count != 2) fault(binding->at, "a name and its value are wanted here");
    want_name(binding->items[0]);
    return binding;
}

static Node *parse_letrec(const Datum *form, Place place) {
    want_items(form, 3, SIZE_MAX);
    const Datum *const bindings = want_list(form->items[1]);
    Node *const letrec = let_node(form->at, bindings->count);
    letrec->kind = NODE_LETREC;
    bool are_procedures = true;
    for (size_t i = 0; i < bindings->count; i++) {
        const Datum *const binding = want_binding(bindings->items[i]);
        letrec->variables[i] = variable_of(name_of(binding->items[0]), false);
        place = inner(place, letrec->variables[i]);
    }
    for (size_t i = 0; i < bindings->count; i++) {
        are_procedures = are_procedures && form_of(bindings->items[i]->items[1], place) == parse_lambda;
    }
    for (size_t i = 0; i < bindings->count; i++) letrec->variables[i]->is_defined = are_procedures;
    for (size_t i = 0; i < bindings->count; i++) {
        letrec->nodes[i] = parse(bindings->items[i]->items[1], not_last(place));
        if (letrec->nodes[i]->kind == NODE_LAMBDA) letrec->nodes[i]->name = base_of(letrec->variables[i]->name);
        letrec->variables[i]->is_defined = true;
    }
    letrec->nodes[bindings->count] = parse_body(form, 2, place);
    return letrec;
}

/* A loop has been read. Where it is a procedure, a loop around it that is called within it is one too. */
static Node *finish_loop(Node *node, const Tail *tail) {
    for (; tail && node->loop->is_broken && node->loop->is_left; tail = tail->outer) tail->loop->is_broken = true;
    return node;
}

static Node *loop_node(Position at, Symbol name, size_t count) {
    Node *const node = node_at(at, NODE_LOOP, count + 1);
    node->loop = arena_take(sizeof *node->loop);
    node->loop->variable = variable_of(name, true);
    node->loop->variable->loop = node->loop;
    node->loop->parameters = (unsigned)count;
    node->loop->is_broken = count > ARGUMENTS_MOST - 1;
    return node;
}

static Node *parse_named_let(const Datum *form, Place place) {
    want_items(form, 4, SIZE_MAX);
    const Datum *const bindings = want_list(form->items[2]);
    if (bindings->count > ARGUMENTS_MOST) fault(bindings->at, "more than %d variables of a named let", ARGUMENTS_MOST);
    Node *const node = loop_node(form->at, name_of(form->items[1]), bindings->count);
    Node *const lambda = lambda_node(form->at, name_of(form->items[1]), bindings->count);
    const Tail tail = {.outer = place.tail, .loop = node->loop};
    Place body = inner(place, node->loop->variable);
    for (size_t i = 0; i < bindings->count; i++) {
        const Datum *const binding = want_binding(bindings->items[i]);
        node->nodes[i] = parse(binding->items[1], not_last(place));
        lambda->variables[i] = variable_of(name_of(binding->items[0]), true);
        body = inner(body, lambda->variables[i]);
    }
    body.tail = &tail;
    lambda->nodes[0] = parse_body(form, 3, body);
    node->nodes[bindings->count] = lambda;
    return finish_loop(node, place.tail);
}

static Node *parse_let(const Datum *form, Place place) {
    want_items(form, 3, SIZE_MAX);
    if (is_symbol(form->items[1])) return parse_named_let(form, place);
    const Datum *const bindings = want_list(form->items[1]);
    if (!bindings->count) return parse_body(form, 2, place);
    Node *const let = let_node(form->at, bindings->count);
    Place body = place;
    for (size_t i = 0; i < bindings->count; i++) {
        const Datum *const binding = want_binding(bindings->items[i]);
        let->nodes[i] = parse(binding->items[1], not_last(place));
        let->variables[i] = variable_of(name_of(binding->items[0]), true);
        body = inner(body, let->variables[i]);
    }
    let->nodes[bindings->count] = parse_body(form, 2, body);
    return let;
}

static Node *parse_let_in_order(const Datum *form, Place place) {
    want_items(form, 3, SIZE_MAX);
    const Datum *const bindings = want_list(form->items[1]);
    Node *outermost = NULL, **into = &outermost;
    for (size_t i = 0; i < bindings->count; i++) {
        const Datum *const binding = want_binding(bindings->items[i]);
        Node *const let = let_node(binding->at, 1);
        let->nodes[0] = parse(binding->items[1], not_last(place));
        let->variables[0] = variable_of(name_of(binding->items[0]), true);
        place = inner(place, let->variables[0]);
        *into = let;
        into = &let->nodes[1];
    }
    *into = parse_body(form, 2, place);
    return outermost;
}

/* Conditions */

static Node *if_node(Position at, Node *test, Node *then, Node *otherwise) {
    Node *const node = node_at(at, NODE_IF, 3);
    node->nodes[0] = test;
    node->nodes[1] = then;
    node->nodes[2] = otherwise;
    return node;
}

static Node *or_node(Node *first, Node *second) {
    Node *const node = node_at(first->at, NODE_OR, 2);
    node->nodes[0] = first;
    node->nodes[1] = second;
    return node;
}

static Node *parse_if(const Datum *form, Place place) {
    want_items(form, 3, 4);
    Node *const test = parse(form->items[1], not_last(place));
    Node *const then = parse(form->items[2], place);
    return if_node(form->at, test, then, form->count == 4 ? parse(form->items[3], place) : word_node(form->at, UNSPECIFIED));
}

static Node *parse_and(const Datum *form, Place place) {
    if (form->count == 1) return word_node(form->at, TRUE);
    Node *node = parse(form->items[form->count - 1], place);
    for (size_t i = form->count - 1; i > 1; i--) {
        node = if_node(form->items[i - 1]->at, parse(form->items[i - 1], not_last(place)), node, word_node(form->at, FALSE));
    }
    return node;
}

static Node *parse_or(const Datum *form, Place place) {
    if (form->count == 1) return word_node(form->at, FALSE);
    Node *node = parse(form->items[form->count - 1], place);
    for (size_t i = form->count - 1; i > 1; i--) node = or_node(parse(form->items[i - 1], not_last(place)), node);
    return node;
}

Node *parse_begin(const Datum *form, Place place) {
    if (form->tail) fault(form->at, "a form with a dot");
    return parse_sequence(form->at, form->items + 1, form->count - 1, place);
}

static Node *parse_when(const Datum *form, Place place) {
    want_items(form, 3, SIZE_MAX);
    Node *const test = parse(form->items[1], not_last(place));
    Node *const body = parse_sequence(form->at, form->items + 2, form->count - 2, place);
    Node *const nothing = word_node(form->at, UNSPECIFIED);
    return strcmp(spelled(form), "when") == 0 ? if_node(form->at, test, body, nothing) : if_node(form->at, test, nothing, body);
}

/* (test => procedure): the procedure is called with the test's value, where that isn't false. */
static Node *parse_arrow(const Datum *clause, Node *otherwise, Place place) {
    Node *const let = let_node(clause->at, 1);
    Node *const call = node_at(clause->at, NODE_CALL, 2);
    let->variables[0] = unnamed_variable();
    let->nodes[0] = parse(clause->items[0], not_last(place));
    call->nodes[0] = parse(clause->items[2], not_last(place));
    call->nodes[1] = local_node(clause->at, let->variables[0]);
    let->nodes[1] = if_node(clause->at, local_node(clause->at, let->variables[0]), call, otherwise);
    return let;
}

static Node *parse_clause(const Datum *clause, Node *otherwise, Place place) {
    if (clause->count == 1) return or_node(parse(clause->items[0], not_last(place)), otherwise);
    if (clause->count == 3 && is_keyword(clause->items[1], "=>", place)) return parse_arrow(clause, otherwise, place);
    Node *const test = parse(clause->items[0], not_last(place));
    return if_node(clause->at, test, parse_sequence(clause->at, clause->items + 1, clause->count - 1, place), otherwise);
}

Node *parse_clauses(const Datum *form, size_t from, Node *otherwise, Place place) {
    Node *node = otherwise;
    for (size_t i = form->count; i > from; i--) {
        const Datum *const clause = want_list(form->items[i - 1]);
        if (!clause->count) fault(clause->at, "a clause without a test");
        if (is_keyword(clause->items[0], "else", place)) {
            if (i != form->count) fault(clause->at, "else must be the last clause");
            node = parse_sequence(clause->at, clause->items + 1, clause->count - 1, place);
        } else {
            node = parse_clause(clause, node, place);
        }
    }
    return node;
}

static Node *parse_cond(const Datum *form, Place place) {
    want_items(form, 2, SIZE_MAX);
    return parse_clauses(form, 1, word_node(form->at, UNSPECIFIED), place);
}

static const Primitive *primitive_named(const char *name) {
    for (unsigned i = 0; i < primitive_count; i++) {
        if (strcmp(primitives[i].name, name) == 0) return &primitives[i];
    }
    return NULL;
}

static Node *primitive_node(Position at, const Primitive *primitive, Node *const *operands, size_t count) {
    const size_t all = count < primitive->most || primitive->adds_other ? count + 1 : count;
    Node *const node = node_at(at, NODE_PRIMITIVE, all);
    node->primitive = primitive;
    for (size_t i = 0; i < count; i++) node->nodes[i] = operands[i];
    if (all > count) node->nodes[count] = word_node(at, primitive->other);
    if (primitive->swaps) {
        Node *const first = node->nodes[0];
        node->nodes[0] = node->nodes[1];
        node->nodes[1] = first;
    }
    return node;
}

Node *primitive_of(Position at, const char *name, Node *const *operands, size_t count) {
    return primitive_node(at, primitive_named(name), operands, count);
}

static Node *same_node(const Datum *datum, Variable *key) {
    Node *const operands[] = {local_node(datum->at, key), quote(datum)};
    return primitive_of(datum->at, datum->kind == DATUM_REAL ? "eqv?" : "eq?", operands, 2);
}

/* What follows the data of a clause of `case`: a sequence, or an arrow and a procedure that gets the key. */
static Node *parse_case_body(const Datum *clause, Variable *key, Place place) {
    if (clause->count != 3 || !is_keyword(clause->items[1], "=>", place)) {
        return parse_sequence(clause->at, clause->items + 1, clause->count - 1, place);
    }
    Node *const call = node_at(clause->at, NODE_CALL, 2);
    call->nodes[0] = parse(clause->items[2], not_last(place));
    call->nodes[1] = local_node(clause->at, key);
    return call;
}

static Node *parse_case(const Datum *form, Place place) {
    want_items(form, 3, SIZE_MAX);
    Node *const let = let_node(form->at, 1);
    Node *node = word_node(form->at, UNSPECIFIED);
    let->nodes[0] = parse(form->items[1], not_last(place));
    let->variables[0] = unnamed_variable();
    for (size_t i = form->count; i > 2; i--) {
        const Datum *const clause = want_list(form->items[i - 1]);
        if (clause->count < 2) fault(clause->at, "a clause of case has data and an expression");
        Node *const body = parse_case_body(clause, let->variables[0], place);
        if (is_keyword(clause->items[0], "else", place)) {
            if (i != form->count) fault(clause->at, "else must be the last clause");
            node = body;
            continue;
        }
        const Datum *const data = want_list(clause->items[0]);
        Node *test = word_node(clause->at, FALSE);
        for (size_t k = data->count; k > 0; k--) {
            Node *const same = same_node(data->items[k - 1], let->variables[0]);
            test = k == data->count ? same : or_node(same, test);
        }
        node = if_node(clause->at, test, body, node);
    }
    let->nodes[1] = node;
    return let;
}

/* (do ((name first next) ..) (test result ..) body ..) */
static Node *parse_do(const Datum *form, Place place) {
    want_items(form, 3, SIZE_MAX);
    const Datum *const bindings = want_list(form->items[1]), *const end = want_list(form->items[2]);
    if (bindings->count > ARGUMENTS_MOST) fault(bindings->at, "more than %d variables of a do", ARGUMENTS_MOST);
    if (!end->count) fault(end->at, "a test is wanted here");
    Node *const node = loop_node(form->at, symbol("do"), bindings->count);
    Node *const lambda = lambda_node(form->at, symbol("do"), bindings->count);
    Node *const again = node_at(form->at, NODE_CALL, bindings->count + 1);
    const Tail tail = {.outer = place.tail, .loop = node->loop};
    Place body = place;
    for (size_t i = 0; i < bindings->count; i++) {
        const Datum *const binding = want_list(bindings->items[i]);
        if (binding->count != 2 && binding->count != 3) fault(binding->at, "a name, a value and the next value are wanted here");
        node->nodes[i] = parse(binding->items[1], not_last(place));
        lambda->variables[i] = variable_of(want_name(binding->items[0]), true);
        body = inner(body, lambda->variables[i]);
    }
    for (size_t i = 0; i < bindings->count; i++) {
        const Datum *const binding = bindings->items[i];
        again->nodes[i + 1] = parse(binding->items[binding->count == 3 ? 2 : 0], not_last(body));
    }
    again->nodes[0] = local_node(form->at, node->loop->variable);
    again->loop = node->loop;
    Node *then = again;
    if (form->count > 3) {
        then = node_at(form->at, NODE_SEQUENCE, 2);
        then->nodes[0] = parse_sequence(form->at, form->items + 3, form->count - 3, not_last(body));
        then->nodes[1] = again;
    }
    body.tail = &tail;
    Node *const result = end->count == 1 ? word_node(end->at, UNSPECIFIED) : parse_sequence(end->at, end->items + 1, end->count - 1, body);
    lambda->nodes[0] = if_node(form->at, parse(end->items[0], not_last(body)), result, then);
    node->nodes[bindings->count] = lambda;
    return finish_loop(node, place.tail);
}

/* A global that a program sets or defines is no primitive any more; where it defines a keyword, that is none either. */
static void forget_primitive(Symbol name, bool is_definition) {
    Global *const global = global_of(name);
    if (is_prelude) return;
    global->primitive = NULL;
    if (is_definition || !global->is_keyword) global->form = NULL;
    if (!is_definition) return;
    global->is_keyword = false;
    global->macro = NULL;
}

static Node *parse_set(const Datum *form, Place place) {
    want_items(form, 3, 3);
    const Meaning meaning = meaning_of(want_name(form->items[1]), place.scope);
    Variable *const variable = meaning.variable;
    Node *const set = node_at(form->at, variable ? NODE_SET_LOCAL : NODE_SET_TABLE, 1);
    if (variable ? variable->macro != NULL : global_of(meaning.symbol)->macro != NULL) {
        fault(form->items[1]->at, "%s is a keyword", symbol_name(base_of(name_of(form->items[1]))));
    }
    if (variable) {
        variable->is_assigned = true;
        if (variable->loop) variable->loop->is_broken = true;
    } else {
        forget_primitive(meaning.symbol, false);
        set->entry = entry_of(meaning.symbol);
    }
    set->variable = variable;
    set->nodes[0] = parse(form->items[2], not_last(place));
    return set;
}

Node *set_global_node(Position at, Symbol name, Node *value) {
    Node *const set = node_at(at, NODE_SET_TABLE, 1);
    forget_primitive(base_of(name), true);
    set->defines = true;
    set->entry = entry_of(base_of(name));
    set->nodes[0] = value;
    return set;
}

void define_global_macro(Symbol name, Macro *macro) {
    forget_primitive(name, true);
    global_of(name)->macro = macro;
}

unsigned add_record(Position at, Symbol name, size_t fields) {
    if (fields > FIELDS_MOST) fault(at, "more than %d fields of a record", FIELDS_MOST);
    return machine_add_record((RecordType){.name = base_of(name), .fields = (unsigned)fields});
}

void want_outermost(const Datum *form, Place place) {
    if (place.scope || place.tail) fault(form->at, "a definition can't stand here");
}

Node *parse_define(const Datum *form, Place place) {
    want_outermost(form, place);
    const Symbol name = defined_name(form);
    forget_primitive(base_of(name), true); /* before its value is read, which may call it */
    return set_global_node(form->at, name, defined_value(form, place));
}

static Node *parse_else(const Datum *form, Place place) {
    (void)place;
    fault(form->at, "%s: can't stand here", spelled(form));
}

/* Calls */

static Node *parse_list(const Datum *form, Place place) {
    Node *const list = node_at(form->at, NODE_LIST, form->count);
    for (size_t i = 1; i < form->count; i++) list->nodes[i - 1] = parse(form->items[i], not_last(place));
    list->nodes[form->count - 1] = word_node(form->at, EMPTY_LIST);
    return list;
}

/* Arguments from some item on, the last of which is the tail. */
static Node *parse_spread(const Datum *form, size_t from, Place place) {
    if (from + 1 == form->count) return parse(form->items[from], not_last(place));
    Node *const list = node_at(form->at, NODE_LIST, form->count - from);
    for (size_t i = from; i < form->count; i++) list->nodes[i - from] = parse(form->items[i], not_last(place));
    return list;
}

static Node *parse_call(const Datum *form, Place place);

static Node *parse_cons_all(const Datum *form, Place place) {
    return form->count < 2 ? parse_call(form, place) : parse_spread(form, 1, place);
}

static Node *parse_values(const Datum *form, Place place) {
    if (form->count == 2) return parse(form->items[1], not_last(place));
    Node *const list = parse_list(form, place);
    return primitive_of(form->at, "%list->values", &list, 1);
}

static Node *parse_vector(const Datum *form, Place place) { return call_of_global("list->vector", parse_list(form, place)); }

static Node *parse_append(const Datum *form, Place place) {
    if (form->count != 3) return parse_call(form, place);
    Node *const first = parse(form->items[1], not_last(place));
    Node *const call = append_node(first, parse(form->items[2], not_last(place)));
    call->at = form->at;
    return call;
}

static Node *parse_apply(const Datum *form, Place place) {
    want_items(form, 3, SIZE_MAX);
    return apply_node(form->at, parse(form->items[1], not_last(place)), parse_spread(form, 2, place));
}

/* (cadr x) and its like: `car` and `cdr` by the letters between the first and the last, from the last on. */
static Node *parse_path(const Datum *form, Place place) {
    if (form->count != 2) return parse_call(form, place);
    const char *const name = spelled(form);
    Node *node = parse(form->items[1], not_last(place));
    for (size_t i = strlen(name) - 2; i > 0; i--) {
        node = primitive_of(form->at, name[i] == 'a' ? "car" : "cdr", &node, 1);
    }
    return node;
}

/* A loop whose call can be a jump here: each loop between knows that it is left. */
static Loop *loop_here(const Datum *form, Place place) {
    Variable *const variable = is_symbol(form->items[0]) ? meaning_of(name_of(form->items[0]), place.scope).variable : NULL;
    if (!variable || !variable->loop || variable->loop->parameters != form->count - 1) return NULL;
    const Tail *tail = place.tail;
    while (tail && tail->loop != variable->loop) tail = tail->outer;
    if (!tail) return NULL;
    for (const Tail *between = place.tail; between != tail; between = between->outer) between->loop->is_left = true;
    return variable->loop;
}

static Node *parse_call(const Datum *form, Place place) {
    Loop *const loop = loop_here(form, place);
    if (form->count - 1 > ARGUMENTS_MOST) {
        Node *const list = parse_list(form, place);
        return apply_node(form->at, parse(form->items[0], not_last(place)), list);
    }
    Node *const call = node_at(form->at, NODE_CALL, form->count);
    call->loop = loop;
    call->nodes[0] = loop ? local_node(form->at, loop->variable) : parse(form->items[0], not_last(place));
    for (size_t i = 1; i < form->count; i++) call->nodes[i] = parse(form->items[i], not_last(place));
    return call;
}

/* A call of a primitive; of one with another number of arguments than the machine's, where it folds; else it is a call as any other. */
static Node *parse_primitive(const Datum *form, const Primitive *primitive, Place place) {
    const size_t count = form->count - 1;
    const bool fits = count >= primitive->least && count <= primitive->most;
    if (!fits && !(primitive->folds && count > 2)) return parse_call(form, place);
    Node **const operands = arena_take((count + 1) * sizeof *operands);
    for (size_t i = 0; i < count; i++) operands[i] = parse(form->items[i + 1], not_last(place));
    if (fits) return primitive_node(form->at, primitive, operands, count);
    Node *node = operands[0];
    for (size_t i = 1; i < count; i++) {
        Node *pair[] = {node, operands[i]};
        node = primitive_node(form->at, primitive, pair, 2);
    }
    return node;
}

static Node *parse_form(const Datum *form, Place place) {
    if (!form->count) fault(form->at, "() is no expression");
    if (is_symbol(form->items[0])) {
        const Meaning meaning = meaning_of(name_of(form->items[0]), place.scope);
        const Global *const global = meaning.variable ? NULL : global_of(meaning.symbol);
        if (global && global->form) return global->form(form, place);
        if (form->tail) fault(form->at, "a call with a dot");
        if (global && global->primitive) return parse_primitive(form, global->primitive, place);
    }
    if (form->tail) fault(form->at, "a call with a dot");
    return parse_call(form, place);
}

Node *parse(const Datum *datum, Place place) {
    datum = expanded(datum, place);
    if (is_symbol(datum)) return parse_reference(datum, place);
    if (datum->kind != DATUM_LIST) return quote(datum);
    if (++depth_of_parse > DEPTH_MOST) fault(datum->at, "forms within forms, more than %d deep", DEPTH_MOST);
    Node *const node = parse_form(datum, place);
    depth_of_parse--;
    return node;
}

static const struct {
    const char *name;
    Form *form;
    bool is_keyword;
} forms[] = {
    {"quote", parse_quote, true},
    {"quasiquote", parse_quasiquote, true},
    {"lambda", parse_lambda, true},
    {"define", parse_define, true},
    {"define-values", parse_define_values, true},
    {"define-record-type", parse_define_record, true},
    {"define-syntax", parse_define_syntax, true},
    {"let-syntax", parse_let_syntax, true},
    {"letrec-syntax", parse_let_syntax, true},
    {"syntax-rules", parse_else, true},
    {"syntax-error", parse_syntax_error, true},
    {"set!", parse_set, true},
    {"if", parse_if, true},
    {"cond", parse_cond, true},
    {"case", parse_case, true},
    {"and", parse_and, true},
    {"or", parse_or, true},
    {"when", parse_when, true},
    {"unless", parse_when, true},
    {"begin", parse_begin, true},
    {"let", parse_let, true},
    {"let*", parse_let_in_order, true},
    {"let-values", parse_let_values, true},
    {"let*-values", parse_let_values_in_order, true},
    {"letrec", parse_letrec, true},
    {"letrec*", parse_letrec, true},
    {"do", parse_do, true},
    {"guard", parse_guard, true},
    {"parameterize", parse_parameterize, true},
    {"else", parse_else, true},
    {"=>", parse_else, true},
    {"unquote", parse_else, true},
    {"unquote-splicing", parse_else, true},
    {"list", parse_list, false},
    {"cons*", parse_cons_all, false},
    {"values", parse_values, false},
    {"vector", parse_vector, false},
    {"append", parse_append, false},
    {"apply", parse_apply, false},
};

const char *syntax_path(unsigned path) {
    static char name[] = "c....r";
    unsigned steps = 2;
    for (; steps <= PATH_MOST && path >= 1u << steps; steps++) path -= 1u << steps;
    if (steps > PATH_MOST) return NULL;
    for (unsigned i = 0; i < steps; i++) name[i + 1] = path >> i & 1 ? 'd' : 'a';
    name[steps + 1] = 'r';
    name[steps + 2] = '\0';
    return name;
}

void syntax_open(Machine *of) {
    machine = of;
    for (size_t i = 0; i < sizeof forms / sizeof *forms; i++) {
        Global *const global = global_of(symbol(forms[i].name));
        global->form = forms[i].form;
        global->is_keyword = forms[i].is_keyword;
    }
    for (unsigned path = 0; syntax_path(path); path++) global_of(symbol(syntax_path(path)))->form = parse_path;
    for (unsigned i = 0; i < primitive_count; i++) global_of(symbol(primitives[i].name))->primitive = &primitives[i];
}

void syntax_close(void) {
    free(globals);
    free(constants);
    macros_close();
}

void syntax_end_prelude(void) { is_prelude = false; }

/* Definitions within a `begin` of the outermost level are of that level too. */
Node *parse_outermost(const Datum *form) {
    const Place outermost = {0};
    form = expanded(form, outermost);
    if (form_of(form, outermost) != parse_begin || form->tail) return parse(form, outermost);
    if (form->count == 1) return word_node(form->at, UNSPECIFIED);
    Node *const sequence = node_at(form->at, NODE_SEQUENCE, form->count - 1);
    for (size_t i = 1; i < form->count; i++) sequence->nodes[i - 1] = parse_outermost(form->items[i]);
    return sequence;
}

Node *syntax_of(const Datum *form) {
    constant_count = 0;
    depth_of_parse = 0;
    Node *const node = parse_outermost(form);
    if (!constant_count) return node;
    Node *const sequence = node_at(form->at, NODE_SEQUENCE, constant_count + 1);
    memcpy(sequence->nodes, constants, constant_count * sizeof *constants);
    sequence->nodes[constant_count] = node;
    return sequence;
}

Node *syntax_prompt(const Datum *form) { return call_of_global("%write-line", syntax_of(form)); }
