/*
 * Bodies and their definitions, records, several values, `guard`. SPDX: MIT OR Apache-2.0
 */
#include "arena.h"
#include "forms.h"
#include <string.h>

typedef enum item_kind {
    ITEM_EXPRESSION,
    ITEM_DEFINE, /* the datum is a `define` */
    ITEM_VALUES, /* the datum is a `define-values`; the variable gets a list of the values */
    ITEM_NODE    /* the variable gets what a node computes */
} ItemKind;

/* What stands in a body. */
typedef struct item {
    ItemKind kind;
    const Datum *datum;
    Node *node;
    Variable *variable; /* null: an expression */
} Item;

typedef struct body {
    Item *items;
    size_t count, room;
    size_t defined; /* items up to the last definition */
    Place place;
} Body;

/* A name and what it gets. */
typedef struct definition {
    Symbol name;
    Node *value;
} Definition;

static const Datum *want_names(const Datum *names) {
    const Datum *const rest = names->kind == DATUM_LIST ? names->tail : names;
    for (size_t i = 0; names->kind == DATUM_LIST && i < names->count; i++) want_name(names->items[i]);
    if (rest) want_name(rest);
    return names;
}

/* Several values */

static Node *values_list(Node *values) { return primitive_of(values->at, "%values->list", &values, 1); }

/* A list of as many values as names want. */
static Node *wanted_values(const Datum *names, Node *values) {
    const bool is_list = names->kind == DATUM_LIST;
    Node *const parts[] = {values_list(values), word_node(names->at, integer(is_list ? (int64_t)names->count : 0)),
                           word_node(names->at, boolean(!is_list || names->tail))};
    return global_call(names->at, "%want-count", parts, 3);
}

/* What each name gets of a list that a variable has. */
static size_t split_values(const Datum *names, Variable *list, Definition *into) {
    const bool is_list = names->kind == DATUM_LIST;
    const size_t count = is_list ? names->count : 0;
    const Datum *const rest = is_list ? names->tail : names;
    Node *left = local_node(names->at, list);
    for (size_t i = 0; i < count; i++) {
        into[i] = (Definition){.name = name_of(names->items[i]), .value = primitive_of(names->at, "car", &left, 1)};
        left = primitive_of(names->at, "cdr", &left, 1);
    }
    if (rest) into[count] = (Definition){.name = name_of(rest), .value = left};
    return count + (rest != NULL);
}

static Definition *room_for_values(const Datum *names) { return arena_take((names->count + 1) * sizeof(Definition)); }

Node *parse_define_values(const Datum *form, Place place) {
    want_outermost(form, place);
    want_items(form, 3, 3);
    const Datum *const names = want_names(form->items[1]);
    Definition *const definitions = room_for_values(names);
    Node *const let = let_node(form->at, 1);
    let->nodes[0] = wanted_values(names, parse(form->items[2], place));
    let->variables[0] = unnamed_variable();
    const size_t count = split_values(names, let->variables[0], definitions);
    Node *const sequence = node_at(form->at, NODE_SEQUENCE, count + 1);
    for (size_t i = 0; i < count; i++) sequence->nodes[i] = set_global_node(form->at, definitions[i].name, definitions[i].value);
    sequence->nodes[count] = word_node(form->at, UNSPECIFIED);
    let->nodes[1] = sequence;
    return let;
}

static const Datum *want_values_binding(const Datum *binding) {
    want_list(binding);
    if (binding->count != 2) fault(binding->at, "names and an expression are wanted here");
    return binding;
}

/* Binds names of some binding on, whose values variables have as lists; the body is within the last. */
static Node *bind_values(const Datum *form, size_t which, Variable **lists, Place place) {
    const Datum *const bindings = form->items[1];
    if (which == bindings->count) return parse_body(form, 2, place);
    const Datum *const binding = bindings->items[which];
    Node *const lambda = lambda_of(binding->at, symbol("let-values"), binding->items[0], 0, &place);
    lambda->nodes[0] = bind_values(form, which + 1, lists, place);
    return apply_node(binding->at, lambda, local_node(binding->at, lists[which]));
}

Node *parse_let_values(const Datum *form, Place place) {
    want_items(form, 3, SIZE_MAX);
    const Datum *const bindings = want_list(form->items[1]);
    if (!bindings->count) return parse_body(form, 2, place);
    Node *const let = let_node(form->at, bindings->count);
    for (size_t i = 0; i < bindings->count; i++) {
        const Datum *const binding = want_values_binding(bindings->items[i]);
        let->nodes[i] = values_list(parse(binding->items[1], not_last(place)));
        let->variables[i] = unnamed_variable();
    }
    let->nodes[bindings->count] = bind_values(form, 0, let->variables, place);
    return let;
}

static Node *bind_values_in_order(const Datum *form, size_t which, Place place) {
    const Datum *const bindings = form->items[1];
    if (which == bindings->count) return parse_body(form, 2, place);
    const Datum *const binding = want_values_binding(bindings->items[which]);
    Node *const list = values_list(parse(binding->items[1], not_last(place)));
    Node *const lambda = lambda_of(binding->at, symbol("let*-values"), binding->items[0], 0, &place);
    lambda->nodes[0] = bind_values_in_order(form, which + 1, place);
    return apply_node(binding->at, lambda, list);
}

Node *parse_let_values_in_order(const Datum *form, Place place) {
    want_items(form, 3, SIZE_MAX);
    want_list(form->items[1]);
    return bind_values_in_order(form, 0, place);
}

/* Records */

/* A record's definition while it is read. */
typedef struct record {
    const Datum *form;
    unsigned type;
    Definition *definitions;
    size_t count;
} Record;

/* A procedure of a record stands in no source: a fault in it has the position of its call. */
static const Position nowhere;

enum { RECORD_FIELDS = 4 }; /* the part of a definition with which its fields begin */

static bool is_false(const Datum *datum) { return datum->kind == DATUM_WORD && datum->word == FALSE; }

static const Datum *field_name(const Datum *field) {
    if (field->kind != DATUM_LIST) return field;
    if (field->tail || !field->count || field->count > 3) fault(field->at, "a field, its accessor and its modifier are wanted here");
    return field->items[0];
}

static void add_definition(Record *record, Symbol name, Node *value) {
    record->definitions[record->count++] = (Definition){.name = name, .value = value};
}

static Node *field_node(const Record *record, size_t field) {
    return word_node(nowhere, integer((int64_t)(record->type * RECORD_FIELDS_MOST + field)));
}

static size_t find_field(const Record *record, const Datum *name) {
    for (size_t i = RECORD_FIELDS; i < record->form->count; i++) {
        if (want_name(field_name(record->form->items[i])) == want_name(name)) return i - RECORD_FIELDS;
    }
    fault(name->at, "%s is no field of the record", symbol_name(base_of(name_of(name))));
}

/* The parameters that a constructor has beside a rest list: those that don't fit stand in that. */
static Node *constructor_argument(const Node *lambda, size_t which) {
    if (which < ARGUMENTS_MOST) return local_node(nowhere, lambda->variables[which]);
    Node *left = local_node(nowhere, lambda->variables[ARGUMENTS_MOST]);
    for (size_t i = ARGUMENTS_MOST; i < which; i++) left = primitive_of(nowhere, "cdr", &left, 1);
    return primitive_of(nowhere, "car", &left, 1);
}

/* A procedure that makes a record, of so many fields in an order. */
static Node *constructor_node(const Record *record, Symbol name, const size_t *fields, size_t count) {
    const bool has_rest = count > ARGUMENTS_MOST;
    Node *const lambda = lambda_node(nowhere, name, has_rest ? ARGUMENTS_MOST + 1 : count);
    Node *const let = let_node(nowhere, 1), *const sequence = node_at(nowhere, NODE_SEQUENCE, count + 1 + has_rest);
    Node *const type = field_node(record, 0);
    size_t step = 0;
    lambda->has_rest = has_rest;
    for (size_t i = 0; i < lambda->variable_count; i++) lambda->variables[i] = unnamed_variable();
    let->variables[0] = unnamed_variable();
    let->nodes[0] = primitive_of(nowhere, "%record-new", &type, 1);
    if (has_rest) {
        Node *const parts[] = {local_node(nowhere, lambda->variables[ARGUMENTS_MOST]),
                               word_node(nowhere, integer((int64_t)count - ARGUMENTS_MOST)), word_node(nowhere, FALSE)};
        sequence->nodes[step++] = global_call(nowhere, "%want-count", parts, 3);
    }
    for (size_t i = 0; i < count; i++) {
        Node *const parts[] = {local_node(nowhere, let->variables[0]), field_node(record, fields[i]), constructor_argument(lambda, i)};
        sequence->nodes[step++] = primitive_of(nowhere, "%record-set!", parts, 3);
    }
    sequence->nodes[step] = local_node(nowhere, let->variables[0]);
    let->nodes[1] = sequence;
    lambda->nodes[0] = let;
    return lambda;
}

/* The constructor is #f, a name that takes all fields, or a list of a name and the fields that it takes. */
static void add_constructor(Record *record, const Datum *constructor) {
    if (is_false(constructor)) return;
    const bool is_list = constructor->kind == DATUM_LIST && constructor->count;
    const size_t count = is_list ? constructor->count - 1 : record->form->count - RECORD_FIELDS;
    size_t *const fields = arena_take((count + 1) * sizeof *fields);
    if (is_list) want_list(constructor);
    const Symbol name = want_name(is_list ? constructor->items[0] : constructor);
    for (size_t i = 0; i < count; i++) fields[i] = is_list ? find_field(record, constructor->items[i + 1]) : i;
    add_definition(record, name, constructor_node(record, name, fields, count));
}

static Node *predicate_node(const Record *record, Symbol name) {
    Node *const lambda = lambda_node(nowhere, name, 1);
    lambda->variables[0] = unnamed_variable();
    Node *const parts[] = {local_node(nowhere, lambda->variables[0]), word_node(nowhere, PLAIN(KIND_RECORD, record->type))};
    lambda->nodes[0] = primitive_of(nowhere, "%record?", parts, 2);
    return lambda;
}

/* A procedure that reads a field or, with a second parameter, writes it. */
static Node *field_procedure(const Record *record, Symbol name, size_t field, size_t parameters) {
    Node *const lambda = lambda_node(nowhere, name, parameters);
    Node *parts[] = {NULL, field_node(record, field), NULL};
    for (size_t i = 0; i < parameters; i++) {
        lambda->variables[i] = unnamed_variable();
        parts[2 * i] = local_node(nowhere, lambda->variables[i]);
    }
    lambda->nodes[0] = primitive_of(nowhere, parameters == 1 ? "%record-ref" : "%record-set!", parts, parameters + 1);
    return lambda;
}

static void add_field(Record *record, const Datum *field, size_t which) {
    if (field->kind != DATUM_LIST) return;
    for (size_t i = 1; i < field->count; i++) {
        const Symbol name = want_name(field->items[i]);
        add_definition(record, name, field_procedure(record, name, which, i));
    }
}

/* (define-record-type name (constructor field ..) predicate (field accessor modifier) ..); the name comes last. */
static Record read_record(const Datum *form) {
    want_items(form, RECORD_FIELDS, SIZE_MAX);
    const Datum *const what = form->items[1], *const predicate = form->items[3];
    const Symbol name = want_name(what->kind == DATUM_LIST && what->count ? what->items[0] : what);
    Record record = {.form = form, .definitions = arena_take((3 + 2 * form->count) * sizeof *record.definitions)};
    record.type = add_record(form->at, name, form->count - RECORD_FIELDS);
    add_constructor(&record, form->items[2]);
    if (!is_false(predicate)) add_definition(&record, want_name(predicate), predicate_node(&record, name_of(predicate)));
    for (size_t i = RECORD_FIELDS; i < form->count; i++) {
        want_name(field_name(form->items[i]));
        add_field(&record, form->items[i], i - RECORD_FIELDS);
    }
    add_definition(&record, name, word_node(form->at, PLAIN(KIND_RECORD, record.type)));
    return record;
}

Node *parse_define_record(const Datum *form, Place place) {
    want_outermost(form, place);
    const Record record = read_record(form);
    Node *const sequence = node_at(form->at, NODE_SEQUENCE, record.count);
    for (size_t i = 0; i < record.count; i++) {
        sequence->nodes[i] = set_global_node(form->at, record.definitions[i].name, record.definitions[i].value);
    }
    return sequence;
}

/* Bodies */

static void add_item(Body *body, ItemKind kind, const Datum *datum, Node *node, Variable *variable) {
    if (body->count == body->room) {
        const size_t room = body->room ? 2 * body->room : 8;
        Item *const items = arena_take(room * sizeof *items);
        if (body->count) memcpy(items, body->items, body->count * sizeof *items);
        body->items = items;
        body->room = room;
    }
    body->items[body->count++] = (Item){.kind = kind, .datum = datum, .node = node, .variable = variable};
    if (!variable) return;
    body->defined = body->count;
    body->place = inner(body->place, variable);
}

static void add_values(Body *body, const Datum *form) {
    want_items(form, 3, 3);
    const Datum *const names = want_names(form->items[1]);
    Definition *const definitions = room_for_values(names);
    Variable *const list = unnamed_variable();
    add_item(body, ITEM_VALUES, form, NULL, list);
    const size_t count = split_values(names, list, definitions);
    for (size_t i = 0; i < count; i++) add_item(body, ITEM_NODE, form, definitions[i].value, variable_of(definitions[i].name, false));
}

static void add_record_items(Body *body, const Datum *form) {
    const Record record = read_record(form);
    for (size_t i = 0; i < record.count; i++) {
        add_item(body, ITEM_NODE, form, record.definitions[i].value, variable_of(record.definitions[i].name, false));
    }
}

/* Adds a form of a body: what a macro makes of it, and of a `begin` what stands there. */
static void add_form(Body *body, const Datum *datum) {
    datum = expanded(datum, body->place);
    Form *const form = form_of(datum, body->place);
    if (form == parse_begin && !datum->tail) {
        for (size_t i = 1; i < datum->count; i++) add_form(body, datum->items[i]);
    } else if (form == parse_define) {
        add_item(body, ITEM_DEFINE, datum, NULL, variable_of(defined_name(datum), false));
    } else if (form == parse_define_values) {
        add_values(body, datum);
    } else if (form == parse_define_record) {
        add_record_items(body, datum);
    } else if (form == parse_define_syntax) {
        const Place local = body->place.scope ? body->place : inner(body->place, unnamed_variable());
        body->place = inner(local, bind_macro(datum, local));
    } else {
        add_item(body, ITEM_EXPRESSION, datum, NULL, NULL);
    }
}

static bool defines_procedure(const Item *item, Place place) {
    if (item->kind == ITEM_NODE) return item->node->kind == NODE_LAMBDA;
    if (item->kind != ITEM_DEFINE) return false;
    const Datum *const form = item->datum;
    return form->items[1]->kind == DATUM_LIST || (form->count == 3 && form_of(form->items[2], place) == parse_lambda);
}

static Node *item_value(const Item *item, Place place) {
    switch (item->kind) {
    case ITEM_DEFINE: return defined_value(item->datum, place);
    case ITEM_VALUES: return wanted_values(item->datum->items[1], parse(item->datum->items[2], place));
    case ITEM_NODE: return item->node;
    case ITEM_EXPRESSION: break;
    }
    return parse(item->datum, place);
}

static Node *parse_items(Position at, const Body *body) {
    const Item *const items = body->items + body->defined;
    const size_t count = body->count - body->defined;
    if (!count) fault(at, "an expression is wanted here");
    if (count == 1) return parse(items[0].datum, body->place);
    Node *const sequence = node_at(at, NODE_SEQUENCE, count);
    for (size_t i = 0; i < count; i++) sequence->nodes[i] = parse(items[i].datum, i + 1 < count ? not_last(body->place) : body->place);
    return sequence;
}

/* What stands before the last definition of a body; an expression there is the value of a variable that nothing knows. */
static Node *parse_definitions(Position at, const Body *body) {
    const size_t count = body->defined;
    Node *const letrec = let_node(at, count);
    letrec->kind = NODE_LETREC;
    for (size_t i = 0; i < count; i++) letrec->variables[i] = body->items[i].variable ? body->items[i].variable : unnamed_variable();
    for (size_t i = 0; i < count; i++) {
        /* procedures that stand one after another may refer to each other */
        for (size_t k = i; k < count && defines_procedure(&body->items[k], body->place); k++) letrec->variables[k]->is_defined = true;
        letrec->nodes[i] = item_value(&body->items[i], not_last(body->place));
        letrec->variables[i]->is_defined = true;
    }
    letrec->nodes[count] = parse_items(at, body);
    return letrec;
}

Node *parse_body(const Datum *form, size_t from, Place place) {
    Body body = {.place = place};
    if (form->tail) fault(form->at, "a form with a dot");
    for (size_t i = from; i < form->count; i++) add_form(&body, form->items[i]);
    for (const Scope *scope = body.place.scope; scope != place.scope; scope = scope->outer) {
        if (scope->variable->macro) open_macro(scope->variable, body.place.scope);
    }
    return body.defined ? parse_definitions(form->at, &body) : parse_items(form->at, &body);
}

/* (guard (name clause ..) body ..): the clauses are a procedure of what was raised, and of one that raises it again. */
Node *parse_guard(const Datum *form, Place place) {
    want_items(form, 3, SIZE_MAX);
    const Datum *const clauses = want_list(form->items[1]);
    if (!clauses->count) fault(clauses->at, "a name is wanted here");
    place = not_last(place);
    Node *const body = lambda_node(form->at, symbol("guard"), 0), *const handler = lambda_node(form->at, symbol("guard"), 2);
    Node *const parts[] = {body, handler}, *const again = node_at(form->at, NODE_CALL, 1);
    body->nodes[0] = parse_body(form, 2, place);
    handler->variables[0] = variable_of(want_name(clauses->items[0]), true);
    handler->variables[1] = unnamed_variable();
    again->nodes[0] = local_node(form->at, handler->variables[1]);
    handler->nodes[0] = parse_clauses(clauses, 1, again, inner(place, handler->variables[0]));
    return global_call(form->at, "%guard", parts, 2);
}

/* (parameterize ((parameter value) ..) body ..): the prelude gets a list of pairs of both, and the body as a procedure. */
Node *parse_parameterize(const Datum *form, Place place) {
    want_items(form, 3, SIZE_MAX);
    const Datum *const bindings = want_list(form->items[1]);
    Node *const list = node_at(form->at, NODE_LIST, bindings->count + 1), *const body = lambda_node(form->at, symbol("parameterize"), 0);
    Node *const parts[] = {list, body};
    place = not_last(place);
    for (size_t i = 0; i < bindings->count; i++) {
        const Datum *const binding = want_list(bindings->items[i]);
        if (binding->count != 2) fault(binding->at, "a parameter and its value are wanted here");
        Node *const both[] = {parse(binding->items[0], place), parse(binding->items[1], place)};
        list->nodes[i] = primitive_of(binding->at, "cons", both, 2);
    }
    list->nodes[bindings->count] = word_node(form->at, EMPTY_LIST);
    body->nodes[0] = parse_body(form, 2, place);
    return global_call(form->at, "%parameterize", parts, 2);
}
