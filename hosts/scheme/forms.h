/*
 * What the files of the syntax share: scopes, and what nodes are made by. SPDX: MIT OR Apache-2.0
 */
#ifndef FORMS_H
#define FORMS_H

#include "syntax.h"

/* The local variables and macros that a place sees, the innermost first. */
typedef struct scope {
    const struct scope *outer;
    Variable *variable;
} Scope;

/* The loops whose call is the last thing that is done where it stands at a place, the innermost first. */
typedef struct tail {
    const struct tail *outer;
    Loop *loop;
} Tail;

typedef struct place {
    const Scope *scope;
    const Tail *tail;
} Place;

typedef Node *Form(const Datum *form, Place place);

/* What a symbol is where no local variable has its name. */
typedef struct global {
    bool has_entry, has_prelude_entry;
    unsigned entry, prelude_entry; /* of the table: what a program has, and what the prelude has */
    Form *form;
    bool is_keyword; /* the form has no value of its own */
    Macro *macro;
    const Primitive *primitive;
} Global;

/* What an identifier stands for at a place: a local variable or macro; else it is null, and it stands for the global of a symbol. */
typedef struct meaning {
    Variable *variable;
    Symbol symbol;
} Meaning;

/* Nodes */

Node *node_at(Position at, NodeKind kind, size_t count);
Node *word_node(Position at, Word word);
Node *local_node(Position at, Variable *variable);
Node *let_node(Position at, size_t count);
Node *lambda_node(Position at, Symbol name, size_t count);
Node *apply_node(Position at, Node *procedure, Node *list);

/* Calls of globals of the prelude. */
Node *call_of_global(const char *global, Node *argument);
Node *global_call(Position at, const char *global, Node *const *arguments, size_t count);
Node *primitive_of(Position at, const char *name, Node *const *operands, size_t count);
Node *set_global_node(Position at, Symbol name, Node *value);

/* A local variable that nothing names. */
Variable *unnamed_variable(void);
Variable *variable_of(Symbol name, bool is_defined);

/* Names */

Symbol symbol(const char *name);
Global *global_of(Symbol name);
bool is_symbol(const Datum *datum);
Symbol name_of(const Datum *datum);
Meaning meaning_of(Symbol name, const Scope *scope);

/* Whether an identifier stands for the global of this name. */
bool is_keyword(const Datum *datum, const char *name, Place place);

/* The form that a list begins with, where it does; else null. */
Form *form_of(const Datum *datum, Place place);

/* The name of the form that begins a list, as a source has it. */
const char *spelled(const Datum *datum);

Symbol want_name(const Datum *datum);
void want_items(const Datum *form, size_t least, size_t most);
const Datum *want_list(const Datum *datum);

/* The name of a global becomes that of a macro. */
void define_global_macro(Symbol name, Macro *macro);

/* A new type of records with so many fields. */
unsigned add_record(Position at, Symbol name, size_t fields);

/* Parsing */

Place inner(Place place, Variable *variable);
Place not_last(Place place);
Node *parse(const Datum *datum, Place place);
Node *parse_body(const Datum *form, size_t from, Place place);
Node *parse_sequence(Position at, Datum **items, size_t count, Place place);
Form parse_lambda, parse_define, parse_begin;

/* Tells a fault where no definition can stand. */
void want_outermost(const Datum *form, Place place);

/* A procedure with these parameters from some on, and the place within it; its body is still to be set. */
Node *lambda_of(Position at, Symbol name, const Datum *parameters, size_t from, Place *place);

/* The clauses of a `cond` from some item on, and what there is where none of them fits. */
Node *parse_clauses(const Datum *form, size_t from, Node *otherwise, Place place);

/* A form of the outermost level: definitions are of globals. */
Node *parse_outermost(const Datum *form);

/* definitions.c */
Form parse_define_values, parse_define_record, parse_let_values, parse_let_values_in_order, parse_guard, parse_parameterize;
Symbol defined_name(const Datum *form);
Node *defined_value(const Datum *form, Place place);

/* macros.c */
Form parse_define_syntax, parse_let_syntax, parse_syntax_error;

/* What a form is once no macro begins it. */
const Datum *expanded(const Datum *datum, Place place);

/* A local macro is bound by a definition in a body. */
Variable *bind_macro(const Datum *form, Place place);

/* A macro that a body defines sees all that the body defines. */
void open_macro(const Variable *variable, const Scope *scope);

/* The symbol that an identifier was written as. */
Symbol base_of(Symbol name);
bool is_alias(Symbol name);
void macros_close(void);

/* What an identifier that a macro inserted stands for where nothing binds it: another one, in the macro's scope. */
Symbol alias_source(Symbol name, const Scope **scope);

#endif
