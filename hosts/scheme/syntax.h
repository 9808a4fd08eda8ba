/*
 * The syntax: from data to a tree of expressions, in which each name is resolved. SPDX: MIT OR Apache-2.0
 */
#ifndef SYNTAX_H
#define SYNTAX_H

#include "primitives.h"
#include "reader.h"

typedef struct macro Macro;

/* A local variable, or a macro that is bound as one. */
typedef struct variable {
    Symbol name;
    Macro *macro;     /* or null */
    bool is_assigned; /* it may change, or be used before its definition: then it stands in a slot */
    bool is_defined;  /* its definition has been read */
    struct loop *loop;
    /* the compiler's: */
    struct unit *owner;     /* the procedure in whose registers it stands; null: none yet */
    unsigned place;         /* its register */
    struct variable *slots; /* it stands in a slot of what this variable holds, or is null */
    unsigned slot;
    bool has_slots; /* it is such a one */
} Variable;

/* A procedure that is only called where its call is the last thing that its body, or the expression that begins it, does. */
typedef struct loop {
    Variable *variable;
    unsigned parameters;
    bool is_broken; /* it is called or used elsewhere, so it is a procedure after all */
    bool is_left;   /* a loop around it is called within it */
    /* the compiler's: */
    bool is_open; /* it is compiled as a loop, not as a procedure */
    size_t start;
    unsigned places[ARGUMENTS_MOST]; /* of its variables */
    Registers live;                  /* the registers that it, and what is behind it, read */
} Loop;

typedef enum node_kind {
    NODE_WORD,      /* a constant without a reference */
    NODE_TABLE,     /* a global, or a constant with a reference */
    NODE_SET_TABLE, /* a global gets nodes[0]; `defines` where it may be undefined */
    NODE_LOCAL,
    NODE_SET_LOCAL, /* the variable gets nodes[0] */
    NODE_IF,
    NODE_OR,
    NODE_SEQUENCE,
    NODE_PRIMITIVE, /* of nodes */
    NODE_LIST,      /* of nodes, where the last is the tail */
    NODE_CALL,      /* of nodes[0] with the others */
    NODE_APPLY,     /* of nodes[0] with the list nodes[1] */
    NODE_LAMBDA,    /* variables are its parameters, nodes[0] its body */
    NODE_LET,       /* variables get nodes, the last of which is the body */
    NODE_LETREC,    /* as above, one after another, and each may refer to all */
    NODE_LOOP       /* nodes are first arguments, and then a lambda */
} NodeKind;

typedef struct node {
    NodeKind kind;
    Position at;
    unsigned count;
    struct node **nodes;
    Word word;
    unsigned entry;
    bool defines;
    bool has_rest; /* NODE_LAMBDA: the last parameter gets a list */
    Symbol name;   /* NODE_LAMBDA */
    Variable *variable;
    Variable **variables;
    unsigned variable_count;
    const Primitive *primitive;
    Loop *loop; /* NODE_LOOP; NODE_CALL: of this loop, where it is one */
} Node;

/* The names of `caar` to `cddddr`, one after another; null behind the last. */
const char *syntax_path(unsigned path);

void syntax_open(Machine *machine);
void syntax_close(void);

/* From now on definitions of a primitive's name are the program's own, and the primitive isn't used any more. */
void syntax_end_prelude(void);

/* The expression of a form. */
Node *syntax_of(const Datum *form);

/* The expression of a form that was typed: its value is written. */
Node *syntax_prompt(const Datum *form);

/* A global of the prelude has a value without a reference. */
void syntax_define(const char *name, Word word);

/* The table's entry of a global of the prelude. */
unsigned syntax_entry(const char *name);

#endif
