/*
 * calls.h: the functions of lxr.h as a table, so that one program can call two versions of them. SPDX: MIT OR Apache-2.0
 *
 * calls.c is compiled twice: as it is for the archive (calls_lxr), and behind -include plain_names.h for plain_heap.c (calls_plain), which
 * is compiled so too.
 */
#ifndef CALLS_H
#define CALLS_H

#include "../lxr.h"

struct calls {
    const char *name;
    lxr_code (*open)(lxr_heap *, const lxr_settings *);
    lxr_code (*close)(lxr_heap *);
    lxr_code (*new)(lxr_heap *, uint32_t, uint32_t, uint32_t);
    lxr_code (*load)(lxr_heap *, uint32_t, uint32_t, uint32_t);
    lxr_code (*store)(lxr_heap *, uint32_t, uint32_t, uint32_t);
    lxr_code (*get)(const lxr_heap *, uint32_t, uint32_t, uint64_t *);
    lxr_code (*put)(lxr_heap *, uint32_t, uint32_t, uint64_t);
    lxr_code (*same)(const lxr_heap *, uint32_t, uint32_t, uint32_t *);
    lxr_code (*move)(lxr_heap *, uint32_t, uint32_t);
    lxr_code (*nil)(lxr_heap *, uint32_t);
    lxr_code (*is_nil)(const lxr_heap *, uint32_t, uint32_t *);
    lxr_code (*registers_in_use)(lxr_heap *, uint32_t);
    lxr_code (*shape)(const lxr_heap *, uint32_t, uint32_t *, uint32_t *, uint32_t *);
    lxr_code (*new_with)(lxr_heap *, uint32_t, const uint32_t *, size_t, const uint64_t *, size_t);
    lxr_code (*get_many)(const lxr_heap *, uint32_t, uint32_t, uint64_t *, size_t);
    lxr_code (*put_many)(lxr_heap *, uint32_t, uint32_t, const uint64_t *, size_t);
    lxr_code (*load_many)(lxr_heap *, uint32_t, uint32_t, const uint32_t *, size_t);
    lxr_code (*store_many)(lxr_heap *, uint32_t, uint32_t, const uint32_t *, size_t);
    lxr_code (*apply)(lxr_heap *, lxr_operation *, size_t, size_t *);
    lxr_code (*large_new)(lxr_heap *, uint32_t, uint32_t);
    lxr_code (*large_get)(const lxr_heap *, uint32_t, uint32_t, uint64_t *);
    lxr_code (*large_put)(lxr_heap *, uint32_t, uint32_t, uint64_t);
    lxr_code (*large_read)(const lxr_heap *, uint32_t, uint32_t, uint64_t *, size_t);
    lxr_code (*large_write)(lxr_heap *, uint32_t, uint32_t, const uint64_t *, size_t);
    lxr_code (*array_new)(lxr_heap *, uint32_t, uint32_t);
    lxr_code (*array_length)(const lxr_heap *, uint32_t, uint32_t *);
    lxr_code (*array_load)(lxr_heap *, uint32_t, uint32_t, uint32_t);
    lxr_code (*array_store)(lxr_heap *, uint32_t, uint32_t, uint32_t);
    lxr_code (*array_fill)(lxr_heap *, uint32_t, uint32_t, uint32_t, uint32_t);
    lxr_code (*array_copy)(lxr_heap *, uint32_t, uint32_t, uint32_t, uint32_t, uint32_t);
    lxr_code (*words_new)(lxr_heap *, uint32_t, uint32_t);
    lxr_code (*words_length)(const lxr_heap *, uint32_t, uint32_t *);
    lxr_code (*words_get)(const lxr_heap *, uint32_t, uint32_t, uint64_t *);
    lxr_code (*words_put)(lxr_heap *, uint32_t, uint32_t, uint64_t);
    lxr_code (*words_read)(const lxr_heap *, uint32_t, uint32_t, uint64_t *, size_t);
    lxr_code (*words_write)(lxr_heap *, uint32_t, uint32_t, const uint64_t *, size_t);
    lxr_code (*pause)(lxr_heap *);
    lxr_code (*collect)(lxr_heap *);
    lxr_code (*set_pace)(lxr_heap *, uint64_t);
    lxr_code (*set_room)(lxr_heap *, uint32_t);
    lxr_code (*set_grow)(lxr_heap *, uint32_t);
    lxr_code (*trim)(lxr_heap *);
    lxr_code (*set_work)(lxr_heap *, uint32_t);
    lxr_code (*work)(lxr_heap *, uint32_t, uint32_t *);
    lxr_code (*count)(const lxr_heap *, uint32_t, uint64_t *);
};

extern const struct calls calls_lxr, calls_plain;

#endif
