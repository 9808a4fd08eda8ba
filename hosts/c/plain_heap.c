/*
 * plain_heap.c: the functions of lxr.h over malloc, for tests. SPDX: MIT OR Apache-2.0
 *
 * A plain graph: objects have addresses, never move, and are freed when the heap is closed and not before. So it is a model of what a host
 * sees, and what a host is held against that is told to be slow or wrong: link it and lxr_message.c in the archive's place, or it beside the
 * archive (tests/calls.h).
 * LXR_E_FULL comes only where malloc has no memory. A pause does nothing; a collecting one counts the objects that can be reached
 * (LXR_COUNT_LIVE).
 */
#include "plain_heap.h"

#include <stdbool.h>
#include <stdlib.h>
#include <string.h>

/* An object. Behind it stand its references, and then its data words or the words of its body. */
struct object {
    struct object *older; /* the object made before it, or null */
    struct object *gray;  /* the next object whose references are to be followed, while what can be reached is counted */
    uint64_t seen;        /* the number of the count that has met it */
    uint32_t refs, words, blocks;
    uint64_t fields[];
};

struct heap {
    struct object *registers[LXR_MOST_REGISTERS];
    struct object *world, *newest;
    uint32_t many; /* how many registers may be named */
    uint32_t blocks, body_blocks, room;
    uint64_t pauses, counts, made, live, promoted;
};

/* ---- Objects ---- */

static struct object **refs_of(const struct object *it) { return (struct object **)(uintptr_t)it->fields; }

static uint64_t *words_of(const struct object *it) { return (uint64_t *)(uintptr_t)it->fields + it->refs; }

static struct object *make(struct heap *heap, uint32_t refs, uint32_t words, uint32_t blocks) {
    size_t fields = (size_t)refs + words + (size_t)blocks * LXR_BLOCK_WORDS;
    struct object *made = calloc(1, sizeof *made + fields * sizeof made->fields[0]);
    if (!made) return NULL;
    for (uint32_t index = 0; index < refs; index++) refs_of(made)[index] = NULL;
    made->refs = refs;
    made->words = words;
    made->blocks = blocks;
    made->older = heap->newest;
    heap->newest = made;
    return made;
}

/* ---- What can be reached ---- */

/* Puts an object in front of the gray ones, where this count hasn't met it. */
static void meet(struct heap *heap, struct object *it, struct object **gray) {
    if (!it || it->seen == heap->counts) return;
    it->seen = heap->counts;
    it->gray = *gray;
    *gray = it;
}

typedef void each_object(void *with, uint32_t refs, uint32_t words, uint32_t blocks);

/* Calls `each` for every object that can be reached from the world and the registers, but the world. */
static void each_reachable(struct heap *heap, each_object *each, void *with) {
    struct object *gray = NULL;
    heap->counts++;
    meet(heap, heap->world, &gray);
    for (uint32_t at = 0; at < heap->many; at++) meet(heap, heap->registers[at], &gray);
    while (gray) {
        struct object *it = gray;
        gray = it->gray;
        if (it != heap->world) each(with, it->refs, it->words, it->blocks);
        for (uint32_t index = 0; index < it->refs; index++) meet(heap, refs_of(it)[index], &gray);
    }
}

static void count_one(void *count, uint32_t refs, uint32_t words, uint32_t blocks) {
    (void)refs, (void)words, (void)blocks;
    ++*(uint64_t *)count;
}

/* ---- Codes ---- */

static struct heap *heap_of(const lxr_heap *handle) { return handle->live ? handle->block : NULL; }

/* Finds the heap of a handle, and the object in a register of it. */
static lxr_code find_base(const lxr_heap *handle, uint32_t base, struct object **found) {
    struct heap *heap = heap_of(handle);
    if (!heap) return LXR_E_NO_HEAP;
    if (base >= heap->many) return LXR_E_REGISTER;
    *found = heap->registers[base];
    return *found ? LXR_OK : LXR_E_NIL;
}

static lxr_code find_registers(const lxr_heap *handle, uint32_t left, uint32_t right, struct heap **found) {
    *found = heap_of(handle);
    if (!*found) return LXR_E_NO_HEAP;
    return left < (*found)->many && right < (*found)->many ? LXR_OK : LXR_E_REGISTER;
}

/* Finds one of the data words of an object. */
static lxr_code find_word(const lxr_heap *handle, uint32_t base, uint32_t index, uint64_t **found) {
    struct object *it = NULL;
    lxr_code code = find_base(handle, base, &it);
    if (code != LXR_OK) return code;
    if (index >= it->words) return LXR_E_INDEX;
    *found = words_of(it) + index;
    return LXR_OK;
}

/* Whether all of these are registers, and none of them is `but`. */
static bool are_registers(const struct heap *heap, const uint32_t *registers, size_t count, uint32_t but) {
    for (size_t at = 0; at < count; at++)
        if (registers[at] >= heap->many || registers[at] == but) return false;
    return true;
}

static bool are_fields(uint32_t first, size_t count, uint32_t fields) { return first <= fields && count <= fields - first; }

/* Finds `count` data words of an object. */
static lxr_code find_words(const lxr_heap *handle, uint32_t base, uint32_t first, size_t count, uint64_t **found) {
    struct object *it = NULL;
    lxr_code code = find_base(handle, base, &it);
    if (code != LXR_OK) return code;
    if (!are_fields(first, count, it->words)) return LXR_E_INDEX;
    *found = words_of(it) + first;
    return LXR_OK;
}

/* Finds `count` references of an object. */
static lxr_code find_refs(const lxr_heap *handle, uint32_t base, uint32_t first, size_t count, struct object ***found) {
    struct object *it = NULL;
    lxr_code code = find_base(handle, base, &it);
    if (code != LXR_OK) return code;
    if (!are_fields(first, count, it->refs)) return LXR_E_INDEX;
    *found = refs_of(it) + first;
    return LXR_OK;
}

/* Finds `count` words of the body of an object. */
static lxr_code find_body(const lxr_heap *handle, uint32_t base, uint32_t index, size_t count, uint64_t **found) {
    struct object *it = NULL;
    lxr_code code = find_base(handle, base, &it);
    if (code != LXR_OK) return code;
    size_t words = (size_t)it->blocks * LXR_BLOCK_WORDS;
    if (!words || index > words || count > words - index) return LXR_E_INDEX;
    *found = words_of(it) + index;
    return LXR_OK;
}

/* Makes an object for the host. */
static struct object *make_counted(struct heap *heap, uint32_t refs, uint32_t words, uint32_t blocks) {
    struct object *made = make(heap, refs, words, blocks);
    if (!made) return NULL;
    heap->made++;
    heap->live++;
    return made;
}

/* Makes an object and lets a register hold it. */
static lxr_code hold_new(struct heap *heap, uint32_t dest, uint32_t refs, uint32_t words, uint32_t blocks) {
    struct object *made = make_counted(heap, refs, words, blocks);
    if (!made) return LXR_E_FULL;
    heap->registers[dest] = made;
    return LXR_OK;
}

/* ---- Arrays and words ---- */

static uint32_t least(uint64_t left, uint32_t right) { return left < right ? (uint32_t)left : right; }

/* How many elements an object has as an array, and how many words as words. */
static uint32_t elements_of(const struct object *it) { return it->words ? least(words_of(it)[0], it->refs * LXR_MOST_REFS) : it->refs; }

static uint32_t length_of(const struct object *it) {
    return it->blocks ? least(words_of(it)[0], it->blocks * LXR_BLOCK_WORDS - 1) : it->words;
}

/* Which reference of the object that has it an element is. */
static uint32_t place_of(const struct object *it, uint32_t index) { return it->words ? index % LXR_MOST_REFS : index; }

/* Finds the object that has an element: a part of a root, or the array itself. */
static struct object *find_part(struct object *it, uint32_t index) { return it->words ? refs_of(it)[index / LXR_MOST_REFS] : it; }

/* Finds the place of an element in the object that has it. */
static lxr_code find_place(const struct object *part, uint32_t place, struct object ***found) {
    if (!part) return LXR_E_NIL;
    if (place >= part->refs) return LXR_E_INDEX;
    *found = refs_of(part) + place;
    return LXR_OK;
}

/* Finds the place of an element. */
static lxr_code find_element(struct object *it, uint32_t index, struct object ***found) {
    return index < elements_of(it) ? find_place(find_part(it, index), place_of(it, index), found) : LXR_E_INDEX;
}

/* Whether so many elements are there. */
static lxr_code are_elements(const struct object *it, uint32_t first, uint32_t count) {
    return are_fields(first, count, elements_of(it)) ? LXR_OK : LXR_E_INDEX;
}

/* Whether so many elements have places. */
static lxr_code have_places(struct object *it, uint32_t first, uint32_t count) {
    struct object **element = NULL;
    lxr_code code = LXR_OK;
    for (uint32_t at = 0; code == LXR_OK && at < count; at++) code = find_element(it, first + at, &element);
    return code;
}

/* Makes a root and its parts; null where there is no memory for all of them. */
static struct object *make_root(struct heap *heap, uint32_t length) {
    uint32_t parts = (length - 1) / LXR_MOST_REFS + 1;
    struct object *root = make_counted(heap, parts, 1, 0);
    for (uint32_t at = 0; root && at < parts; at++) {
        struct object *part = make_counted(heap, least(length - at * LXR_MOST_REFS, LXR_MOST_REFS), 0, 0);
        refs_of(root)[at] = part;
        if (!part) return NULL;
    }
    if (root) words_of(root)[0] = length;
    return root;
}

void plain_each_reachable(lxr_heap *handle, each_object *each, void *with) {
    struct heap *heap = heap_of(handle);
    if (heap) each_reachable(heap, each, with);
}

/* ---- The functions of lxr.h ---- */

uint32_t lxr_version(void) { return LXR_VERSION; }

static bool is_block_count(uint32_t blocks) { return blocks >= 1 && blocks <= LXR_MOST_BLOCKS; }

/* The bytes of settings of version 0.2, which end before the registers, of those that end before the room, and of those that end before the work. */
enum { FIRST_BYTES = 24, SECOND_BYTES = 32, THIRD_BYTES = 40 };

static bool is_known_size(uint64_t size) {
    return size == FIRST_BYTES || size == SECOND_BYTES || size == THIRD_BYTES || size == sizeof(lxr_settings);
}

static uint32_t registers_of(const lxr_settings *settings) {
    return settings->size == FIRST_BYTES || settings->registers == 0 ? LXR_REGISTERS : settings->registers;
}

static bool are_settings(const lxr_settings *settings) {
    if (!is_known_size(settings->size)) return false;
    uint32_t many = registers_of(settings);
    if (many < LXR_REGISTERS || many > LXR_MOST_REGISTERS) return false;
    if (settings->size >= THIRD_BYTES && (settings->room > settings->blocks || settings->grow > LXR_MOST_GROW)) return false;
    if (settings->size == sizeof *settings && settings->work > LXR_MOST_WORK) return false;
    return is_block_count(settings->blocks) && is_block_count(settings->body_blocks);
}

lxr_code lxr_open(lxr_heap *handle, const lxr_settings *settings) {
    if (heap_of(handle)) return LXR_E_IN_USE;
    if (!are_settings(settings)) return LXR_E_SIZE;
    struct heap *heap = calloc(1, sizeof *heap);
    if (!heap) return LXR_E_MEMORY;
    heap->world = make(heap, LXR_WORLD_REFS, 0, 0);
    if (!heap->world) {
        free(heap);
        return LXR_E_MEMORY;
    }
    heap->registers[0] = heap->world;
    heap->many = registers_of(settings);
    heap->blocks = settings->blocks;
    heap->body_blocks = settings->body_blocks;
    heap->room = settings->size >= THIRD_BYTES && settings->room ? settings->room : settings->blocks;
    handle->live = 1;
    handle->block = heap;
    return LXR_OK;
}

lxr_code lxr_close(lxr_heap *handle) {
    struct heap *heap = heap_of(handle);
    if (!heap) return LXR_E_NO_HEAP;
    while (heap->newest) {
        struct object *it = heap->newest;
        heap->newest = it->older;
        free(it);
    }
    free(heap);
    handle->live = 0;
    handle->block = NULL;
    return LXR_OK;
}

lxr_code lxr_new(lxr_heap *handle, uint32_t dest, uint32_t refs, uint32_t words) {
    struct heap *heap = NULL;
    lxr_code code = find_registers(handle, dest, dest, &heap);
    if (code != LXR_OK) return code;
    if (refs > LXR_MOST_REFS || words > LXR_MOST_WORDS) return LXR_E_SIZE;
    return hold_new(heap, dest, refs, words, 0);
}

lxr_code lxr_large_new(lxr_heap *handle, uint32_t dest, uint32_t blocks) {
    struct heap *heap = NULL;
    lxr_code code = find_registers(handle, dest, dest, &heap);
    if (code != LXR_OK) return code;
    if (!blocks || blocks > LXR_MOST_BODY_BLOCKS) return LXR_E_SIZE;
    return hold_new(heap, dest, 0, 0, blocks);
}

lxr_code lxr_load(lxr_heap *handle, uint32_t dest, uint32_t base, uint32_t index) {
    struct heap *heap = NULL;
    struct object *it = NULL;
    lxr_code code = find_registers(handle, dest, base, &heap);
    if (code == LXR_OK) code = find_base(handle, base, &it);
    if (code != LXR_OK) return code;
    if (index >= it->refs) return LXR_E_INDEX;
    heap->registers[dest] = refs_of(it)[index];
    return LXR_OK;
}

lxr_code lxr_store(lxr_heap *handle, uint32_t base, uint32_t index, uint32_t source) {
    struct heap *heap = NULL;
    struct object *it = NULL;
    lxr_code code = find_registers(handle, base, source, &heap);
    if (code == LXR_OK) code = find_base(handle, base, &it);
    if (code != LXR_OK) return code;
    if (index >= it->refs) return LXR_E_INDEX;
    refs_of(it)[index] = heap->registers[source];
    return LXR_OK;
}

lxr_code lxr_get(const lxr_heap *handle, uint32_t base, uint32_t index, uint64_t *word) {
    uint64_t *found = NULL;
    lxr_code code = find_word(handle, base, index, &found);
    if (code == LXR_OK) *word = *found;
    return code;
}

lxr_code lxr_put(lxr_heap *handle, uint32_t base, uint32_t index, uint64_t word) {
    uint64_t *found = NULL;
    lxr_code code = find_word(handle, base, index, &found);
    if (code == LXR_OK) *found = word;
    return code;
}

/* Writes references over others: what these registers hold. */
static void fill_refs(const struct heap *heap, struct object **refs, const uint32_t *registers, size_t count) {
    for (size_t at = 0; at < count; at++) refs[at] = heap->registers[registers[at]];
}

lxr_code lxr_new_with(lxr_heap *handle, uint32_t dest, const uint32_t *sources, size_t refs, const uint64_t *data, size_t words) {
    struct heap *heap = NULL;
    lxr_code code = find_registers(handle, dest, dest, &heap);
    if (code != LXR_OK) return code;
    if (!are_registers(heap, sources, refs, dest)) return LXR_E_REGISTER;
    if (refs > LXR_MOST_REFS || words > LXR_MOST_WORDS) return LXR_E_SIZE;
    code = hold_new(heap, dest, (uint32_t)refs, (uint32_t)words, 0);
    if (code != LXR_OK) return code;
    fill_refs(heap, refs_of(heap->registers[dest]), sources, refs);
    if (words) memcpy(words_of(heap->registers[dest]), data, words * sizeof *data);
    return LXR_OK;
}

lxr_code lxr_get_many(const lxr_heap *handle, uint32_t base, uint32_t first, uint64_t *words, size_t count) {
    uint64_t *found = NULL;
    lxr_code code = find_words(handle, base, first, count, &found);
    if (code == LXR_OK && count) memcpy(words, found, count * sizeof *words);
    return code;
}

lxr_code lxr_put_many(lxr_heap *handle, uint32_t base, uint32_t first, const uint64_t *words, size_t count) {
    uint64_t *found = NULL;
    lxr_code code = find_words(handle, base, first, count, &found);
    if (code == LXR_OK && count) memcpy(found, words, count * sizeof *words);
    return code;
}

/* Whether references of the object in a register may be loaded so: that register is the last of them at most. */
static bool are_targets(const struct heap *heap, const uint32_t *registers, size_t count, uint32_t base) {
    return count == 0 || (are_registers(heap, registers, count - 1, base) && registers[count - 1] < heap->many);
}

lxr_code lxr_load_many(lxr_heap *handle, uint32_t base, uint32_t first, const uint32_t *registers, size_t count) {
    struct heap *heap = NULL;
    struct object **found = NULL;
    lxr_code code = find_registers(handle, base, base, &heap);
    if (code != LXR_OK) return code;
    if (!are_targets(heap, registers, count, base)) return LXR_E_REGISTER;
    code = find_refs(handle, base, first, count, &found);
    if (code != LXR_OK) return code;
    for (size_t at = 0; at < count; at++) heap->registers[registers[at]] = found[at];
    return LXR_OK;
}

lxr_code lxr_store_many(lxr_heap *handle, uint32_t base, uint32_t first, const uint32_t *registers, size_t count) {
    struct heap *heap = NULL;
    struct object **found = NULL;
    lxr_code code = find_registers(handle, base, base, &heap);
    if (code != LXR_OK) return code;
    if (!are_registers(heap, registers, count, heap->many)) return LXR_E_REGISTER;
    code = find_refs(handle, base, first, count, &found);
    if (code == LXR_OK) fill_refs(heap, found, registers, count);
    return code;
}

lxr_code lxr_large_get(const lxr_heap *handle, uint32_t base, uint32_t index, uint64_t *word) {
    uint64_t *found = NULL;
    lxr_code code = find_body(handle, base, index, 1, &found);
    if (code == LXR_OK) *word = *found;
    return code;
}

lxr_code lxr_large_put(lxr_heap *handle, uint32_t base, uint32_t index, uint64_t word) {
    uint64_t *found = NULL;
    lxr_code code = find_body(handle, base, index, 1, &found);
    if (code == LXR_OK) *found = word;
    return code;
}

lxr_code lxr_large_read(const lxr_heap *handle, uint32_t base, uint32_t index, uint64_t *into, size_t count) {
    uint64_t *found = NULL;
    lxr_code code = find_body(handle, base, index, count, &found);
    if (code == LXR_OK && count) memcpy(into, found, count * sizeof *into);
    return code;
}

lxr_code lxr_large_write(lxr_heap *handle, uint32_t base, uint32_t index, const uint64_t *from, size_t count) {
    uint64_t *found = NULL;
    lxr_code code = find_body(handle, base, index, count, &found);
    if (code == LXR_OK && count) memcpy(found, from, count * sizeof *from);
    return code;
}

/* Whether the two registers behind the host's fit, by which the archive follows a root. */
static bool has_own_registers(const struct heap *heap) { return heap->many <= LXR_MOST_REGISTERS - 2; }

lxr_code lxr_array_new(lxr_heap *handle, uint32_t dest, uint32_t length) {
    struct heap *heap = NULL;
    lxr_code code = find_registers(handle, dest, dest, &heap);
    if (code != LXR_OK) return code;
    if (length > LXR_MOST_ELEMENTS) return LXR_E_SIZE;
    if (length <= LXR_MOST_REFS) return hold_new(heap, dest, length, 0, 0);
    if (!has_own_registers(heap)) return LXR_E_REGISTER;
    struct object *root = make_root(heap, length);
    if (!root) return LXR_E_FULL;
    heap->registers[dest] = root;
    return LXR_OK;
}

lxr_code lxr_array_length(const lxr_heap *handle, uint32_t base, uint32_t *length) {
    struct object *it = NULL;
    lxr_code code = find_base(handle, base, &it);
    if (code == LXR_OK) *length = elements_of(it);
    return code;
}

/* Finds the array in a register, of a call that has another register too. */
static lxr_code find_array(const lxr_heap *handle, uint32_t base, uint32_t other, struct object **found) {
    struct heap *heap = NULL;
    lxr_code code = find_registers(handle, base, other, &heap);
    if (code == LXR_OK) code = find_base(handle, base, found);
    if (code != LXR_OK) return code;
    return (*found)->words && !has_own_registers(heap) ? LXR_E_REGISTER : LXR_OK;
}

lxr_code lxr_array_load(lxr_heap *handle, uint32_t dest, uint32_t base, uint32_t index) {
    struct object *it = NULL, **element = NULL;
    lxr_code code = find_array(handle, base, dest, &it);
    if (code == LXR_OK) code = find_element(it, index, &element);
    if (code == LXR_OK) heap_of(handle)->registers[dest] = *element;
    return code;
}

lxr_code lxr_array_store(lxr_heap *handle, uint32_t base, uint32_t index, uint32_t source) {
    struct object *it = NULL, **element = NULL;
    lxr_code code = find_array(handle, base, source, &it);
    if (code == LXR_OK) code = find_element(it, index, &element);
    if (code == LXR_OK) *element = heap_of(handle)->registers[source];
    return code;
}

/* An array that is written to along its elements, and the part at hand: it is found anew at each border alone, so a root may be a part of itself. */
struct written {
    struct object *it, *part;
    uint32_t border; /* the place of a part that is met first */
};

/* Writes an element; the first one finds its part whatever its place. */
static lxr_code write_element(struct written *written, bool first, uint32_t index, struct object *source) {
    struct object **element = NULL;
    uint32_t place = place_of(written->it, index);
    if (first || place == written->border) written->part = find_part(written->it, index);
    lxr_code code = find_place(written->part, place, &element);
    if (code == LXR_OK) *element = source;
    return code;
}

lxr_code lxr_array_fill(lxr_heap *handle, uint32_t base, uint32_t first, uint32_t count, uint32_t source) {
    struct written to = { NULL, NULL, 0 };
    lxr_code code = find_array(handle, base, source, &to.it);
    if (code == LXR_OK) code = are_elements(to.it, first, count);
    if (code == LXR_OK) code = have_places(to.it, first, count);
    for (uint32_t at = 0; code == LXR_OK && at < count; at++)
        code = write_element(&to, at == 0, first + at, heap_of(handle)->registers[source]);
    return code;
}

/* Finds the arrays of a copy, which takes the registers behind the host's whatever they are. */
static lxr_code find_both(const lxr_heap *handle, uint32_t to, uint32_t from, struct object **into, struct object **out) {
    struct heap *heap = NULL;
    lxr_code code = find_registers(handle, to, from, &heap);
    if (code == LXR_OK && !has_own_registers(heap)) return LXR_E_REGISTER;
    *into = code == LXR_OK ? heap->registers[to] : NULL;
    *out = code == LXR_OK ? heap->registers[from] : NULL;
    return code;
}

/* Whether elements are there, of what a register holds. */
static lxr_code has_elements(const struct object *it, uint32_t first, uint32_t count) {
    return it ? are_elements(it, first, count) : LXR_E_NIL;
}

/* Copies an element; from the end on where elements move up. */
static lxr_code copy_element(struct written *to, uint32_t at, struct object *from, uint32_t index, bool first) {
    struct object **read = NULL;
    lxr_code code = find_element(from, index, &read);
    return code == LXR_OK ? write_element(to, first, at, *read) : code;
}

lxr_code lxr_array_copy(lxr_heap *handle, uint32_t to, uint32_t at, uint32_t from, uint32_t first, uint32_t count) {
    bool up = first < at;
    struct object *out = NULL;
    struct written into = { NULL, NULL, up ? LXR_MOST_REFS - 1 : 0 };
    lxr_code code = find_both(handle, to, from, &into.it, &out);
    if (code == LXR_OK) code = has_elements(into.it, at, count);
    if (code == LXR_OK) code = has_elements(out, first, count);
    if (code == LXR_OK) code = have_places(into.it, at, count);
    if (code == LXR_OK) code = have_places(out, first, count);
    for (uint32_t done = 0; code == LXR_OK && done < count; done++) {
        uint32_t next = up ? count - 1 - done : done;
        code = copy_element(&into, at + next, out, first + next, done == 0);
    }
    return code;
}

lxr_code lxr_words_new(lxr_heap *handle, uint32_t dest, uint32_t length) {
    struct heap *heap = NULL;
    lxr_code code = find_registers(handle, dest, dest, &heap);
    if (code != LXR_OK) return code;
    if (length > LXR_MOST_LENGTH) return LXR_E_SIZE;
    if (length <= LXR_MOST_WORDS) return hold_new(heap, dest, 0, length, 0);
    code = hold_new(heap, dest, 0, 0, length / LXR_BLOCK_WORDS + 1);
    if (code == LXR_OK) words_of(heap->registers[dest])[0] = length;
    return code;
}

lxr_code lxr_words_length(const lxr_heap *handle, uint32_t base, uint32_t *length) {
    struct object *it = NULL;
    lxr_code code = find_base(handle, base, &it);
    if (code == LXR_OK) *length = length_of(it);
    return code;
}

/* Finds so many of the words in a register. */
static lxr_code find_any_words(const lxr_heap *handle, uint32_t base, uint32_t first, size_t count, uint64_t **found) {
    struct object *it = NULL;
    lxr_code code = find_base(handle, base, &it);
    if (code != LXR_OK) return code;
    if (!are_fields(first, count, length_of(it))) return LXR_E_INDEX;
    *found = words_of(it) + (it->blocks ? 1 : 0) + first;
    return LXR_OK;
}

lxr_code lxr_words_get(const lxr_heap *handle, uint32_t base, uint32_t index, uint64_t *word) {
    return lxr_words_read(handle, base, index, word, 1);
}

lxr_code lxr_words_put(lxr_heap *handle, uint32_t base, uint32_t index, uint64_t word) {
    return lxr_words_write(handle, base, index, &word, 1);
}

lxr_code lxr_words_read(const lxr_heap *handle, uint32_t base, uint32_t first, uint64_t *words, size_t count) {
    uint64_t *found = NULL;
    lxr_code code = find_any_words(handle, base, first, count, &found);
    if (code == LXR_OK && count) memcpy(words, found, count * sizeof *words);
    return code;
}

lxr_code lxr_words_write(lxr_heap *handle, uint32_t base, uint32_t first, const uint64_t *words, size_t count) {
    uint64_t *found = NULL;
    lxr_code code = find_any_words(handle, base, first, count, &found);
    if (code == LXR_OK && count) memcpy(found, words, count * sizeof *words);
    return code;
}

lxr_code lxr_same(const lxr_heap *handle, uint32_t left, uint32_t right, uint32_t *same) {
    struct heap *heap = NULL;
    lxr_code code = find_registers(handle, left, right, &heap);
    if (code == LXR_OK) *same = heap->registers[left] == heap->registers[right];
    return code;
}

lxr_code lxr_move(lxr_heap *handle, uint32_t dest, uint32_t source) {
    struct heap *heap = NULL;
    lxr_code code = find_registers(handle, dest, source, &heap);
    if (code == LXR_OK) heap->registers[dest] = heap->registers[source];
    return code;
}

lxr_code lxr_nil(lxr_heap *handle, uint32_t dest) {
    struct heap *heap = NULL;
    lxr_code code = find_registers(handle, dest, dest, &heap);
    if (code == LXR_OK) heap->registers[dest] = NULL;
    return code;
}

lxr_code lxr_is_nil(const lxr_heap *handle, uint32_t source, uint32_t *is_nil) {
    struct heap *heap = NULL;
    lxr_code code = find_registers(handle, source, source, &heap);
    if (code == LXR_OK) *is_nil = heap->registers[source] == NULL;
    return code;
}

lxr_code lxr_registers_in_use(lxr_heap *handle, uint32_t count) {
    struct heap *heap = heap_of(handle);
    if (!heap) return LXR_E_NO_HEAP;
    if (count == 0 || count > heap->many) return LXR_E_REGISTER;
    for (uint32_t at = count; at < heap->many; at++) heap->registers[at] = NULL;
    return LXR_OK;
}

lxr_code lxr_shape(const lxr_heap *handle, uint32_t base, uint32_t *refs, uint32_t *words, uint32_t *blocks) {
    struct object *it = NULL;
    lxr_code code = find_base(handle, base, &it);
    if (code != LXR_OK) return code;
    *refs = it->refs;
    *words = it->words;
    *blocks = it->blocks;
    return LXR_OK;
}

/* Which numbers of an operation are registers: a sum of these. */
enum { A = 1, B = 2, C = 4 };

/* Whether an operation's numbers fit, or the code that says why they don't. */
static lxr_code look_at(const struct heap *heap, const lxr_operation *it) {
    static const unsigned kinds[] = {
        [LXR_OP_NEW] = A,      [LXR_OP_LOAD] = A | B, [LXR_OP_STORE] = A | C, [LXR_OP_GET] = A,    [LXR_OP_PUT] = A,
        [LXR_OP_SAME] = A | B, [LXR_OP_MOVE] = A | B, [LXR_OP_NIL] = A,       [LXR_OP_IS_NIL] = A,
    };
    if (it->op >= sizeof kinds / sizeof *kinds) return LXR_E_WHAT;
    unsigned kind = kinds[it->op];
    if (it->a >= heap->many || (kind & B && it->b >= heap->many) || (kind & C && it->c >= heap->many)) return LXR_E_REGISTER;
    return it->op == LXR_OP_NEW && (it->b > LXR_MOST_REFS || it->c > LXR_MOST_WORDS) ? LXR_E_SIZE : LXR_OK;
}

static lxr_code look_at_all(const struct heap *heap, const lxr_operation *operations, size_t count) {
    lxr_code code = LXR_OK;
    for (size_t at = 0; at < count && code == LXR_OK; at++) code = look_at(heap, &operations[at]);
    return code;
}

/* Writes down what a test tells. */
static lxr_code tell(lxr_code code, uint32_t told, uint64_t *word) {
    if (code == LXR_OK) *word = told;
    return code;
}

static lxr_code operate(lxr_heap *handle, lxr_operation *it) {
    uint32_t told = 0;
    switch (it->op) {
    case LXR_OP_NEW: return lxr_new(handle, it->a, it->b, it->c);
    case LXR_OP_LOAD: return lxr_load(handle, it->a, it->b, it->c);
    case LXR_OP_STORE: return lxr_store(handle, it->a, it->b, it->c);
    case LXR_OP_GET: return lxr_get(handle, it->a, it->b, &it->word);
    case LXR_OP_PUT: return lxr_put(handle, it->a, it->b, it->word);
    case LXR_OP_MOVE: return lxr_move(handle, it->a, it->b);
    case LXR_OP_NIL: return lxr_nil(handle, it->a);
    case LXR_OP_SAME: {
        lxr_code code = lxr_same(handle, it->a, it->b, &told);
        return tell(code, told, &it->word);
    }
    default: {
        lxr_code code = lxr_is_nil(handle, it->a, &told);
        return tell(code, told, &it->word);
    }
    }
}

lxr_code lxr_apply(lxr_heap *handle, lxr_operation *operations, size_t count, size_t *done) {
    struct heap *heap = heap_of(handle);
    *done = 0;
    if (!heap) return LXR_E_NO_HEAP;
    lxr_code code = look_at_all(heap, operations, count);
    while (code == LXR_OK && *done < count) {
        code = operate(handle, &operations[*done]);
        if (code == LXR_OK) ++*done;
    }
    return code;
}

/* All objects made since the last pause are kept. */
static lxr_code pause_heap(struct heap *heap) {
    heap->pauses++;
    heap->promoted = heap->made;
    heap->made = 0;
    return LXR_OK;
}

lxr_code lxr_pause(lxr_heap *handle) {
    struct heap *heap = heap_of(handle);
    return heap ? pause_heap(heap) : LXR_E_NO_HEAP;
}

lxr_code lxr_collect(lxr_heap *handle) {
    struct heap *heap = heap_of(handle);
    if (!heap) return LXR_E_NO_HEAP;
    heap->live = 0;
    each_reachable(heap, count_one, &heap->live);
    return pause_heap(heap);
}

lxr_code lxr_set_pace(lxr_heap *handle, uint64_t bytes) {
    (void)bytes;
    return heap_of(handle) ? LXR_OK : LXR_E_NO_HEAP;
}

/* It collects nothing, so its room does nothing; but it says what was asked for. */
lxr_code lxr_set_room(lxr_heap *handle, uint32_t blocks) {
    struct heap *heap = heap_of(handle);
    if (!heap) return LXR_E_NO_HEAP;
    if (blocks > heap->blocks) return LXR_E_SIZE;
    heap->room = blocks ? blocks : heap->blocks;
    return LXR_OK;
}

lxr_code lxr_set_grow(lxr_heap *handle, uint32_t hundredths) {
    if (!heap_of(handle)) return LXR_E_NO_HEAP;
    return hundredths > LXR_MOST_GROW ? LXR_E_SIZE : LXR_OK;
}

/* It asks for the memory of each object by itself, and has no blocks to give back. */
lxr_code lxr_trim(lxr_heap *handle) { return heap_of(handle) ? LXR_OK : LXR_E_NO_HEAP; }

lxr_code lxr_trim_next(lxr_heap *handle, uint32_t from, uint32_t *block) {
    (void)from, (void)block;
    return heap_of(handle) ? LXR_E_NOTHING : LXR_E_NO_HEAP;
}

lxr_code lxr_first_word(lxr_heap *handle, const uint64_t **place) {
    (void)place;
    return heap_of(handle) ? LXR_E_NOTHING : LXR_E_NO_HEAP;
}

/* Nothing waits in it. */
lxr_code lxr_work(lxr_heap *handle, uint32_t units, uint32_t *more) {
    (void)units;
    if (!heap_of(handle)) return LXR_E_NO_HEAP;
    *more = 0;
    return LXR_OK;
}

lxr_code lxr_set_work(lxr_heap *handle, uint32_t units) {
    if (!heap_of(handle)) return LXR_E_NO_HEAP;
    return units > LXR_MOST_WORK ? LXR_E_SIZE : LXR_OK;
}

lxr_code lxr_count(const lxr_heap *handle, uint32_t what, uint64_t *number) {
    struct heap *heap = heap_of(handle);
    if (!heap) return LXR_E_NO_HEAP;
    switch (what) {
    case LXR_COUNT_PAUSES: *number = heap->pauses; return LXR_OK;
    case LXR_COUNT_PROMOTED: *number = heap->promoted; return LXR_OK;
    case LXR_COUNT_LIVE: *number = heap->live; return LXR_OK;
    case LXR_COUNT_DEAD:
    case LXR_COUNT_STUCK:
    case LXR_COUNT_SWEPT:
    case LXR_COUNT_WAITING: *number = 0; return LXR_OK;
    case LXR_COUNT_FREE_BLOCKS: *number = heap->blocks - 1; return LXR_OK;
    case LXR_COUNT_ROOM: *number = heap->room; return LXR_OK;
    case LXR_COUNT_FREE_BODY_BYTES: *number = (uint64_t)heap->body_blocks * LXR_BLOCK_WORDS * sizeof(uint64_t); return LXR_OK;
    default: return LXR_E_WHAT;
    }
}
