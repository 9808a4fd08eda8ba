/*
 * passes_hostile.c: calls of lxr_passes.h in each state of a heap and of a station, each with its code. SPDX: MIT OR Apache-2.0
 *
 * Heaps that are empty, between epochs, within one, and closed while a pass is away; stations that are empty, away, at home, of a thread
 * and of a helper; and calls in every wrong order. Whatever is refused changes nothing, and writes to no out parameter.
 */
#include "../lxr_passes.h"

#include <inttypes.h>
#include <stdio.h>
#include <stdlib.h>
#include <string.h>
#include <sys/mman.h>
#include <unistd.h>

#define UNTOUCHED 0xA5A5A5A5u
#define LAST      UINT32_MAX

/* The bytes of settings of version 0.2. */
#define FIRST 40

/* Of those that end before the runs. */
#define SECOND 48

/* The largest heap that is opened here: one of the archive's writes all its words as it is opened. */
#ifdef MOCK_PASSES
enum { LARGEST = 65536 };
#else
enum { LARGEST = 3000 };
#endif

static unsigned long checks;

static void check(uint64_t found, uint64_t wanted, const char *what, int line) {
    checks++;
    if (found == wanted) return;
    fprintf(stderr, "passes_hostile.c:%d: %s is %" PRIu64 ", not %" PRIu64 "\n", line, what, found, wanted);
    exit(1);
}

#define IS(what, wanted) check(what, wanted, #what, __LINE__)

/* The out parameters of all calls. A refused call leaves them as they are. */
static uint32_t narrow = UNTOUCHED;
static uint64_t wide = UNTOUCHED;
static const uint64_t *place = NULL;

static void is_untouched(int line) {
    check(narrow, UNTOUCHED, "the out parameter of a refused call", line);
    check(wide, UNTOUCHED, "the word of a refused call", line);
    check(!place, 1, "the place of a refused call", line);
}

/* A refused call. */
#define REFUSED(call, code) (check(call, code, #call, __LINE__), is_untouched(__LINE__))

static const lxr_passes_settings good = { sizeof(lxr_passes_settings), 8, 2, 1, 64, 1024, 100, 4, 2, 1, 0, 0, 0 };

/* Each operation, with numbers that would do. */
static void refuse_operations(lxr_station *station, lxr_code code) {
    REFUSED(lxr_station_new(station, 1, 1, 1), code);
    REFUSED(lxr_station_load(station, 1, 0, 0), code);
    REFUSED(lxr_station_store(station, 0, 0, 1), code);
    REFUSED(lxr_station_swap(station, 1, 0, 0, 1), code);
    REFUSED(lxr_station_get(station, 1, 0, &wide), code);
    REFUSED(lxr_station_put(station, 1, 0, 0), code);
    REFUSED(lxr_station_add(station, 1, 0, 0, &wide), code);
    REFUSED(lxr_station_same(station, 1, 1, &narrow), code);
    REFUSED(lxr_station_move(station, 1, 1), code);
    REFUSED(lxr_station_nil(station, 1), code);
    REFUSED(lxr_station_ask_pause(station), code);
    REFUSED(lxr_station_ask_collect(station), code);
}

/* Each call of a station that has no pass away. */
static void refuse_all(lxr_station *station, lxr_code code) {
    refuse_operations(station, code);
    REFUSED(lxr_station_answer(station, &wide), code);
    REFUSED(lxr_station_wants_pause(station, &narrow), code);
    REFUSED(lxr_station_help(station, 1, &narrow), code);
    REFUSED(lxr_station_come_home(station), code);
}

/* ---- A heap ---- */

static void try_empty(void) {
    lxr_passes heap = { 0, 0 };
    lxr_station station = { 0, 0 };
    IS(lxr_passes_close(&heap), LXR_E_NO_HEAP);
    IS(lxr_passes_resume(&heap), LXR_E_NO_HEAP);
    IS(lxr_passes_pause(&heap), LXR_E_NO_HEAP);
    IS(lxr_passes_pause_and_trace(&heap), LXR_E_NO_HEAP);
    REFUSED(lxr_passes_count(&heap, LXR_COUNT_PAUSES, &wide), LXR_E_NO_HEAP);
    IS(lxr_passes_trim(&heap), LXR_E_NO_HEAP);
    REFUSED(lxr_passes_trim_next(&heap, 0, &narrow), LXR_E_NO_HEAP);
    REFUSED(lxr_passes_first_word(&heap, &place), LXR_E_NO_HEAP);
    IS(lxr_station_leave(&heap, 0, &station), LXR_E_NO_HEAP);
    IS(lxr_station_close(&station), LXR_E_NO_HEAP);
    refuse_all(&station, LXR_E_NO_HEAP);
    IS(station.live, 0);
}

/* Settings of another size than there is are refused, whatever else they have. */
static void try_sizes(void) {
    const uint64_t wrong[] = { 0,          8,          FIRST - 8,       FIRST - 1,       FIRST + 1,       SECOND - 1,
                               SECOND + 1, SECOND + 4, sizeof good - 1, sizeof good + 1, sizeof good + 8, UINT64_MAX };
    for (size_t at = 0; at < sizeof wrong / sizeof wrong[0]; at++) {
        lxr_passes heap = { 0, 0 };
        lxr_passes_settings settings = good;
        settings.size = wrong[at];
        IS(lxr_passes_open(&heap, &settings), LXR_E_SIZE);
        IS(heap.live, 0);
    }
}

/* Settings that end after so many bytes are taken, and nothing is read that stands after them: there is no page. */
static void try_shorter(size_t bytes) {
    const size_t page = (size_t)sysconf(_SC_PAGESIZE);
    void *pages = NULL;
    lxr_passes heap = { 0, 0 };
    IS((uint64_t)posix_memalign(&pages, page, 2 * page), 0);
    lxr_passes_settings *settings = (void *)((char *)pages + page - bytes);
    memcpy(settings, &good, bytes);
    settings->size = bytes;
    IS((uint64_t)mprotect((char *)pages + page, page, PROT_NONE), 0);
    IS(lxr_passes_open(&heap, settings), LXR_OK);
    IS(lxr_passes_close(&heap), LXR_OK);
    settings->blocks = 0;
    IS(lxr_passes_open(&heap, settings), LXR_E_SIZE);
    IS((uint64_t)mprotect((char *)pages + page, page, PROT_READ | PROT_WRITE), 0);
    free(pages);
}

/* A heap is opened with these settings where they fit, and else refused. */
static void try_open(const lxr_passes_settings *settings, uint32_t fits) {
    lxr_passes heap = { 0, 0 };
    IS(lxr_passes_open(&heap, settings), fits ? LXR_OK : LXR_E_SIZE);
    IS(heap.live != 0, fits);
    IS(lxr_passes_close(&heap), fits ? LXR_OK : LXR_E_NO_HEAP);
}

static void try_settings(void) {
    const struct {
        size_t field;
        uint32_t least, most;
    } ranges[] = {
        { offsetof(lxr_passes_settings, mutators), 1, 255 },   { offsetof(lxr_passes_settings, helpers), 1, 8 },
        { offsetof(lxr_passes_settings, log), 1, 65536 },      { offsetof(lxr_passes_settings, remember), 1, 1048576 },
        { offsetof(lxr_passes_settings, every), 1, 1048576 },  { offsetof(lxr_passes_settings, trace), 0, 1000000 },
        { offsetof(lxr_passes_settings, within), 1, 1000000 },
    };
    for (size_t at = 0; at < sizeof ranges / sizeof ranges[0]; at++) {
        const uint32_t tried[] = { 0, 1, ranges[at].most, ranges[at].most + 1, 256, 256 + 1, LAST };
        for (size_t it = 0; it < sizeof tried / sizeof tried[0]; it++) {
            lxr_passes_settings settings = good;
            *(uint32_t *)(void *)((char *)&settings + ranges[at].field) = tried[it];
            try_open(&settings, tried[it] >= ranges[at].least && tried[it] <= ranges[at].most);
        }
    }
}

/* 16 to 256 registers, or 0 for sixteen. */
static void try_registers(void) {
    const uint32_t tried[] = { 0, 1, 15, 16, 17, 255, 256, 257, 65536, 65536 + 16, LAST };
    for (size_t at = 0; at < sizeof tried / sizeof tried[0]; at++) {
        lxr_passes_settings settings = good;
        settings.registers = tried[at];
        try_open(&settings, tried[at] == 0 || (tried[at] >= 16 && tried[at] <= 256));
    }
}

/* At least 64 runs, or 0 for 65,536, in small heaps and in large ones. */
static void try_runs(void) {
    const uint32_t tried[] = { 0, 1, 2, 62, 63, 64, 65, 1000, 65535, 65536, 65537, 1u << 31, LAST };
    for (size_t at = 0; at < sizeof tried / sizeof tried[0]; at++) {
        lxr_passes_settings settings = good;
        settings.runs = tried[at];
        settings.unused = LAST;
        try_open(&settings, tried[at] == 0 || tried[at] >= 64);
        settings.blocks = 1025;
        try_open(&settings, tried[at] == 0 || tried[at] >= 64);
    }
}

/* Heaps of so many blocks, of which no more than an eighth is evacuated. */
static void try_blocks(void) {
    const uint32_t tried[] = { 0, 1, 7, 8, 15, 16, 1024, 1025, LARGEST, 65537, 1u << 31, LAST };
    for (size_t at = 0; at < sizeof tried / sizeof tried[0]; at++) {
        const uint32_t blocks = tried[at], evacuated[] = { 0, 1, blocks / 8, blocks / 8 + 1, blocks, LAST };
        for (size_t it = 0; it < sizeof evacuated / sizeof evacuated[0]; it++) {
            lxr_passes_settings settings = good;
            settings.blocks = blocks;
            settings.evacuate = evacuated[it];
            try_open(&settings, blocks >= 1 && blocks <= 65536 && evacuated[it] <= blocks / 8);
        }
    }
}

/* Between epochs nothing leaves, and the numbers of the last pause stand. */
static void try_between(lxr_passes *heap, uint64_t pauses) {
    lxr_station station = { 0, 0 };
    IS(lxr_passes_open(heap, &good), LXR_E_IN_USE);
    IS(lxr_passes_pause(heap), LXR_E_EPOCH);
    IS(lxr_passes_pause_and_trace(heap), LXR_E_EPOCH);
    IS(lxr_station_leave(heap, 0, &station), LXR_E_EPOCH);
    IS(lxr_station_leave(heap, LAST, &station), LXR_E_EPOCH);
    IS(station.live, 0);
    for (uint32_t what = 0; what < 20; what++) {
        uint32_t known = what <= LXR_COUNT_SWEPT || what == LXR_COUNT_FREE_BLOCKS || what == LXR_COUNT_LAST_KIND || what == LXR_COUNT_ASKED;
        IS(lxr_passes_count(heap, what, &wide), known ? LXR_OK : LXR_E_WHAT);
        if (what == LXR_COUNT_PAUSES) IS(wide, pauses);
        if (!known) is_untouched(__LINE__);
        wide = UNTOUCHED;
    }
    REFUSED(lxr_passes_count(heap, LAST, &wide), LXR_E_WHAT);
}

/* How many words of a block aren't 0. The mock has no blocks. */
static uint64_t words_in(const uint64_t *words, uint32_t block) {
    uint64_t some = 0;
#ifdef MOCK_PASSES
    (void)words;
    (void)block;
#else
    for (size_t at = 0; at < LXR_BLOCK_WORDS; at++) some += words[(size_t)block * LXR_BLOCK_WORDS + at] != 0;
#endif
    return some;
}

/* Between epochs each free block is told once, in order, with zeros for words; and their memory goes back. */
static void try_trimming(lxr_passes *heap) {
    uint32_t from = 0, told = 0, block = 0;
    const uint64_t *words = NULL, *again = NULL;
    IS(lxr_passes_first_word(heap, &words), LXR_OK);
    for (; lxr_passes_trim_next(heap, from, &block) == LXR_OK; from = block + 1) {
        IS(block >= from && block < good.blocks, 1);
        IS(words_in(words, block), 0);
        told++;
    }
    IS(lxr_passes_count(heap, LXR_COUNT_FREE_BLOCKS, &wide), LXR_OK);
    IS(told, wide);
    wide = UNTOUCHED;
    REFUSED(lxr_passes_trim_next(heap, from, &narrow), LXR_E_NOTHING);
    REFUSED(lxr_passes_trim_next(heap, LAST, &narrow), LXR_E_NOTHING);
    IS(lxr_passes_trim(heap), LXR_OK);
    IS(lxr_passes_first_word(heap, &again), LXR_OK);
    IS(words == again, 1);
}

static void try_within(lxr_passes *heap) {
    IS(lxr_passes_open(heap, &good), LXR_E_IN_USE);
    IS(lxr_passes_resume(heap), LXR_E_EPOCH);
    IS(lxr_passes_pause(heap), LXR_E_NOT_WANTED);
    IS(lxr_passes_pause_and_trace(heap), LXR_E_NOT_WANTED);
    REFUSED(lxr_passes_count(heap, LXR_COUNT_PAUSES, &wide), LXR_E_EPOCH);
    REFUSED(lxr_passes_count(heap, LXR_E_WHAT, &wide), LXR_E_WHAT);
    IS(lxr_passes_trim(heap), LXR_E_EPOCH);
    REFUSED(lxr_passes_trim_next(heap, 0, &narrow), LXR_E_EPOCH);
    REFUSED(lxr_passes_first_word(heap, &place), LXR_E_EPOCH);
}

/* ---- Stations ---- */

/* Passes have the numbers of two threads and of two helpers; each leaves once. */
static void try_leaving(lxr_passes *heap) {
    lxr_station stations[4] = { { 0, 0 }, { 0, 0 }, { 0, 0 }, { 0, 0 } }, other = { 0, 0 };
    for (uint32_t at = 0; at < 4; at++) IS(lxr_station_leave(heap, at, &stations[at]), LXR_OK);
    for (uint32_t at = 0; at < 4; at++) {
        IS(lxr_station_leave(heap, at, &other), LXR_E_AWAY);
        IS(other.live, 0);
        IS(lxr_station_leave(heap, at, &stations[0]), LXR_E_IN_USE);
        IS(lxr_passes_pause(heap), LXR_E_AWAY);
    }
    IS(lxr_station_leave(heap, 4, &other), LXR_E_NUMBER);
    IS(lxr_station_leave(heap, LAST, &other), LXR_E_NUMBER);
    for (uint32_t at = 2; at < 4; at++) {
        refuse_operations(&stations[at], LXR_E_KIND);
        REFUSED(lxr_station_answer(&stations[at], &wide), LXR_E_KIND);
        IS(lxr_station_wants_pause(&stations[at], &narrow), LXR_OK);
        IS(narrow, 0);
        IS(lxr_station_help(&stations[at], 5, &narrow), LXR_OK);
        narrow = UNTOUCHED;
    }
    REFUSED(lxr_station_help(&stations[1], 5, &narrow), LXR_E_KIND);
    for (uint32_t at = 0; at < 4; at++) {
        IS(lxr_station_come_home(&stations[at]), LXR_OK);
        refuse_all(&stations[at], LXR_E_HOME);
        IS(lxr_station_leave(heap, 3 - at, &stations[at]), at < 2 ? LXR_E_AWAY : LXR_OK);
        IS(lxr_station_close(&stations[at]), LXR_OK);
        IS(lxr_station_close(&stations[at]), LXR_E_NO_HEAP);
    }
}

/* Registers and sizes are looked at before the station's pass: while that is away as many registers as the mutator has, and else all 256. */
static void try_numbers(lxr_passes *heap) {
    lxr_station station = { 0, 0 };
    IS(lxr_station_leave(heap, 0, &station), LXR_OK);
    for (uint32_t registers = 16; registers <= 256; registers += 240) {
        REFUSED(lxr_station_new(&station, registers, 1, 1), LXR_E_REGISTER);
        REFUSED(lxr_station_new(&station, registers, 1024, 1), LXR_E_REGISTER);
        REFUSED(lxr_station_new(&station, 1, 1024, 1), LXR_E_SIZE);
        REFUSED(lxr_station_new(&station, 1, 1, LAST), LXR_E_SIZE);
        REFUSED(lxr_station_swap(&station, 1, 0, 0, LAST), LXR_E_REGISTER);
        REFUSED(lxr_station_add(&station, registers, 0, 0, &wide), LXR_E_REGISTER);
        REFUSED(lxr_station_same(&station, 0, registers, &narrow), LXR_E_REGISTER);
        if (registers == 16) IS(lxr_station_come_home(&station), LXR_OK);
    }
    REFUSED(lxr_station_new(&station, 16, 1024, 1), LXR_E_SIZE);
    REFUSED(lxr_station_same(&station, 0, 16, &narrow), LXR_E_HOME);
    IS(lxr_station_close(&station), LXR_OK);
}

/* A mutator has as many registers as its heap's settings say. */
static void try_all_registers(uint32_t registers) {
    lxr_passes heap = { 0, 0 };
    lxr_station station = { 0, 0 };
    lxr_passes_settings settings = good;
    settings.registers = registers;
    settings.every = 1000;
    IS(lxr_passes_open(&heap, &settings), LXR_OK);
    IS(lxr_passes_resume(&heap), LXR_OK);
    IS(lxr_station_leave(&heap, 1, &station), LXR_OK);
    for (uint32_t at = 0; at < registers; at++) {
        lxr_code code = lxr_station_same(&station, at, 0, &narrow);
        IS(code, LXR_OK);
        IS(narrow, at == 0);
    }
    narrow = UNTOUCHED;
    REFUSED(lxr_station_same(&station, registers, 0, &narrow), LXR_E_REGISTER);
    REFUSED(lxr_station_move(&station, registers, 0), LXR_E_REGISTER);
    REFUSED(lxr_station_nil(&station, 256), LXR_E_REGISTER);
    IS(lxr_station_close(&station), LXR_OK);
    IS(lxr_passes_close(&heap), LXR_OK);
}

/* What is read and compared is told once, and again by the answer. */
static void try_answers(lxr_station *station) {
    REFUSED(lxr_station_answer(station, &wide), LXR_E_NOTHING);
    lxr_code code = lxr_station_same(station, 0, 0, &narrow);
    IS(code, LXR_OK);
    IS(narrow, 1);
    narrow = UNTOUCHED;
    IS(lxr_station_answer(station, &wide), LXR_OK);
    IS(wide, 1);
    wide = UNTOUCHED;
    REFUSED(lxr_station_get(station, 2, 0, &wide), LXR_E_NIL);
    REFUSED(lxr_station_answer(station, &wide), LXR_E_NIL);
    REFUSED(lxr_station_get(station, 0, 0, &wide), LXR_E_INDEX);
    REFUSED(lxr_station_answer(station, &wide), LXR_E_INDEX);
    IS(lxr_station_move(station, 1, 0), LXR_OK);
    REFUSED(lxr_station_answer(station, &wide), LXR_OK);
}

/* A pause that is asked for: who asked is done, the next operation of each is held or waits, and after the pause it is answered. */
static void try_pause(lxr_passes *heap) {
    lxr_station one = { 0, 0 }, other = { 0, 0 };
    IS(lxr_station_leave(heap, 0, &one), LXR_OK);
    IS(lxr_station_leave(heap, 1, &other), LXR_OK);
    try_answers(&one);
    IS(lxr_station_ask_collect(&one), LXR_OK);
    IS(lxr_station_wants_pause(&other, &narrow), LXR_OK);
    IS(narrow, 1);
    narrow = UNTOUCHED;
    IS(lxr_station_same(&other, 0, 0, &narrow), LXR_E_WAITS);
    is_untouched(__LINE__);
    refuse_operations(&other, LXR_E_HELD);
    REFUSED(lxr_station_answer(&other, &wide), LXR_E_WAITS);
    IS(lxr_station_come_home(&one), LXR_OK);
    IS(lxr_passes_pause(heap), LXR_E_AWAY);
    IS(lxr_station_come_home(&other), LXR_OK);
    IS(lxr_passes_pause(heap), LXR_OK);
    try_between(heap, 1);
    try_trimming(heap);
    IS(lxr_passes_count(heap, LXR_COUNT_LAST_KIND, &wide), LXR_OK);
    IS(wide, LXR_KIND_COLLECT);
    wide = UNTOUCHED;
    IS(lxr_passes_resume(heap), LXR_OK);
    IS(lxr_station_leave(heap, 1, &one), LXR_OK);
    refuse_operations(&one, LXR_E_BUSY);
    IS(lxr_station_answer(&one, &wide), LXR_OK);
    IS(wide, 1);
    wide = UNTOUCHED;
    IS(lxr_station_nil(&one, 1), LXR_OK);
    IS(lxr_station_close(&one), LXR_OK);
    IS(lxr_station_close(&other), LXR_OK);
}

/* A thread has had its turn after so many operations; a closed heap leaves what is away as it is. */
static void try_every(lxr_passes *heap) {
    lxr_station station = { 0, 0 };
    IS(lxr_station_leave(heap, 0, &station), LXR_OK);
    for (uint32_t left = good.every; left--;) IS(lxr_station_nil(&station, 1), LXR_OK);
    lxr_code code = lxr_station_nil(&station, 1);
    IS(code == LXR_E_HELD || code == LXR_E_WAITS, 1);
    IS(lxr_station_wants_pause(&station, &narrow), LXR_OK);
    IS(narrow, 1);
    narrow = UNTOUCHED;
    IS(lxr_passes_close(heap), LXR_OK);
    IS(lxr_station_come_home(&station), LXR_OK);
    IS(lxr_station_close(&station), LXR_OK);
}

int main(void) {
    lxr_passes heap = { 0, 0 };
    try_empty();
    try_sizes();
    try_shorter(FIRST);
    try_shorter(SECOND);
    try_settings();
    try_registers();
    try_runs();
    try_blocks();
    try_all_registers(16);
    try_all_registers(17);
    try_all_registers(256);
    IS(lxr_passes_open(&heap, &good), LXR_OK);
    try_between(&heap, 0);
    try_trimming(&heap);
    IS(lxr_passes_resume(&heap), LXR_OK);
    try_within(&heap);
    try_leaving(&heap);
    try_numbers(&heap);
    try_within(&heap);
    try_pause(&heap);
    try_every(&heap);
    printf("passes_hostile: %lu calls\n", checks);
    return 0;
}
