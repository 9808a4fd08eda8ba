/* calls_structs.c: what the calls of lxr_threads.h would cost on plain structs of C in one thread, by malloc and free or by Boehm's collector
 * (-DBOEHM). SPDX: MIT OR Apache-2.0
 *
 * usage: calls_structs 1                   as calls_lxr.c has it
 *        calls_structs count NAME TENTHS
 *
 * Registers are an array of pointers, as a runtime has them. */
#include "../c/bench.h"

struct object {
    struct object *refs[2];
    uint64_t words[2];
};

struct small {
    struct object *ref;
    uint64_t word;
};

static void *registers[16];

#ifdef BOEHM
#include <gc.h>
static void *make(size_t bytes) { return GC_MALLOC(bytes); }
static void release(void *old) { (void)old; }
#else
static void *make(size_t bytes) { return calloc(1, bytes); }
static void release(void *old) { free(old); }
#endif

static struct object *held(int number) { return registers[number]; }

static void measure_calls(void) {
    uint64_t word = 0;
    for (int at = 1; at < 3; at++) registers[at] = make(sizeof(struct object));
    MEASURE_CALL("get", word = held(1)->words[i & 1]);
    MEASURE_CALL("put", held(1)->words[i & 1] = i);
    MEASURE_CALL("add", word = held(1)->words[i & 1]; held(1)->words[i & 1] = word + 1);
    MEASURE_CALL("load", registers[4] = held(1)->refs[i & 1]);
    MEASURE_CALL("store, a further one", held(1)->refs[i & 1] = held(2));
    MEASURE_CALL("swap", registers[4] = held(1)->refs[i & 1]; held(1)->refs[i & 1] = held(2));
    MEASURE_CALL("move", registers[4] = held(2));
    MEASURE("new of two words", 20, 100000, release(registers[5]); registers[5] = make(sizeof(struct small)));
    __asm__ volatile("" ::"r"(word));
}

int main(int count, char **words) {
#ifdef BOEHM
    GC_INIT();
#endif
    if (count == 4 && strcmp(words[1], "count") == 0) {
        counted_call = words[2];
        counted_tenths = (uint32_t)strtoul(words[3], NULL, 10);
    } else if (count != 2) {
        return 2;
    }
    measure_calls();
    return 0;
}
