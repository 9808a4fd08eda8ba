/* lxr_memory.c: how what is proved asks for memory, in the module that hosts are inlined with. SPDX: MIT OR Apache-2.0
 *
 * The archive takes these three from the kit's library libc_c.a, which is an object. A module can't be linked with an object, so it takes them
 * from here; neither shows them. */
#include <stddef.h>
#include <stdint.h>
#include <stdlib.h>

/* Whether there is memory, and its address: where there is none, that of a byte which nobody writes. Two whole registers. */
struct tried {
    uint64_t is_there;
    uintptr_t address;
};

struct tried rattle_alloc(size_t bytes, size_t alignment);
struct tried rattle_realloc(void *old, size_t kept, size_t bytes, size_t alignment);
void rattle_dealloc(void *old);

static char nothing;

static struct tried tell(void *found) { return (struct tried){ found != NULL, (uintptr_t)(found ? found : &nothing) }; }

/* `alignment` divides 16, which malloc gives anyway. So many bytes are asked for where none are wanted, since malloc may answer none with
 * NULL. */
struct tried rattle_alloc(size_t bytes, size_t alignment) {
    return tell(malloc(bytes ? bytes : alignment));
}

struct tried rattle_realloc(void *old, size_t kept, size_t bytes, size_t alignment) {
    (void)kept;
    return tell(realloc(old, bytes ? bytes : alignment));
}

void rattle_dealloc(void *old) { free(old); }
