/* plain_heap.h: what plain_heap.c has beside the functions of lxr.h. SPDX: MIT OR Apache-2.0 */
#ifndef PLAIN_HEAP_H
#define PLAIN_HEAP_H

#include "lxr.h"

/* Calls `each` for every object that can be reached but the world, with its references, data words and blocks of its body. */
void plain_each_reachable(lxr_heap *heap, void (*each)(void *with, uint32_t refs, uint32_t words, uint32_t blocks), void *with);

#endif
