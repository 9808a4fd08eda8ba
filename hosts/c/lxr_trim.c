/* lxr_trim.c: memory of free blocks goes back to the system. SPDX: MIT OR Apache-2.0
 *
 * What is proved makes the words of free blocks 0. A whole page of them may then be dropped: the system gives zeros where it is read again, so
 * that nothing the heap can tell has changed. That holds of private memory which is no file's, as malloc gives it, on Linux. Of a heap that
 * threads share it is done between two epochs, where no pass is away: else words could be written between the one and the other. */
#define _DEFAULT_SOURCE

#include "lxr.h"
#include "lxr_passes.h"

#include <stddef.h>
#include <stdint.h>
#include <sys/mman.h>
#include <unistd.h>

/* Makes the words of the next free block of a heap 0, from one on, and tells its number. */
typedef lxr_code next_block(void *heap, uint32_t from, uint32_t *block);

static lxr_code next_of_heap(void *heap, uint32_t from, uint32_t *block) { return lxr_trim_next(heap, from, block); }

static lxr_code next_of_passes(void *heap, uint32_t from, uint32_t *block) { return lxr_passes_trim_next(heap, from, block); }

/* Drops the whole pages from one word on and before another, which are 0. Where the system refuses, they stay as they are. */
static void drop_pages(const uint64_t *first, const uint64_t *end) {
    uintptr_t page = (uintptr_t)sysconf(_SC_PAGESIZE);
    uintptr_t from = ((uintptr_t)first + page - 1) / page * page, to = (uintptr_t)end / page * page;
    if (from < to) (void)madvise((void *)from, to - from, MADV_DONTNEED);
}

static const uint64_t *block_at(const uint64_t *words, uint32_t block) { return words + (size_t)block * LXR_BLOCK_WORDS; }

/* Drops all free blocks of a heap whose words begin here. Those that follow each other are dropped at once, since pages begin where blocks don't. */
static void drop_free(void *heap, next_block *next, const uint64_t *words) {
    uint32_t first = 0, end = 0, block = 0;
    while (next(heap, end, &block) == LXR_OK) {
        if (block != end) {
            drop_pages(block_at(words, first), block_at(words, end));
            first = block;
        }
        end = block + 1;
    }
    drop_pages(block_at(words, first), block_at(words, end));
}

lxr_code lxr_trim(lxr_heap *heap) {
    const uint64_t *words = NULL;
    lxr_code code = lxr_first_word(heap, &words);
    if (code != LXR_OK) return code == LXR_E_NOTHING ? LXR_OK : code;
    drop_free(heap, next_of_heap, words);
    return LXR_OK;
}

lxr_code lxr_passes_trim(lxr_passes *heap) {
    const uint64_t *words = NULL;
    lxr_code code = lxr_passes_first_word(heap, &words);
    if (code == LXR_OK) drop_free(heap, next_of_passes, words);
    return code;
}
