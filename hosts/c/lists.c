#include <inttypes.h>
#include <lxr.h>
#include <stdio.h>

int main(void) {
    enum { PAIR = 1, LIST = 2 }; /* two of the sixteen registers */
    static lxr_heap heap;        /* zeros: empty */
    uint64_t word, sum = 0, pauses = 0, n = 0;
    if (lxr_open(&heap, &(lxr_settings)LXR_SETTINGS(8, 1)) != LXR_OK) return 1; /* 8 blocks of 32 KB for objects, one for bodies */
    for (; n < 1000000 && lxr_new(&heap, PAIR, 1, 1) == LXR_OK; n++) {
        if (n % 1000 == 0) lxr_nil(&heap, LIST); /* lets go of the list, which is garbage now */
        lxr_put(&heap, PAIR, 0, n);              /* the pair's data word 0 */
        lxr_store(&heap, PAIR, 0, LIST);         /* the pair's reference 0 */
        lxr_move(&heap, LIST, PAIR);
    }
    for (; lxr_get(&heap, LIST, 0, &word) == LXR_OK; lxr_load(&heap, LIST, LIST, 0)) sum += word;
    lxr_count(&heap, LXR_COUNT_PAUSES, &pauses);
    printf("%" PRIu64 " pairs, %" PRIu64 " pauses; the last list adds up to %" PRIu64 "\n", n, pauses, sum);
    return lxr_close(&heap) != LXR_OK;
}
