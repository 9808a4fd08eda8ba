#include <inttypes.h>
#include <lxr.h>
#include <stdio.h>

enum { LIST = 1, FIRST, LAST, NODE, LENGTH = 60000, RINGS = 20 };

static lxr_heap heap;

static uint64_t count(uint32_t what) {
    uint64_t number = 0;
    lxr_count(&heap, what, &number);
    return number;
}

/* Register `last` leads to a list of so many objects of 128 bytes, the first of which register FIRST holds. */
static lxr_code make_list(uint32_t last) {
    lxr_nil(&heap, last);
    for (uint32_t made = 0; made < LENGTH; made++) {
        lxr_code code = lxr_new(&heap, NODE, 1, 13);
        if (code != LXR_OK) return code;
        lxr_store(&heap, NODE, 0, last);
        lxr_move(&heap, last, NODE);
        if (made == 0) lxr_move(&heap, FIRST, NODE);
    }
    return LXR_OK;
}

int main(void) {
    lxr_settings settings = LXR_SETTINGS(65536, 1); /* 2 GB are reserved, */
    settings.room = 640;                            /* of which 20 MB are used at first, and then twice what lives */
    if (lxr_open(&heap, &settings) != LXR_OK) return 1;
    if (make_list(LIST) != LXR_OK) return 1; /* 7 MB live */
    uint64_t most = 0;
    for (int made = 0; made < RINGS; made++) { /* and 20 rings of 7 MB come and go, which counts don't reclaim */
        if (make_list(LAST) != LXR_OK || lxr_store(&heap, FIRST, 0, LAST) != LXR_OK) return 1;
        uint64_t used = settings.blocks - count(LXR_COUNT_FREE_BLOCKS);
        if (used > most) most = used;
    }
    printf("up to %" PRIu64 " MB were in use; the room is %" PRIu64 " MB\n", most / 32, count(LXR_COUNT_ROOM) / 32);
    return lxr_close(&heap) != LXR_OK;
}
