#include <inttypes.h>
#include <lxr.h>
#include <stdio.h>

int main(void) {
    enum { ROW = 1, LEFT, RIGHT, NODE, NODES = LXR_MOST_REFS }; /* four registers; how many nodes the tree has */
    static const uint32_t both[] = { LEFT, RIGHT };
    static lxr_heap heap;
    lxr_operation sizes[] = { { LXR_OP_GET, LEFT, 1, 0, 0 }, { LXR_OP_GET, RIGHT, 1, 0, 0 } };
    uint64_t words[] = { 0, 0 };
    size_t done;
    if (lxr_open(&heap, &(lxr_settings)LXR_SETTINGS(8, 1)) != LXR_OK || lxr_new(&heap, ROW, NODES, 0) != LXR_OK) return 1;
    for (uint32_t at = NODES; at-- > 0; lxr_store(&heap, ROW, at, NODE)) {
        size_t below = at < NODES / 2 ? 2 : 0; /* the nodes 2 at + 1 and 2 at + 2; the others are leaves */
        words[0] = at, words[1] = 1;           /* its number, and the size of the tree that it is the root of */
        if (below) {
            lxr_load_many(&heap, ROW, 2 * at + 1, both, below);
            if (lxr_apply(&heap, sizes, below, &done) == LXR_OK) words[1] += sizes[0].word + sizes[1].word;
        }
        if (lxr_new_with(&heap, NODE, both, below, words, 2) != LXR_OK) return 1;
    }
    lxr_get_many(&heap, NODE, 0, words, 2);
    printf("node %" PRIu64 " is the root of %" PRIu64 " nodes\n", words[0], words[1]);
    return lxr_close(&heap) != LXR_OK;
}
