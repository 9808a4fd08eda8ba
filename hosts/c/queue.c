#include <inttypes.h>
#include <lxr_threads.h>
#include <pthread.h>
#include <stdio.h>

enum { WORLD, NODE, LAST, THREADS = 4, NODES = 250000, QUEUED = 1000 }; /* three registers; what there is of each */
static lxr_shared_heap *heap;                                           /* null: not open */

/* Makes nodes, and appends some to the queue; all others are garbage. Reference 0 of the world leads to the last node of the queue. */
static void *append(void *unused) {
    lxr_mutator *self = NULL;
    if (lxr_mutator_enter(heap, &self) != LXR_OK) return unused;
    for (uint64_t n = 1; n <= NODES && lxr_mutator_new(self, NODE, 1, 1) == LXR_OK; n++) {
        if (n % (NODES / QUEUED) != 0) continue;
        lxr_mutator_put(self, NODE, 0, n);
        lxr_mutator_swap(self, LAST, WORLD, 0, NODE); /* the node is the last, and what was the last .. */
        lxr_mutator_store(self, LAST, 0, NODE);       /* .. leads to it: no thread has to wait for that */
    }
    lxr_mutator_leave(&self); /* lets go of its registers */
    return unused;
}

int main(void) {
    const lxr_shared_heap_settings settings = LXR_SHARED_HEAP_SETTINGS(64, THREADS + 1); /* 64 blocks of 32 KB; a place for main too */
    pthread_t threads[THREADS];
    lxr_mutator *self = NULL;
    uint64_t word, sum = 0, queued = 0, pauses = 0;
    if (lxr_shared_heap_open(&heap, &settings) != LXR_OK || lxr_mutator_enter(heap, &self) != LXR_OK) return 1;
    lxr_mutator_new(self, NODE, 1, 1); /* stands before the first: this register holds it, so all that follow are kept */
    lxr_mutator_store(self, WORLD, 0, NODE);
    lxr_mutator_rest(self); /* main waits for others, and holds up no pause meanwhile */
    for (int n = 0; n < THREADS; n++) pthread_create(&threads[n], NULL, append, NULL);
    for (int n = 0; n < THREADS; n++) pthread_join(threads[n], NULL);
    lxr_mutator_wake(self);
    while (lxr_mutator_load(self, NODE, NODE, 0) == LXR_OK && lxr_mutator_get(self, NODE, 0, &word) == LXR_OK) {
        sum += word;
        queued++;
    }
    lxr_shared_heap_count(heap, LXR_COUNT_PAUSES, &pauses);
    printf("%" PRIu64 " nodes in the queue add up to %" PRIu64 "; there were %" PRIu64 " pauses\n", queued, sum, pauses);
    return lxr_mutator_leave(&self) != LXR_OK || lxr_shared_heap_close(&heap) != LXR_OK;
}
