/* Two threads, each with a dictionary of its own, which the first thread drops then. */
#include "heap.h"

#include <pthread.h>
#include <stdio.h>

static void *work(void *of) {
    heap_dict *dict = of;
    heap_fault fault = {0};
    if (heap_format(2, dict, &fault)) return "format";
    for (uint64_t i = 0; i < 20000; i++) {
        uint64_t found = 0, length = 0;
        if (heap_put(dict, i % 500, (const uint8_t *)&i, sizeof i)) return "put";
        if (heap_get(dict, i % 500, (uint8_t *)&found, sizeof found, &length)) return "get";
        if (found != i || length != sizeof i) return "value";
    }
    return 0;
}

int main(void) {
    heap_dict dicts[2] = {{0}};
    pthread_t threads[2];
    for (int i = 0; i < 2; i++) pthread_create(&threads[i], 0, work, &dicts[i]);
    for (int i = 0; i < 2; i++) {
        void *wrong = 0;
        pthread_join(threads[i], &wrong);
        if (wrong) return printf("thread %d: %s\n", i, (char *)wrong), 1;
    }
    heap_drop(&dicts[0]);
    heap_drop(&dicts[1]);
    heap_drop(&dicts[1]);
    puts("two threads, a dictionary each");
    return 0;
}
