/* counter FILE: counts how often it was run, in a dictionary in that file. */
#include "heap.h"

#include <inttypes.h>
#include <stdio.h>
#include <stdlib.h>

static int fail(const char *what, uint32_t status, const heap_fault *fault) {
    char text[128];
    heap_reason(status, fault, text, sizeof text);
    fprintf(stderr, "%s: %s\n", what, text);
    return (int)status;
}

/* The image in the file, or an empty one of two superblocks where there is none. */
static uint32_t open_file(const char *path, heap_dict *dict, heap_fault *fault) {
    uint8_t *bytes;
    size_t size;
    uint32_t status = heap_load(path, &bytes, &size);
    if (status == HEAP_NO_IMAGE) return heap_format(2, dict, fault);
    if (status != HEAP_DONE) return status;
    status = heap_open(bytes, size, dict, fault);
    free(bytes);
    return status;
}

static uint32_t close_file(const char *path, heap_dict *dict) {
    size_t size = heap_length(dict);
    uint8_t *bytes = malloc(size);
    if (!bytes) return HEAP_MEMORY;
    uint32_t status = heap_close(dict, bytes, size);
    if (status == HEAP_DONE) status = heap_save(path, bytes, size);
    free(bytes);
    return status;
}

int main(int count, char **words) {
    const char *path = count > 1 ? words[1] : "counter.img";
    heap_dict dict = {0};
    heap_fault fault = {0};
    uint64_t runs = 0, length = 0;

    uint32_t status = open_file(path, &dict, &fault);
    if (status) return fail("open", status, &fault);
    status = heap_get(&dict, 1, (uint8_t *)&runs, sizeof runs, &length);
    if (status > HEAP_ABSENT) return fail("get", status, &fault);
    runs++;
    status = heap_put(&dict, 1, (const uint8_t *)&runs, sizeof runs);
    if (status) return fail("put", status, &fault);
    printf("run %" PRIu64 "\n", runs);
    status = close_file(path, &dict);
    return status ? fail("save", status, &fault) : 0;
}
