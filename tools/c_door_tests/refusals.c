/* Each request for memory of a session is refused in turn: by -Wl,--wrap=malloc,--wrap=realloc. */
#include "heap.h"

#include <stdio.h>
#include <stdlib.h>

static long left = -1; /* so many requests are still granted; none is refused at -1 */

void *__real_malloc(size_t);
void *__real_realloc(void *, size_t);

static int is_refused(void) { return left >= 0 && left-- == 0; }

void *__wrap_malloc(size_t size) { return is_refused() ? 0 : __real_malloc(size); }

void *__wrap_realloc(void *old, size_t size) { return is_refused() ? 0 : __real_realloc(old, size); }

static uint8_t image[800000], value[100];

static int fail(const char *what, uint32_t status) {
    printf("%s answered %u\n", what, status);
    return -1;
}

/* A key is set, or refused: then it is set with all memory there is. */
static int set_key(heap_dict *dict, uint64_t key) {
    uint32_t status = heap_put(dict, key, value, sizeof value);
    if (status == HEAP_DONE) return 0;
    if (status != HEAP_MEMORY) return fail("put", status);
    left = -1;
    status = heap_put(dict, key, value, sizeof value);
    return status ? fail("put again", status) : 1;
}

/* The image is taken, and the dictionary is open after it; it may have been closed for want of memory. */
static int take_image(heap_dict *dict, heap_fault *fault) {
    size_t size = heap_length(dict);
    uint32_t status = heap_image(dict, image, size, fault);
    if (status == HEAP_DONE) return 0;
    if (status != HEAP_MEMORY) return fail("image", status);
    left = -1;
    if (heap_length(dict)) return fail("length", status);
    status = heap_open(image, size, dict, fault);
    return status ? fail("open", status) : 1;
}

/* How many requests were refused: 0 or 1; -1 where something is wrong. */
static int session(long granted) {
    heap_dict dict = {0};
    heap_fault fault = {0};
    uint64_t length = 0;
    int refused = 0;
    left = granted;
    uint32_t status = heap_format(2, &dict, &fault);
    if (status == HEAP_MEMORY) {
        refused++;
        left = -1;
        status = heap_format(2, &dict, &fault);
    }
    if (status) return fail("format", status);
    for (uint64_t key = 0; key < 20; key++) {
        int more = set_key(&dict, key);
        if (more < 0) return more;
        refused += more;
    }
    int more = take_image(&dict, &fault);
    if (more < 0) return more;
    refused += more;
    status = heap_get(&dict, 3, value, sizeof value, &length);
    if (status || length != sizeof value) return fail("get", status);
    status = heap_close(&dict, image, heap_length(&dict));
    return status ? fail("close", status) : refused;
}

int main(void) {
    long granted = 0;
    for (;; granted++) {
        int refused = session(granted);
        if (refused < 0) return 1;
        if (refused == 0) break;
    }
    printf("each of %ld requests for memory was refused once\n", granted);
    return granted == 0;
}
