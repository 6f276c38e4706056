/* The ends of each range, calls on closed dictionaries, and the sizes of the structs. */
#include "heap.h"

#include <stdio.h>
#include <stdlib.h>
#include <string.h>

_Static_assert(sizeof(heap_dict) == 16, "a dictionary is two words");
_Static_assert(sizeof(heap_fault) == 32, "a fault is four words");

static int wrong;

static void expect(const char *what, uint64_t found, uint64_t wanted) {
    if (found == wanted) return;
    printf("%s: %llu, and not %llu\n", what, (unsigned long long)found, (unsigned long long)wanted);
    wrong = 1;
}

static uint8_t value[HEAP_LONGEST_VALUE + 1], room[HEAP_LONGEST_VALUE];

static void try_closed(void) {
    heap_dict dict = {0};
    heap_fault fault = {0};
    uint64_t word = 0;
    expect("put on a closed one", heap_put(&dict, 1, value, 1), HEAP_USAGE);
    expect("get on a closed one", heap_get(&dict, 1, room, 1, &word), HEAP_USAGE);
    expect("del on a closed one", heap_del(&dict, 1), HEAP_USAGE);
    expect("first on a closed one", heap_first(&dict, &word), HEAP_USAGE);
    expect("next on a closed one", heap_next(&dict, 0, &word), HEAP_USAGE);
    expect("length of a closed one", heap_length(&dict), 0);
    expect("image of a closed one", heap_image(&dict, room, 1, &fault), HEAP_USAGE);
    expect("close of a closed one", heap_close(&dict, room, 1), HEAP_USAGE);
    expect("crash of a closed one", heap_crash(&dict, 1, room, 1), HEAP_USAGE);
    heap_drop(&dict);
    expect("a closed one is zeros", dict.state, 0);
}

static void try_capacities(void) {
    heap_dict dict = {0};
    heap_fault fault = {0};
    expect("no superblock", heap_format(0, &dict, &fault), HEAP_USAGE);
    expect("too many superblocks", heap_format(HEAP_MOST_SUPERBLOCKS + 1, &dict, &fault), HEAP_USAGE);
    expect("one superblock", heap_format(1, &dict, &fault), HEAP_DONE);
    expect("format of an open one", heap_format(1, &dict, &fault), HEAP_USAGE);
    heap_drop(&dict);
}

static void try_values(void) {
    heap_dict dict = {0};
    heap_fault fault = {0};
    uint64_t length = 7, key = 0;
    expect("format", heap_format(8, &dict, &fault), HEAP_DONE);
    expect("no key yet", heap_first(&dict, &key), HEAP_ABSENT);
    memset(value, 5, sizeof value);
    expect("the longest value", heap_put(&dict, UINT64_MAX, value, HEAP_LONGEST_VALUE), HEAP_DONE);
    expect("a longer value", heap_put(&dict, 1, value, HEAP_LONGEST_VALUE + 1), HEAP_USAGE);
    expect("no bytes", heap_put(&dict, 0, value, 0), HEAP_DONE);
    expect("get of no bytes", heap_get(&dict, 0, room, sizeof room, &length), HEAP_DONE);
    expect("their length", length, 0);
    expect("get into no room", heap_get(&dict, UINT64_MAX, room, 0, &length), HEAP_DONE);
    expect("the whole length", length, HEAP_LONGEST_VALUE);
    expect("get", heap_get(&dict, UINT64_MAX, room, sizeof room, &length), HEAP_DONE);
    expect("the value", (uint64_t)memcmp(room, value, HEAP_LONGEST_VALUE), 0);
    expect("first", heap_first(&dict, &key), HEAP_DONE);
    expect("the least key", key, 0);
    expect("next", heap_next(&dict, 0, &key), HEAP_DONE);
    expect("the key above", key, UINT64_MAX);
    expect("next of the greatest", heap_next(&dict, UINT64_MAX, &key), HEAP_ABSENT);
    expect("a room too short", heap_close(&dict, room, 8), HEAP_ROOM);
    expect("the same for an image", heap_image(&dict, room, 8, &fault), HEAP_ROOM);
    expect("the same for a crash", heap_crash(&dict, 1, room, 8), HEAP_ROOM);
    expect("del", heap_del(&dict, 0), HEAP_DONE);
    expect("del again", heap_del(&dict, 0), HEAP_ABSENT);
    heap_drop(&dict);
}

/* A full heap leaves its keys as they are, and so does a crash. */
static void try_ends(void) {
    heap_dict dict = {0};
    heap_fault fault = {0};
    uint64_t length = 0, key = 0;
    uint32_t status = heap_format(4, &dict, &fault);
    while (status == HEAP_DONE) status = heap_put(&dict, 8 * key++, value, 14000);
    expect("a full heap", status, HEAP_FULL);
    expect("the key that found no room", heap_get(&dict, 8 * (key - 1), room, 1, &length), HEAP_ABSENT);
    size_t size = heap_length(&dict);
    uint8_t *image = malloc(size);
    if (!image) return;
    expect("image", heap_image(&dict, image, size, &fault), HEAP_DONE);
    expect("close", heap_close(&dict, image, size), HEAP_DONE);
    expect("open again", heap_open(image, size, &dict, &fault), HEAP_DONE);
    expect("put over a value", heap_put(&dict, 0, value, 9), HEAP_FULL);
    expect("its crash", heap_crash(&dict, 1, image, size), HEAP_DONE);
    expect("open after it", heap_open(image, size, &dict, &fault), HEAP_DONE);
    expect("the old value", heap_get(&dict, 0, room, 1, &length), HEAP_DONE);
    expect("its length", length, 14000);
    heap_drop(&dict);
    free(image);
}

/* One with no steps stops at the first request, and leaves what it was opened over. */
static void try_budgets(void) {
    heap_dict dict = {0};
    heap_fault fault = {0};
    uint64_t length = 0, key = 0;
    expect("format", heap_format(2, &dict, &fault), HEAP_DONE);
    expect("put", heap_put(&dict, 5, value, 3), HEAP_DONE);
    size_t size = heap_length(&dict);
    uint8_t *image = malloc(size);
    if (!image) return;
    expect("close", heap_close(&dict, image, size), HEAP_DONE);
    expect("too many steps", heap_open_limited(image, size, HEAP_MOST_STEPS + 1, &dict, &fault), HEAP_USAGE);
    expect("no steps", heap_open_limited(image, size, 0, &dict, &fault), HEAP_DONE);
    expect("first, which takes none", heap_first(&dict, &key), HEAP_DONE);
    expect("the least key", key, 5);
    expect("put without steps", heap_put(&dict, 6, value, 3), HEAP_STOPPED);
    expect("get after it", heap_get(&dict, 5, room, 3, &length), HEAP_STOPPED);
    expect("first after it", heap_first(&dict, &key), HEAP_STOPPED);
    expect("its length", heap_length(&dict), size);
    expect("its image", heap_image(&dict, image, size, &fault), HEAP_DONE);
    expect("the key in it", heap_get(&dict, 5, room, 3, &length), HEAP_DONE);
    expect("the key that was not set", heap_get(&dict, 6, room, 3, &length), HEAP_ABSENT);
    heap_drop(&dict);
    free(image);
}

int main(void) {
    try_closed();
    try_capacities();
    try_values();
    try_ends();
    try_budgets();
    if (!wrong) puts("the ends of each range");
    return wrong;
}
