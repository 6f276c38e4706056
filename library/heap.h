/* A dictionary of 64-bit keys and values of bytes, kept in an image: an array of bytes that it is
   opened over, and that it is saved as. docs/C.md says what is proved of each call, and what is
   trusted of the caller. Link with libheap.a or libheap.so. */
#ifndef HEAP_H
#define HEAP_H

#include <stddef.h>
#include <stdint.h>

#ifdef __cplusplus
extern "C" {
#endif

/* What a call answers. Up to 10 these are the numbers with which heap_tool ends. */
enum {
    HEAP_DONE = 0,
    HEAP_ABSENT = 1,   /* the key, or a greater one, is not there */
    HEAP_USAGE = 2,    /* an argument is out of range, or the dictionary is not open (or is, where
                          it is to be opened): nothing was done */
    HEAP_MEMORY = 3,   /* malloc refused */
    HEAP_READ = 4,     /* heap_load alone: the file could not be read */
    HEAP_WRITE = 5,    /* heap_save alone: the file could not be written; the old one is there */
    HEAP_NO_IMAGE = 6, /* heap_load alone: there is no such file */
    HEAP_HEADER = 7,   /* the header is bad: fault.cause */
    HEAP_OUTSIDE = 8,  /* word fault.at, whose value is fault.value, leads to no block */
    HEAP_SHARD = 9,    /* shard fault.shard is no map, and word fault.at is the first that is wrong */
    HEAP_FULL = 11,    /* there is no room: the dictionary is as it was */
    HEAP_STOPPED = 12, /* its steps are used up: close it, and open what it leaves */
    HEAP_ROOM = 13     /* the room has another size than heap_length: nothing was done */
};

/* The longest value, and the greatest number of superblocks of 64 KiB. */
#define HEAP_LONGEST_VALUE 131072
#define HEAP_MOST_SUPERBLOCKS 4096

/* The steps that a dictionary has, unless it is opened with fewer: hours of nothing but puts. */
#define HEAP_MOST_STEPS ((UINT64_C(1) << 40) - 1)

/* A dictionary. Fill it with zeros first: then it is closed. Don't look into it and don't copy it.
   One call at a time may have it; it may go to another thread. */
typedef struct heap_dict {
    void *at;
    uint64_t state;
} heap_dict;

/* Why an image was not opened. Fields of which the status doesn't speak stay as they were. */
typedef struct heap_fault {
    uint64_t cause; /* 1 short, 2 magic, 3 version, 4 capacity, 5 length, 6 state, 7 used, 8 kind */
    uint64_t shard;
    uint64_t at;
    uint64_t value;
} heap_fault;

/* No pointer may be null, also where a size is 0. */

/* Opens an empty dictionary of 1 to 4096 superblocks. */
uint32_t heap_format(uint64_t superblocks, heap_dict *dict, heap_fault *fault);

/* Opens the image in these bytes, which are not kept. */
uint32_t heap_open(const uint8_t *bytes, size_t size, heap_dict *dict, heap_fault *fault);

/* For tests: the same with so many steps, HEAP_MOST_STEPS at most, so that it stops in the middle of
   a request. */
uint32_t heap_open_limited(const uint8_t *bytes, size_t size, uint64_t budget, heap_dict *dict,
                           heap_fault *fault);

/* Sets a key. */
uint32_t heap_put(heap_dict *dict, uint64_t key, const uint8_t *value, size_t size);

/* Reads the value of a key: as much as fits goes into the room, and its length into *length. */
uint32_t heap_get(heap_dict *dict, uint64_t key, uint8_t *room, size_t size, uint64_t *length);

/* Takes a key out. */
uint32_t heap_del(heap_dict *dict, uint64_t key);

/* The least key, and the least key above this one, go into *found. */
uint32_t heap_first(heap_dict *dict, uint64_t *found);
uint32_t heap_next(heap_dict *dict, uint64_t key, uint64_t *found);

/* How many bytes its image has; 0 where it is closed. */
uint64_t heap_length(heap_dict *dict);

/* Its image goes into the room, which has heap_length bytes, and it is opened over it again, with
   HEAP_MOST_STEPS. At HEAP_MEMORY the room has the image, and it is closed. After HEAP_STOPPED it is
   the image of heap_crash with the seed 0. */
uint32_t heap_image(heap_dict *dict, uint8_t *room, size_t size, heap_fault *fault);

/* Its image goes into the room, and it is closed. After HEAP_STOPPED it is the image of heap_crash
   with the seed 0. */
uint32_t heap_close(heap_dict *dict, uint8_t *room, size_t size);

/* For tests: what a crash may leave now goes into the room, and it is closed. The seed decides which
   words were written back before a fence asked for it, and what stands in words of which a crash
   promises nothing. */
uint32_t heap_crash(heap_dict *dict, uint64_t seed, uint8_t *room, size_t size);

/* It is closed, and nothing of it is kept. */
void heap_drop(heap_dict *dict);

/* The files. These three are plain C, and not proved (library/heap_file.c). */

/* The bytes of a file, which the caller frees. */
uint32_t heap_load(const char *path, uint8_t **bytes, size_t *size);

/* Writes them to a new file, path.new, syncs it, gives it the name, and syncs the folder: a crash
   leaves the old file or the new one. At HEAP_WRITE the old file is there, unless the folder alone
   could not be synced. */
uint32_t heap_save(const char *path, const uint8_t *bytes, size_t size);

/* What a status means, in a line: of the statuses 7 to 9 the one that heap_tool prints. */
void heap_reason(uint32_t status, const heap_fault *fault, char *text, size_t size);

#ifdef __cplusplus
}
#endif
#endif
