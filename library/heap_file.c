/* Images in files, and what a status means in words. This is plain C, and not proved. */
#include "heap.h"

#include <errno.h>
#include <fcntl.h>
#include <inttypes.h>
#include <libgen.h>
#include <stdio.h>
#include <stdlib.h>
#include <string.h>
#include <sys/stat.h>
#include <unistd.h>

uint32_t heap_load(const char *path, uint8_t **bytes, size_t *size) {
    struct stat about;
    FILE *file = fopen(path, "rb");
    if (!file) return errno == ENOENT ? HEAP_NO_IMAGE : HEAP_READ;
    if (fstat(fileno(file), &about) || !S_ISREG(about.st_mode)) {
        fclose(file);
        return HEAP_READ;
    }
    *size = (size_t)about.st_size;
    *bytes = malloc(*size ? *size : 1);
    if (!*bytes) {
        fclose(file);
        return HEAP_MEMORY;
    }
    size_t got = fread(*bytes, 1, *size, file);
    fclose(file);
    if (got == *size) return HEAP_DONE;
    free(*bytes);
    return HEAP_READ;
}

/* Whether all bytes were written. */
static int write_all(int file, const uint8_t *bytes, size_t size) {
    while (size > 0) {
        ssize_t count = write(file, bytes, size);
        if (count < 0 && errno == EINTR) continue;
        if (count <= 0) return 0;
        bytes += count;
        size -= (size_t)count;
    }
    return 1;
}

/* Whether a new file with these bytes was written and synced. */
static int write_new(const char *path, const uint8_t *bytes, size_t size) {
    int file = open(path, O_WRONLY | O_CREAT | O_TRUNC, 0666);
    if (file < 0) return 0;
    int good = write_all(file, bytes, size) && fsync(file) == 0;
    return close(file) == 0 && good;
}

/* Whether the folder that the file lies in was synced. */
static int sync_folder(const char *path) {
    char *copy = strdup(path);
    if (!copy) return 0;
    int folder = open(dirname(copy), O_RDONLY | O_DIRECTORY);
    free(copy);
    if (folder < 0) return 0;
    int good = fsync(folder) == 0;
    return close(folder) == 0 && good;
}

uint32_t heap_save(const char *path, const uint8_t *bytes, size_t size) {
    size_t room = strlen(path) + sizeof ".new";
    char *beside = malloc(room);
    if (!beside) return HEAP_MEMORY;
    snprintf(beside, room, "%s.new", path);
    int good = write_new(beside, bytes, size) && rename(beside, path) == 0;
    if (!good) unlink(beside);
    free(beside);
    return good && sync_folder(path) ? HEAP_DONE : HEAP_WRITE;
}

void heap_reason(uint32_t status, const heap_fault *fault, char *text, size_t size) {
    static const char *const causes[] = {"unknown", "short",  "magic", "version", "capacity",
                                         "length",  "state",  "used",  "kind"};
    static const char *const words[] = {"done", "absent", "usage", "out of memory", "read fault",
                                        "write fault", "no image"};
    switch (status) {
    case HEAP_HEADER:
        snprintf(text, size, "bad header %s", causes[fault->cause <= 8 ? fault->cause : 0]);
        break;
    case HEAP_OUTSIDE:
        snprintf(text, size, "pointer outside at %" PRIu64 " value %016" PRIx64, fault->at,
                 fault->value);
        break;
    case HEAP_SHARD:
        snprintf(text, size, "bad shard %" PRIu64 " at %" PRIu64, fault->shard, fault->at);
        break;
    case HEAP_FULL: snprintf(text, size, "full"); break;
    case HEAP_STOPPED: snprintf(text, size, "stopped"); break;
    case HEAP_ROOM: snprintf(text, size, "room of another size"); break;
    default: snprintf(text, size, "%s", status <= HEAP_NO_IMAGE ? words[status] : "unknown status");
    }
}
