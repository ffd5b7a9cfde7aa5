#include "files.h"

#include "gate.h"
#include <errno.h>
#include <stdio.h>
#include <stdlib.h>

/* One byte more than a module may have, and than a text of calls: what is longer is refused, whatever follows. */
enum { FIRST_ROOM = 4096, MOST = 16777217 };

_Noreturn void end(int status, const char *what, const char *name) {
    fprintf(stderr, "%s%s\n", what, name);
    exit(status);
}

void *room(void *old, size_t count, size_t size) {
    /* A block of no bytes may be NULL, which says nothing. */
    void *block = count > SIZE_MAX / size ? NULL : realloc(old, count ? count * size : 1);
    if (!block) end(GATE_NO_MEMORY, "no memory", "");
    return block;
}

static bool read_all(FILE *stream, bytes *file) {
    size_t most = FIRST_ROOM / 2;
    do {
        most = most < MOST / 2 ? 2 * most : MOST;
        file->at = room(file->at, most, 1);
        file->length += fread(file->at + file->length, 1, most - file->length, stream);
    } while (file->length == most && most < MOST);
    return !ferror(stream);
}

bool read_file(const char *path, bytes *file) {
    *file = (bytes){ NULL, 0 };
    FILE *stream = fopen(path, "rb");
    if (!stream) return false;
    bool is_read = read_all(stream, file);
    fclose(stream);
    if (!is_read) free(file->at);
    return is_read;
}

bytes bytes_of(const char *path) {
    bytes file;
    if (!read_file(path, &file)) end(NO_FILE, "cannot read ", path);
    return file;
}

uint32_t number_of(const char *word, uint32_t most) {
    char *rest;
    errno = 0;
    unsigned long long number = strtoull(word, &rest, 10);
    if (word[0] < '0' || word[0] > '9' || *rest || errno || number > most) end(WRONG_WORDS, "no number in range: ", word);
    return (uint32_t)number;
}

void print(const uint8_t *at, size_t length) {
    if (fwrite(at, 1, length, stdout) != length) end(NO_FILE, "write failed", "");
}

void flush(void) {
    if (fflush(stdout)) end(NO_FILE, "write failed", "");
}
