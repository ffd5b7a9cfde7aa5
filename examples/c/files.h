/* What the examples share: files as bytes, memory that is there, and how a program says what is wrong. */
#ifndef FILES_H
#define FILES_H

#include <stdbool.h>
#include <stddef.h>
#include <stdint.h>

/* How a program ends where the words are wrong, or a file cannot be read, as `gate` does; the others are those of gate.h. */
enum { WRONG_WORDS = 64, NO_FILE = 74 };

typedef struct bytes {
    uint8_t *at; /* freed by who asked for them */
    size_t length;
} bytes;

/* Says what is wrong, and ends the program. */
_Noreturn void end(int status, const char *what, const char *name);

/* A block of this size, as large as the old one or larger; where there is none, the program ends. */
void *room(void *old, size_t count, size_t size);

/* Reads a file, whole or up to one byte more than a module may have. */
bool read_file(const char *path, bytes *file);

/* The bytes of a file; where it cannot be read, the program ends. */
bytes bytes_of(const char *path);

/* The number that a word spells in decimal digits, up to `most`; where it spells none, the program ends. */
uint32_t number_of(const char *word, uint32_t most);

/* Writes bytes to standard output; where that fails, the program ends. */
void print(const uint8_t *at, size_t length);

/* Writes out what standard output holds back; where that fails, the program ends. */
void flush(void);

#endif
