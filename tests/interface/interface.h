/* Calls each function of gate.h: with room enough and with less, with null and length 0, with numbers of no verdict, value and limit, and
 * from four threads with a handle each. Each file has a topic; main.c calls them all. */
#ifndef INTERFACE_H
#define INTERFACE_H
#include "gate.h"
#include <stdbool.h>
#include <stdio.h>
#include <stdlib.h>
#include <string.h>

#define BYTES(...) { (const uint8_t[]){ __VA_ARGS__ }, sizeof((const uint8_t[]){ __VA_ARGS__ }) }
#define HEAD 0, 'a', 's', 'm', 1, 0, 0, 0
/* One function of type [] -> [], exported as f. */
#define PLAIN HEAD, 1, 4, 1, 0x60, 0, 0, 3, 2, 1, 0, 7, 5, 1, 1, 'f', 0, 0
#define HOLDS(what) holds(what, #what, __FILE__, __LINE__)

enum { ROOM = 512, THREADS = 4, UNTOUCHED = 0x5A };

typedef struct text {
    const uint8_t *at;
    size_t length;
} text;

extern const text NONE, ADD, ILL_TYPED, NO_START, VERSION_2, OUTSIDE, IMPORT, ALL_KINDS;
extern const gate_settings USUAL;

extern unsigned held, failed;

/* Counts what holds; prints what does not. */
bool holds(bool it, const char *what, const char *file, int line);

/* Words as bytes, and bytes that are words. */
text said(const char *words);
bool is(const uint8_t *out, size_t length, const char *words);
bool is_untouched(const uint8_t *out, size_t length);

bool is_verdict(const gate_verdict *it, uint32_t kind, uint32_t rule, uint32_t function, uint64_t token);
bool is_end(const gate_call *it, gate_call wanted);
gate_module module_of(text bytes);

/* The topics. */
void verdicts(void);
void explanations(void);
void reports(void);
void calls(void);
void exports(void);
void imports(void);
void instances(void);
void threads(long rounds);

#endif
