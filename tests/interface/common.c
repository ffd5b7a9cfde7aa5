/* The modules, and what is asked in each topic. */
#include "interface.h"

const text NONE = { NULL, 0 };
const text ADD = BYTES(HEAD, 1, 7, 1, 0x60, 2, 0x7F, 0x7F, 1, 0x7F, 3, 2, 1, 0, 7, 7, 1, 3, 'a', 'd', 'd', 0, 0, 0x0A, 9, 1, 7, 0,
                       0x20, 0, 0x20, 1, 0x6A, 0x0B);
/* i32.const 1: a value too many. */
const text ILL_TYPED = BYTES(PLAIN, 0x0A, 6, 1, 4, 0, 0x41, 1, 0x0B);
/* A start function that does not exist. */
const text NO_START = BYTES(HEAD, 8, 1, 0);
const text VERSION_2 = BYTES(0, 'a', 's', 'm', 2, 0, 0, 0);
/* A memory of one page, exported as m, and a second data segment of two bytes at 65,535. */
const text OUTSIDE = BYTES(HEAD, 1, 4, 1, 0x60, 0, 0, 3, 2, 1, 0, 5, 3, 1, 0, 1, 7, 9, 2, 1, 'f', 0, 0, 1, 'm', 2, 0, 0x0A, 4, 1,
                           2, 0, 0x0B, 0x0B, 0x10, 2, 0, 0x41, 0, 0x0B, 1, 0, 0, 0x41, 0xFF, 0xFF, 3, 0x0B, 2, 0, 0);
const text IMPORT = BYTES(HEAD, 1, 4, 1, 0x60, 0, 0, 2, 7, 1, 1, 'a', 1, 'b', 0, 0, 7, 5, 1, 1, 'f', 0, 0);
/* both of type [i64 i32] -> [i32 i64], f of [f64] -> [], a memory, a global, and a table with an empty name. */
const text ALL_KINDS = BYTES(HEAD, 1, 12, 2, 0x60, 2, 0x7E, 0x7F, 2, 0x7F, 0x7E, 0x60, 1, 0x7C, 0, 3, 3, 2, 0, 1, 4, 4, 1, 0x70,
                             0, 1, 5, 3, 1, 0, 1, 6, 6, 1, 0x7F, 0, 0x41, 5, 0x0B, 7, 23, 5, 4, 'b', 'o', 't', 'h', 0, 0, 1,
                             'f', 0, 1, 1, 'm', 2, 0, 1, 'g', 3, 0, 0, 1, 0, 0x0A, 11, 2, 6, 0, 0x20, 1, 0x20, 0, 0x0B, 2, 0,
                             0x0B);

const gate_settings USUAL = { 1000000, 1024, 256 };

unsigned held, failed;

bool holds(bool it, const char *what, const char *file, int line) {
    held += it;
    failed += !it;
    if (!it) printf("%s:%d: %s\n", file, line, what);
    return it;
}

text said(const char *words) { return (text){ (const uint8_t *)words, strlen(words) }; }

bool is(const uint8_t *out, size_t length, const char *words) {
    return length == strlen(words) && !memcmp(out, words, length);
}

bool is_untouched(const uint8_t *out, size_t length) {
    while (length && out[length - 1] == UNTOUCHED) length--;
    return !length;
}

bool is_verdict(const gate_verdict *it, uint32_t kind, uint32_t rule, uint32_t function, uint64_t token) {
    return it->kind == kind && it->rule == rule && it->function == function && it->token == token;
}

bool is_end(const gate_call *it, gate_call wanted) {
    return it->end == wanted.end && it->reason == wanted.reason && it->place == wanted.place && it->fuel == wanted.fuel &&
           it->results == wanted.results;
}

gate_module module_of(text bytes) {
    gate_verdict verdict = { 9, 9, 9, 9 };
    gate_module module = { NULL };
    HOLDS(gate_module_new(bytes.at, bytes.length, &verdict, &module) == GATE_OK && is_verdict(&verdict, GATE_ACCEPTED, 0, 0, 0));
    if (!module.at) exit(1);
    return module;
}
