/* Finds the value of a key in a flat JSON object, which stands in the memory of the module.
 *
 * A host calls `alloc(length)`, writes a request there, and calls `handle(address, length)`. A request is the key, a newline, and the
 * text of the object. The answer is where the value stands in the request: its address in the high 32 bits, its length in the low ones;
 * or NONE. What stands after the pair is not read. A string is given without its quotes, and escapes stay as they are, in keys too.
 *
 * `pick` and `sample` take texts as numbers, eight bytes each, the first byte lowest, with zeros behind the last byte. They show by
 * `gate run` what a host gets that reaches the memory.
 *
 * Compiled by: make pick.wasm */
#include <stdbool.h>
#include <stddef.h>
#include <stdint.h>

#define EXPORT(name) __attribute__((export_name(name)))

enum { ROOM = 8192, BYTES_OF_NUMBER = 8, PIECES = 4 };

static const int64_t NONE = -1;

/* From `at` on up to `end`. */
typedef struct text {
    const char *at, *end;
} text;

static char room[ROOM];
static uint32_t used;

static const char OBJECT[] = "{ \"name\": \"pick\", \"room\": 8192, \"is small\": true }";

static size_t length_of(text it) { return (size_t)(it.end - it.at); }

static bool is_same(text one, text other) {
    if (length_of(one) != length_of(other)) return false;
    for (; one.at < one.end; one.at++, other.at++)
        if (*one.at != *other.at) return false;
    return true;
}

static bool is_space(char byte) { return byte == ' ' || byte == '\t' || byte == '\n' || byte == '\r'; }

static void skip_spaces(text *rest) {
    while (rest->at < rest->end && is_space(*rest->at)) rest->at++;
}

/* Whether this byte comes next, behind spaces; then it is skipped. */
static bool skip(text *rest, char byte) {
    skip_spaces(rest);
    bool comes = rest->at < rest->end && *rest->at == byte;
    rest->at += comes;
    return comes;
}

/* The insides of a string whose first quote was skipped; false where no quote ends it. */
static bool string(text *rest, text *out) {
    out->at = rest->at;
    for (; rest->at < rest->end && *rest->at != '"'; rest->at++)
        if (*rest->at == '\\' && rest->at + 1 < rest->end) rest->at++;
    out->end = rest->at;
    return skip(rest, '"');
}

/* A number, true, false or null: bytes up to a space, a comma or the end of the object. */
static bool word(text *rest, text *out) {
    out->at = rest->at;
    while (rest->at < rest->end && !is_space(*rest->at) && *rest->at != ',' && *rest->at != '}') rest->at++;
    out->end = rest->at;
    return out->at < out->end && *out->at != '{' && *out->at != '[';
}

static bool value(text *rest, text *out) { return skip(rest, '"') ? string(rest, out) : word(rest, out); }

static bool pair(text *rest, text *key, text *out) {
    return skip(rest, '"') && string(rest, key) && skip(rest, ':') && value(rest, out);
}

static bool find(text object, text key, text *out) {
    text found;
    if (!skip(&object, '{')) return false;
    do {
        if (!pair(&object, &found, out)) return false;
        if (is_same(found, key)) return true;
    } while (skip(&object, ','));
    return false;
}

/* The address of `length` free bytes; or 0, where there are fewer. */
EXPORT("alloc") char *alloc(uint32_t length) {
    if (length > ROOM - used) return NULL;
    used += length;
    return room + used - length;
}

EXPORT("handle") int64_t handle(const char *request, uint32_t length) {
    text key = { request, request }, object = { request, request + length }, found;
    while (key.end < object.end && *key.end != '\n') key.end++;
    object.at = key.end;
    if (!find(object, key, &found)) return NONE;
    return (int64_t)((uint64_t)(uintptr_t)found.at << 32 | length_of(found));
}

/* Writes the bytes of a number without the zeros behind them, and gives the place behind what it wrote. */
static char *write_number(char *to, uint64_t number) {
    for (; number; number >>= 8) *to++ = (char)number;
    return to;
}

/* The first eight bytes of an answer, or NONE. */
static int64_t first_bytes(int64_t answer) {
    if (answer == NONE) return NONE;
    const char *at = (const char *)(uintptr_t)(answer >> 32);
    uint32_t length = (uint32_t)answer;
    uint64_t number = 0;
    for (uint32_t i = 0; i < length && i < BYTES_OF_NUMBER; i++) number |= (uint64_t)(uint8_t)at[i] << 8 * i;
    return (int64_t)number;
}

/* Asks as a host would. */
static int64_t ask(uint64_t key, text object) {
    char *request = alloc(BYTES_OF_NUMBER + 1 + length_of(object));
    if (!request) return NONE;
    char *end = write_number(request, key);
    *end++ = '\n';
    while (object.at < object.end) *end++ = *object.at++;
    return first_bytes(handle(request, (uint32_t)(end - request)));
}

/* The value of the key in an object of up to 32 bytes. */
EXPORT("pick") int64_t pick(uint64_t key, uint64_t first, uint64_t second, uint64_t third, uint64_t fourth) {
    const uint64_t pieces[PIECES] = { first, second, third, fourth };
    char object[PIECES * BYTES_OF_NUMBER], *end = object;
    for (int i = 0; i < PIECES; i++) end = write_number(end, pieces[i]);
    return ask(key, (text){ object, end });
}

/* The value of the key in an object of the module's own. */
EXPORT("sample") int64_t sample(uint64_t key) {
    return ask(key, (text){ OBJECT, OBJECT + sizeof OBJECT - 1 });
}
