/* Judges a module once, calls one of its exports by values, and prints how the call ended, as a line of a report does after its number.
 * usage: call MODULE NAME [i32:N | i64:N ..]    N lies from -2^31 to 2^31 - 1, of i64 from -2^63 to 2^63 - 1
 * Ends with 0 however the call ended, and with 2 where the module is refused: then the line of the verdict is printed. */
#include "ends.h"
#include "files.h"
#include "gate.h"
#include <ctype.h>
#include <errno.h>
#include <inttypes.h>
#include <stdio.h>
#include <stdlib.h>
#include <string.h>

enum { LONGEST_LINE = 64, FEW = 8 };

static const gate_settings SETTINGS = { .fuel = 1000000, .frames = 1024, .pages = 256 };

typedef struct values {
    gate_value *at;
    size_t count;
} values;

static gate_value value_of(const char *word) {
    bool is_32 = !strncmp(word, "i32:", 4), is_64 = !strncmp(word, "i64:", 4);
    const char *digits = is_32 || is_64 ? word + 4 : "";
    char *rest;
    errno = 0;
    long long number = strtoll(digits, &rest, 10);
    bool begins = isdigit((unsigned char)digits[*digits == '-']), fits = is_64 || (number >= INT32_MIN && number <= INT32_MAX);
    if (!begins || *rest || errno || !fits) end(WRONG_WORDS, "no value: ", word);
    return is_32 ? (gate_value){ 32, (uint32_t)number } : (gate_value){ 64, (uint64_t)number };
}

static values values_of(char **words, int count) {
    values args = { room(NULL, (size_t)count, sizeof *args.at), (size_t)count };
    for (size_t i = 0; i < args.count; i++) args.at[i] = value_of(words[i]);
    return args;
}

static void print_values(values results) {
    for (size_t i = 0; i < results.count; i++) {
        gate_value it = results.at[i];
        const char *comma = i ? "," : " ";
        if (it.width == 32)
            printf("%si32:%" PRId32, comma, (int32_t)it.bits);
        else
            printf("%si64:%" PRId64, comma, (int64_t)it.bits);
    }
}

static void print_line(const gate_call *ended, values results) {
    print_end(ended);
    if (ended->end == GATE_VALUES) print_values(results);
    print_fuel(ended);
    putchar('\n');
}

/* Each call has a fresh instance. So where there are more results than room, the same call ends the same way with the room it asks. */
static uint32_t call(gate_module module, const char *name, values args) {
    values results = { NULL, 0 };
    gate_call ended = { .results = FEW };
    uint32_t status = GATE_OK;
    while (status == GATE_OK && ended.results > results.count) {
        results = (values){ room(results.at, ended.results, sizeof *results.at), ended.results };
        status = gate_module_call(module, (const uint8_t *)name, strlen(name), args.at, args.count, &SETTINGS, results.at, results.count,
                                  &ended);
    }
    results.count = ended.results;
    if (status == GATE_OK) print_line(&ended, results);
    free(results.at);
    return status;
}

static uint32_t print_refusal(const gate_verdict *verdict) {
    uint8_t line[LONGEST_LINE];
    size_t length = 0;
    uint32_t status = gate_verdict_line(verdict, line, sizeof line, &length);
    print(line, length);
    return status == GATE_OK ? GATE_MODULE_REFUSED : status;
}

static uint32_t judge_and_call(bytes file, const char *name, values args) {
    gate_verdict verdict;
    gate_module module;
    uint32_t status = gate_module_new(file.at, file.length, &verdict, &module);
    if (status == GATE_MODULE_REFUSED) return print_refusal(&verdict);
    if (status != GATE_OK) return status;
    status = call(module, name, args);
    gate_module_free(module);
    return status;
}

int main(int count, char **words) {
    if (count < 3) end(WRONG_WORDS, "usage: call MODULE NAME [i32:N | i64:N ..]", "");
    values args = values_of(words + 3, count - 3);
    bytes file = bytes_of(words[1]);
    uint32_t status = judge_and_call(file, words[2], args);
    if (status == GATE_NO_MEMORY) end(GATE_NO_MEMORY, "no memory", "");
    flush();
    free(file.at);
    free(args.at);
    return (int)status;
}
