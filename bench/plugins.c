// What a plug-in costs a host that gives it a text and takes one back, by the library: 100 bytes in and 100 out at each call.
// usage: plugins MODULE WAY COUNT    MODULE is examples/guests/upper.wasm, and COUNT says how many calls are made
//   kept     on an instance that is kept over 1,000 calls
//   fresh    on a fresh instance each
//   reset    on one that is reset before each call
// Where an instance is new it is asked for room first. The time is taken by who starts it.
#include "gate.h"
#include <stdbool.h>
#include <stdio.h>
#include <stdlib.h>
#include <string.h>

enum { LENGTH = 100, KEPT = 1000, ROOM = 1 << 16 };

typedef struct host {
    gate_module module;
    gate_instance instance;
    uint32_t at; // where the text stands
    uint8_t in[LENGTH], out[LENGTH];
} host;

static const gate_settings SETTINGS = { 1000000, 1024, 256 };

static void refuse(const char *why) {
    fprintf(stderr, "plugins: %s\n", why);
    exit(2);
}

static uint64_t call(host *it, const char *name, const gate_value *args, size_t count) {
    gate_value result;
    gate_call ended;
    uint32_t status = gate_instance_call(it->instance, (const uint8_t *)name, strlen(name), args, count, &SETTINGS, &result, 1, &ended);
    if (status != GATE_OK || ended.end != GATE_VALUES) refuse("a call does not end in a value");
    return result.bits;
}

static void ask_for_room(host *it) {
    gate_value length = { 32, LENGTH };
    it->at = (uint32_t)call(it, "alloc", &length, 1);
}

static void filter(host *it) {
    gate_value args[] = { { 32, it->at }, { 32, LENGTH } };
    if (gate_instance_write(it->instance, it->at, it->in, LENGTH) != GATE_OK) refuse("the text does not fit");
    uint64_t where = call(it, "handle", args, 2);
    if (gate_instance_read(it->instance, where >> 32, it->out, (uint32_t)where) != GATE_OK) refuse("there is no answer");
}

// Gives the call the instance that its way wants.
static void prepare(host *it, char way, long number) {
    gate_call ended;
    bool is_new = !it->instance.at || way == 'f' || (way == 'k' && number % KEPT == 0);
    if (is_new) {
        gate_instance_drop(it->instance);
        if (gate_instance_new(it->module, &SETTINGS, &it->instance, &ended) != GATE_OK) refuse("no instance");
    } else if (way == 'r') {
        is_new = true;
        if (gate_instance_reset(it->instance, &ended) != GATE_OK) refuse("no instance");
    }
    if (is_new) ask_for_room(it);
}

// Each text is another one, and its letters are looked at.
static void one(host *it, char way, long number) {
    it->in[0] = (uint8_t)('a' + number % 26);
    prepare(it, way, number);
    filter(it);
    if (it->out[0] != 'A' + number % 26 || it->out[LENGTH - 1] != 'Z') refuse("another answer");
}

int main(int count, char **words) {
    static uint8_t bytes[ROOM];
    host it = { .at = 0 };
    gate_verdict verdict;
    if (count != 4) refuse("three words are needed");
    FILE *file = fopen(words[1], "rb");
    if (!file) refuse("the module cannot be read");
    size_t length = fread(bytes, 1, sizeof bytes, file);
    fclose(file);
    memset(it.in, 'z', LENGTH);
    if (gate_module_new(bytes, length, &verdict, &it.module) != GATE_OK) refuse("the module is refused");
    for (long i = 0; i < atol(words[3]); i++) one(&it, words[2][0], i);
    gate_instance_drop(it.instance);
    gate_module_free(it.module);
    return 0;
}
