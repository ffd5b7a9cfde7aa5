#include "plugin.h"

#include "ends.h"
#include <stdio.h>
#include <string.h>

const char NO_ANSWER[] = "no-answer";

static bool fails(request *it, const char *fault) {
    it->fault = fault;
    return false;
}

/* The one number that an export gives; whether it gives one. */
static bool number_by(request *it, const char *name, const gate_value *args, size_t count, uint64_t *number) {
    gate_value result = { 0, 0 };
    gate_call ended = { .end = GATE_CALL_NO_MEMORY }; /* so where the call does not begin */
    uint32_t status = gate_instance_call(it->plug_in, (const uint8_t *)name, strlen(name), args, count, &it->limits, &result, 1, &ended);
    it->limits.fuel -= ended.fuel;
    ended.fuel += it->ended.fuel;
    it->ended = ended;
    *number = result.bits;
    if (status != GATE_OK || ended.end != GATE_VALUES) return false;
    return ended.results == 1 || fails(it, "no-number");
}

/* Copies an answer out of the memory. */
static bool take(request *it, uint64_t address, uint32_t length) {
    uint64_t size; /* looked at before so much room is asked for */
    if (gate_instance_memory_size(it->plug_in, &size) != GATE_OK || length > size) return fails(it, "outside");
    it->answer = (bytes){ room(NULL, length, 1), length };
    return gate_instance_read(it->plug_in, address, it->answer.at, length) == GATE_OK || fails(it, "outside");
}

bool ask(request *it, bytes text) {
    uint64_t address, answer;
    gate_value args[] = { gate_i32(0), gate_i32((int32_t)text.length) };
    if (!number_by(it, "alloc", &args[1], 1, &address)) return false;
    if (address == 0) return fails(it, "no-room");
    if (gate_instance_write(it->plug_in, address, text.at, text.length) != GATE_OK) return fails(it, "outside");
    args[0] = gate_i32((int32_t)address);
    if (!number_by(it, "handle", args, 2, &answer)) return false;
    return answer == UINT64_MAX ? fails(it, NO_ANSWER) : take(it, answer >> 32, (uint32_t)answer);
}

void print_why(const request *it) {
    if (it->fault)
        fputs(it->fault, stdout);
    else
        print_end(&it->ended);
    print_fuel(&it->ended);
    putchar('\n');
}
