/* Instances that are kept from call to call. */
#include "interface.h"

/* A memory of one page, of at most two, with 5 at 8, and a global count, exported. The start function stores 7 at 0. handle stores the byte
 * at 16 and its argument, added, at 32, and adds 1 to count, which it gives; trap sets count to 100, and traps; grow is memory.grow. */
static const text GOES_ON = BYTES(HEAD, 1, 9, 2, 0x60, 1, 0x7F, 1, 0x7F, 0x60, 0, 0, 3, 5, 4, 0, 1, 0, 1, 5, 4, 1, 1, 1, 2, 6, 6, 1, 0x7F,
                                  1, 0x41, 0, 0x0B, 7, 32, 4, 6, 'h', 'a', 'n', 'd', 'l', 'e', 0, 0, 4, 't', 'r', 'a', 'p', 0, 1, 4, 'g',
                                  'r', 'o', 'w', 0, 2, 5, 'c', 'o', 'u', 'n', 't', 3, 0, 8, 1, 3, 0x0A, 52, 4, 24, 0, 0x41, 32, 0x41, 16,
                                  0x2D, 0, 0, 0x20, 0, 0x6A, 0x3A, 0, 0, 0x23, 0, 0x41, 1, 0x6A, 0x24, 0, 0x23, 0, 0x0B, 8, 0, 0x41, 0xE4,
                                  0, 0x24, 0, 0, 0x0B, 6, 0, 0x20, 0, 0x40, 0, 0x0B, 9, 0, 0x41, 0, 0x41, 7, 0x3A, 0, 0, 0x0B, 0x0B, 7, 1,
                                  0, 0x41, 8, 0x0B, 1, 5);

static gate_instance instance_of(text bytes, gate_settings settings, uint32_t fuel) {
    gate_module module = module_of(bytes);
    gate_instance it = { NULL };
    gate_call ended = { 99, 99, 99, 99, 99 };
    HOLDS(gate_instance_new(module, &settings, &it, &ended) == GATE_OK && is_end(&ended, (gate_call){ GATE_VALUES, 0, 0, fuel, 0 }));
    gate_module_free(module);
    if (!it.at) exit(1);
    return it;
}

/* A call of an export that gives one number of 32 bits, at a cost of one unit. */
static void gives(gate_instance it, const char *name, uint32_t number, uint32_t wanted) {
    gate_value arg = { 32, number }, result = { 1, 1 };
    gate_call ended = { 99, 99, 99, 99, 99 };
    HOLDS(gate_instance_call(it, said(name).at, strlen(name), &arg, 1, &USUAL, &result, 1, &ended) == GATE_OK);
    HOLDS(is_end(&ended, (gate_call){ GATE_VALUES, 0, 0, 1, 1 }) && result.width == 32 && result.bits == wanted);
}

static void has_byte(gate_instance it, uint64_t at, uint8_t wanted) {
    uint8_t out[] = { UNTOUCHED, UNTOUCHED };
    HOLDS(gate_instance_read(it, at, out, 1) == GATE_OK && out[0] == wanted && out[1] == UNTOUCHED);
}

static void has_size(gate_instance it, uint64_t wanted) {
    uint64_t size = 77;
    HOLDS(gate_instance_memory_size(it, &size) == GATE_OK && size == wanted);
}

static void has_count(gate_instance it, uint64_t wanted) {
    gate_value value = { 1, 1 };
    HOLDS(gate_instance_global(it, said("count").at, 5, &value) == GATE_OK && value.width == 32 && value.bits == wanted);
}

static void has_no_global(gate_instance it, const char *name) {
    gate_value value = { 1, 1 };
    HOLDS(gate_instance_global(it, said(name).at, strlen(name), &value) == GATE_NO_GLOBAL && value.width == 1 && value.bits == 1);
}

/* So many bytes from there on are neither read nor written. */
static void lie_outside(gate_instance it, uint64_t at, size_t length) {
    uint8_t out[ROOM];
    memset(out, UNTOUCHED, sizeof out);
    HOLDS(gate_instance_read(it, at, out, length) == GATE_OUTSIDE && is_untouched(out, ROOM));
    HOLDS(gate_instance_write(it, at, out, length) == GATE_OUTSIDE);
}

/* A fresh instance of GOES_ON. */
static void is_begun(gate_instance it) {
    has_size(it, 65536);
    has_count(it, 0);
    has_byte(it, 0, 7);
    has_byte(it, 8, 5);
    has_byte(it, 16, 0);
    has_byte(it, 32, 0);
    has_byte(it, 65535, 0);
}

static void bytes_in_and_out(gate_instance it) {
    static const uint8_t forty[] = { 40, 41 };
    HOLDS(gate_instance_write(it, 16, forty, 2) == GATE_OK);
    has_byte(it, 15, 0);
    has_byte(it, 16, 40);
    has_byte(it, 17, 41);
    has_byte(it, 18, 0);
    gives(it, "handle", 2, 1);
    has_byte(it, 32, 42);
    gives(it, "handle", 3, 2);
    has_byte(it, 32, 43);
    has_count(it, 2);
    has_no_global(it, "trap");
    has_no_global(it, "");
    HOLDS(gate_instance_write(it, 65534, forty, 2) == GATE_OK);
    has_byte(it, 65535, 41);
    lie_outside(it, 65535, 2);
    lie_outside(it, 65536, 1);
    lie_outside(it, 65537, 0);
    lie_outside(it, UINT64_MAX, 1);
    has_byte(it, 65535, 41);
    HOLDS(gate_instance_read(it, 65536, NULL, 0) == GATE_OK && gate_instance_write(it, 65536, NULL, 0) == GATE_OK);
}

/* What stands there after a trap is what the call left. */
static void goes_on(gate_instance it) {
    gate_call ended = { 99, 99, 99, 99, 99 };
    HOLDS(gate_instance_call(it, said("trap").at, 4, NULL, 0, &USUAL, NULL, 0, &ended) == GATE_OK);
    HOLDS(is_end(&ended, (gate_call){ GATE_TRAP, GATE_UNREACHABLE, 0, 1, 0 }));
    has_count(it, 100);
    gives(it, "handle", 1, 101);
    gives(it, "grow", 1, 1);
    has_size(it, 131072);
    has_byte(it, 131071, 0);
    lie_outside(it, 131071, 2);
    gives(it, "grow", 1, 0xFFFFFFFF);
}

/* Calls that are refused leave the instance as it is. */
static void refused_calls(gate_instance it) {
    const gate_settings none = { 1000000, 0, 256 };
    gate_value arg = { 16, 2 }, result = { 1, 1 };
    gate_call ended = { 99, 99, 99, 99, 99 };
    HOLDS(gate_instance_call(it, said("handle").at, 6, &arg, 1, &USUAL, &result, 1, &ended) == GATE_BAD_ARGUMENT);
    HOLDS(gate_instance_call(it, said("handle").at, 6, NULL, 0, &none, &result, 1, &ended) == GATE_BAD_ARGUMENT);
    HOLDS(is_end(&ended, (gate_call){ 99, 99, 99, 99, 99 }) && result.width == 1 && result.bits == 1);
    HOLDS(gate_instance_call(it, said("handle").at, 6, NULL, 0, &USUAL, &result, 1, &ended) == GATE_OK);
    HOLDS(is_end(&ended, (gate_call){ GATE_BAD_ARGUMENTS, 0, 0, 0, 0 }));
    HOLDS(gate_instance_call(it, said("count").at, 5, NULL, 0, &USUAL, &result, 1, &ended) == GATE_OK);
    HOLDS(is_end(&ended, (gate_call){ GATE_NOT_A_FUNCTION, 0, 0, 0, 0 }));
    HOLDS(gate_instance_call(it, NULL, 0, NULL, 0, &USUAL, &result, 1, &ended) == GATE_OK);
    HOLDS(is_end(&ended, (gate_call){ GATE_NO_EXPORT, 0, 0, 0, 0 }));
    has_count(it, 101);
}

/* The number of an export, which has one. */
static void has_number(gate_instance it, const char *name, uint64_t wanted) {
    uint64_t number = 77;
    HOLDS(gate_instance_find(it, said(name).at, strlen(name), &number) == GATE_OK && number == wanted);
}

static void has_no_number(gate_instance it, const char *name) {
    uint64_t number = 77;
    HOLDS(gate_instance_find(it, said(name).at, strlen(name), &number) == GATE_NOTHING && number == 77);
}

/* The call of a number that runs nothing ends so, and writes no result. */
static void ends_at(gate_instance it, uint64_t number, size_t args_count, uint32_t end) {
    gate_value arg = { 32, 2 }, result = { 1, 1 };
    gate_call ended = { 99, 99, 99, 99, 99 };
    HOLDS(gate_instance_call_at(it, number, &arg, args_count, &USUAL, &result, 1, &ended) == GATE_OK);
    HOLDS(is_end(&ended, (gate_call){ end, 0, 0, 0, 0 }) && result.width == 1 && result.bits == 1);
}

/* Calls by numbers, of a fresh instance, have the ends of calls by names. */
static void by_numbers(gate_instance it) {
    const gate_settings none = { 1000000, 0, 256 };
    gate_value arg = { 32, 2 }, result = { 1, 1 };
    gate_call ended = { 99, 99, 99, 99, 99 };
    has_number(it, "handle", 0);
    has_number(it, "trap", 1);
    has_number(it, "grow", 2);
    has_number(it, "count", 3);
    has_no_number(it, "");
    has_no_number(it, "handl");
    has_no_number(it, "handles");
    HOLDS(gate_instance_call_at(it, 0, &arg, 1, &none, &result, 1, &ended) == GATE_BAD_ARGUMENT);
    arg.width = 16;
    HOLDS(gate_instance_call_at(it, 0, &arg, 1, &USUAL, &result, 1, &ended) == GATE_BAD_ARGUMENT);
    HOLDS(is_end(&ended, (gate_call){ 99, 99, 99, 99, 99 }) && result.width == 1 && result.bits == 1);
    ends_at(it, 0, 0, GATE_BAD_ARGUMENTS);
    ends_at(it, 1, 1, GATE_BAD_ARGUMENTS);
    ends_at(it, 3, 0, GATE_NOT_A_FUNCTION);
    ends_at(it, 4, 0, GATE_NO_EXPORT);
    ends_at(it, UINT64_MAX, 0, GATE_NO_EXPORT);
    is_begun(it);
    arg.width = 32;
    HOLDS(gate_instance_call_at(it, 0, &arg, 1, &USUAL, &result, 1, &ended) == GATE_OK);
    HOLDS(is_end(&ended, (gate_call){ GATE_VALUES, 0, 0, 1, 1 }) && result.width == 32 && result.bits == 1);
    has_byte(it, 32, 2);
    HOLDS(gate_instance_call_at(it, 0, &arg, 1, &USUAL, NULL, 0, &ended) == GATE_OK && ended.results == 1);
    has_count(it, 2);
    HOLDS(gate_instance_call_at(it, 1, NULL, 0, &USUAL, NULL, 0, &ended) == GATE_OK);
    HOLDS(is_end(&ended, (gate_call){ GATE_TRAP, GATE_UNREACHABLE, 0, 1, 0 }));
    has_count(it, 100);
    HOLDS(gate_instance_call_at(it, 0, &arg, 1, &(gate_settings){ 0, 1, 0 }, &result, 1, &ended) == GATE_OK);
    HOLDS(is_end(&ended, (gate_call){ GATE_OUT_OF_FUEL, 0, 0, 0, 0 }));
}

static void no_instance(text bytes, gate_settings settings, uint32_t status, gate_call wanted) {
    gate_module module = module_of(bytes);
    gate_instance it = { &module };
    gate_call ended = { 99, 99, 99, 99, 99 };
    HOLDS(gate_instance_new(module, &settings, &it, &ended) == status && it.at == &module && is_end(&ended, wanted));
    gate_module_free(module);
}

void instances(void) {
    gate_instance it = instance_of(GOES_ON, USUAL, 1), other = instance_of(GOES_ON, (gate_settings){ 1, 1, 1 }, 1);
    gate_call ended = { 99, 99, 99, 99, 99 };
    is_begun(it);
    bytes_in_and_out(it);
    goes_on(it);
    refused_calls(it);
    HOLDS(gate_instance_reset(it, &ended) == GATE_OK && is_end(&ended, (gate_call){ GATE_VALUES, 0, 0, 1, 0 }));
    is_begun(it);
    bytes_in_and_out(it);
    HOLDS(gate_instance_reset(it, &ended) == GATE_OK);
    by_numbers(it);
    gate_instance_free(it);
    is_begun(other);
    gives(other, "grow", 1, 0xFFFFFFFF);
    gate_instance_drop(other);
    gate_instance_drop((gate_instance){ NULL });
    it = instance_of(ADD, USUAL, 0);
    has_size(it, 0);
    lie_outside(it, 0, 1);
    lie_outside(it, 0, 0);
    has_no_global(it, "add");
    gate_instance_free(it);
    no_instance(OUTSIDE, USUAL, GATE_NO_INSTANCE, (gate_call){ GATE_NOT_STARTED, GATE_DATA_OUTSIDE, 1, 0, 0 });
    no_instance(IMPORT, USUAL, GATE_NO_INSTANCE, (gate_call){ GATE_NOT_STARTED, GATE_HAS_IMPORTS, 0, 0, 0 });
    no_instance(GOES_ON, (gate_settings){ 0, 1, 1 }, GATE_NO_INSTANCE, (gate_call){ GATE_OUT_OF_FUEL, 0, 0, 0, 0 });
    no_instance(GOES_ON, (gate_settings){ 1, 0, 1 }, GATE_BAD_ARGUMENT, (gate_call){ 99, 99, 99, 99, 99 });
}
