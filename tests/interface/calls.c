/* Single calls: how they end, their values, and what does not start. */
#include "interface.h"

/* i32.const 1, i32.const 0, i32.div_s, drop */
static const text DIVISION = BYTES(PLAIN, 0x0A, 0x0A, 1, 8, 0, 0x41, 1, 0x41, 0, 0x6D, 0x1A, 0x0B);
static const text LOOP = BYTES(PLAIN, 0x0A, 9, 1, 7, 0, 3, 0x40, 0x0C, 0, 0x0B, 0x0B);
static const text RECURSION = BYTES(PLAIN, 0x0A, 6, 1, 4, 0, 0x10, 0, 0x0B);
/* i32.const -1, i64.const 7, of type [] -> [i32 i64] */
static const text TWO_RESULTS = BYTES(HEAD, 1, 6, 1, 0x60, 0, 2, 0x7F, 0x7E, 3, 2, 1, 0, 7, 5, 1, 1, 'f', 0, 0, 0x0A, 8, 1, 6, 0, 0x41,
                                      0x7F, 0x42, 7, 0x0B);

static const gate_value FORTY_TWO[] = { { 32, 40 }, { 32, 2 } };

/* A call of an export of a module that is judged for it. */
static void call(text bytes, const char *name, gate_settings settings, gate_call wanted) {
    gate_module module = module_of(bytes);
    gate_value results[2];
    gate_call ended = { 99, 99, 99, 99, 99 };
    text word = name ? said(name) : NONE;
    HOLDS(gate_module_call(module, word.at, word.length, NULL, 0, &settings, results, 2, &ended) == GATE_OK);
    bool is_wanted = ended.end == wanted.end && ended.reason == wanted.reason && ended.place == wanted.place &&
                     ended.fuel == wanted.fuel && ended.results == wanted.results;
    if (!HOLDS(is_wanted)) printf("interface: the call of %s that should end as %u with fuel %u\n", name, wanted.end, wanted.fuel);
    gate_module_free(module);
}

static void ends(void) {
    call(TWO_RESULTS, "f", USUAL, (gate_call){ GATE_VALUES, 0, 0, 1, 2 });
    call(DIVISION, "f", USUAL, (gate_call){ GATE_TRAP, GATE_DIVIDE_BY_ZERO, 0, 1, 0 });
    call(LOOP, "f", (gate_settings){ 5, 1, 0 }, (gate_call){ GATE_OUT_OF_FUEL, 0, 0, 5, 0 });
    call(RECURSION, "f", (gate_settings){ 1000000000, 3, 1024 }, (gate_call){ GATE_OUT_OF_FRAMES, 0, 0, 3, 0 });
    call(ADD, NULL, USUAL, (gate_call){ GATE_NO_EXPORT, 0, 0, 0, 0 });
    call(OUTSIDE, "m", USUAL, (gate_call){ GATE_NOT_A_FUNCTION, 0, 0, 0, 0 });
    call(ADD, "add", USUAL, (gate_call){ GATE_BAD_ARGUMENTS, 0, 0, 0, 0 });
    call(IMPORT, "f", USUAL, (gate_call){ GATE_NOT_STARTED, GATE_HAS_IMPORTS, 0, 0, 0 });
    call(OUTSIDE, "f", (gate_settings){ 9, 9, 0 }, (gate_call){ GATE_NOT_STARTED, GATE_MEMORY_LIMIT, 0, 0, 0 });
    call(OUTSIDE, "f", USUAL, (gate_call){ GATE_NOT_STARTED, GATE_DATA_OUTSIDE, 1, 0, 0 });
}

/* The values of a call in rooms of 0, 1, 2 and 3. */
static void results(void) {
    static const gate_value wanted[] = { { 32, 0xFFFFFFFF }, { 64, 7 } };
    gate_module module = module_of(TWO_RESULTS);
    for (size_t room = 0; room < 4; room++) {
        gate_value got[3] = { { 1, 1 }, { 1, 1 }, { 1, 1 } };
        gate_call ended;
        HOLDS(gate_module_call(module, said("f").at, 1, NULL, 0, &USUAL, room ? got : NULL, room, &ended) == GATE_OK);
        HOLDS(ended.end == GATE_VALUES && ended.results == 2 && got[2].width == 1 && got[2].bits == 1);
        for (size_t i = 0; i < 2; i++) {
            bool is_written = got[i].width == wanted[i].width && got[i].bits == wanted[i].bits;
            HOLDS(i < room ? is_written : got[i].width == 1 && got[i].bits == 1);
        }
    }
    gate_module_free(module);
}

static void no_call(gate_module module, gate_value second, gate_settings settings) {
    gate_value args[] = { { 32, 40 }, second }, results[1] = { { 1, 1 } };
    gate_call ended = { 99, 99, 99, 99, 99 };
    HOLDS(gate_module_call(module, said("add").at, 3, args, 2, &settings, results, 1, &ended) == GATE_BAD_ARGUMENT);
    HOLDS(ended.end == 99 && ended.results == 99 && results[0].width == 1 && results[0].bits == 1);
}

static void bad_values(void) {
    gate_module module = module_of(ADD);
    no_call(module, (gate_value){ 16, 2 }, USUAL);
    no_call(module, (gate_value){ 0, 2 }, USUAL);
    no_call(module, (gate_value){ 32, UINT64_C(1) << 32 }, USUAL);
    no_call(module, FORTY_TWO[1], (gate_settings){ 1000000001, 1024, 256 });
    no_call(module, FORTY_TWO[1], (gate_settings){ 1000000, 0, 256 });
    no_call(module, FORTY_TWO[1], (gate_settings){ 1000000, 1024, 1025 });
    gate_module_free(module);
}

/* What is said of the start of a module that is judged for it. */
static void start(text bytes, gate_settings settings, gate_call wanted) {
    gate_module module = module_of(bytes);
    gate_call ended = { 99, 99, 99, 99, 99 };
    HOLDS(gate_module_starts(module, &settings, &ended) == GATE_OK && ended.end == wanted.end && ended.reason == wanted.reason);
    HOLDS(ended.place == wanted.place && ended.fuel == 0 && ended.results == 0);
    gate_module_free(module);
}

static void starts(void) {
    gate_module module = module_of(ADD);
    const gate_settings bad[] = { { 1000000001, 1, 1 }, { 1, 0, 1 }, { 1, 4097, 1 }, { 1, 1, 1025 } };
    for (size_t i = 0; i < sizeof bad / sizeof *bad; i++) {
        gate_call ended = { 99, 99, 99, 99, 99 };
        HOLDS(gate_module_starts(module, &bad[i], &ended) == GATE_BAD_ARGUMENT && ended.end == 99 && ended.results == 99);
    }
    gate_module_free(module);
    start(ADD, (gate_settings){ 0, 1, 0 }, (gate_call){ GATE_VALUES, 0, 0, 0, 0 });
    start(LOOP, USUAL, (gate_call){ GATE_VALUES, 0, 0, 0, 0 });
    start(IMPORT, USUAL, (gate_call){ GATE_NOT_STARTED, GATE_HAS_IMPORTS, 0, 0, 0 });
    start(ALL_KINDS, USUAL, (gate_call){ GATE_NOT_STARTED, GATE_HAS_FLOATS, 0, 0, 0 });
    start(OUTSIDE, (gate_settings){ 9, 9, 0 }, (gate_call){ GATE_NOT_STARTED, GATE_MEMORY_LIMIT, 0, 0, 0 });
    start(OUTSIDE, USUAL, (gate_call){ GATE_NOT_STARTED, GATE_DATA_OUTSIDE, 1, 0, 0 });
}

void calls(void) {
    ends();
    results();
    bad_values();
    starts();
}
