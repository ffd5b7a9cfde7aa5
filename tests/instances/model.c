/* See model.h. */
#include "model.h"
#include <string.h>


/* Takes a unit of fuel; false where there is none, and the call ends. */
static bool turn(call *it) {
    if (it->ended.fuel == it->limits.fuel) it->ended.end = GATE_OUT_OF_FUEL;
    else it->ended.fuel++;
    return it->ended.end == GATE_VALUES;
}

static void trap(call *it, uint32_t reason) {
    it->ended.end = GATE_TRAP;
    it->ended.reason = reason;
}

/* Whether the memory has `length` bytes at `at`; where not, the call traps. */
static bool lies(call *it, uint64_t at, uint64_t length) {
    if (at + length > it->on->size) trap(it, GATE_OUT_OF_BOUNDS);
    return it->ended.end == GATE_VALUES;
}

/* The low bytes of a number, the lowest first. */
static void store(call *it, uint64_t at, uint64_t number, unsigned length) {
    if (!lies(it, at, length)) return;
    for (unsigned i = 0; i < length; i++) it->on->memory[at + i] = (uint8_t)(number >> 8 * i);
}

static uint64_t load(call *it, uint64_t at, unsigned length) {
    uint64_t number = 0;
    if (!lies(it, at, length)) return 0;
    for (unsigned i = length; i > 0; i--) number = number << 8 | it->on->memory[at + i - 1];
    return number;
}

static void give(call *it, gate_value value) {
    if (it->ended.end == GATE_VALUES) it->results[it->ended.results++] = value;
}

static uint32_t arg(const call *it, size_t number) { return (uint32_t)it->args[number].bits; }

static int32_t as_signed(uint32_t number) {
    int32_t is;
    memcpy(&is, &number, sizeof is);
    return is;
}

/* (module
 *   (memory (export "memory") 1 3)
 *   (global $starts (export "starts") (mut i32) (i32.const -7))
 *   (global $sum (export "sum") (mut i64) (i64.const -1))
 *   (global (export "fixed") i64 (i64.const 0x0123456789abcdef))
 *   (global $hidden (mut i32) (i32.const 0))
 *   (func $begin (i32.store8 (i32.const 7) (i32.const 0xAA)) (global.set $starts (i32.const 1)))
 *   (func (export "put") (param i32 i64) (i64.store offset=3 align=1 (local.get 0) (local.get 1)))
 *   (func (export "put8") (param i32 i32) (i32.store8 (local.get 0) (local.get 1)))
 *   (func (export "get") (param i32) (result i32) (i32.load16_s offset=65535 align=1 (local.get 0)))
 *   (func (export "fill") (param i32 i32 i32)
 *     (block (br_if 0 (i32.eqz (local.get 2)))
 *       (loop
 *         (i32.store8 (local.get 0) (local.get 1))
 *         (global.set $sum (i64.add (global.get $sum) (i64.const 1)))
 *         (local.set 0 (i32.add (local.get 0) (i32.const 1)))
 *         (br_if 0 (local.tee 2 (i32.sub (local.get 2) (i32.const 1)))))))
 *   (func (export "grow") (param i32) (result i32) (memory.grow (local.get 0)))
 *   (func (export "hidden") (result i32) (global.set $hidden (i32.add (global.get $hidden) (i32.const 1))) (global.get $hidden))
 *   (func $down (export "down") (param i32) (result i32)
 *     (i32.store8 offset=512 (local.get 0) (local.get 0))
 *     (if (result i32) (local.get 0)
 *       (then (i32.add (i32.const 1) (call $down (i32.sub (local.get 0) (i32.const 1))))) (else (i32.const 0))))
 *   (func (export "divide") (param i32 i32) (result i32 i64)
 *     (global.set $sum (i64.extend_i32_s (local.get 0)))
 *     (i32.div_s (local.get 0) (local.get 1)) (global.get $sum))
 *   (func (export "stop") (global.set $sum (i64.const 5)) (unreachable))
 *   (start $begin)
 *   (data (i32.const 100) "begun")
 *   (data (i32.const 65530) "\01\02\03\04\05\06")) */
static const uint8_t OWN[] = {
    0x00, 0x61, 0x73, 0x6d, 0x01, 0x00, 0x00, 0x00, 0x01, 0x24, 0x07, 0x60, 0x00, 0x00, 0x60, 0x02, 0x7f, 0x7e, 0x00, 0x60, 0x02, 0x7f,
    0x7f, 0x00, 0x60, 0x01, 0x7f, 0x01, 0x7f, 0x60, 0x03, 0x7f, 0x7f, 0x7f, 0x00, 0x60, 0x00, 0x01, 0x7f, 0x60, 0x02, 0x7f, 0x7f, 0x02,
    0x7f, 0x7e, 0x03, 0x0b, 0x0a, 0x00, 0x01, 0x02, 0x03, 0x04, 0x03, 0x05, 0x03, 0x06, 0x00, 0x05, 0x04, 0x01, 0x01, 0x01, 0x03, 0x06,
    0x1d, 0x04, 0x7f, 0x01, 0x41, 0x79, 0x0b, 0x7e, 0x01, 0x42, 0x7f, 0x0b, 0x7e, 0x00, 0x42, 0xef, 0x9b, 0xaf, 0xcd, 0xf8, 0xac, 0xd1,
    0x91, 0x01, 0x0b, 0x7f, 0x01, 0x41, 0x00, 0x0b, 0x07, 0x62, 0x0d, 0x06, 0x6d, 0x65, 0x6d, 0x6f, 0x72, 0x79, 0x02, 0x00, 0x06, 0x73,
    0x74, 0x61, 0x72, 0x74, 0x73, 0x03, 0x00, 0x03, 0x73, 0x75, 0x6d, 0x03, 0x01, 0x05, 0x66, 0x69, 0x78, 0x65, 0x64, 0x03, 0x02, 0x03,
    0x70, 0x75, 0x74, 0x00, 0x01, 0x04, 0x70, 0x75, 0x74, 0x38, 0x00, 0x02, 0x03, 0x67, 0x65, 0x74, 0x00, 0x03, 0x04, 0x66, 0x69, 0x6c,
    0x6c, 0x00, 0x04, 0x04, 0x67, 0x72, 0x6f, 0x77, 0x00, 0x05, 0x06, 0x68, 0x69, 0x64, 0x64, 0x65, 0x6e, 0x00, 0x06, 0x04, 0x64, 0x6f,
    0x77, 0x6e, 0x00, 0x07, 0x06, 0x64, 0x69, 0x76, 0x69, 0x64, 0x65, 0x00, 0x08, 0x04, 0x73, 0x74, 0x6f, 0x70, 0x00, 0x09, 0x08, 0x01,
    0x00, 0x0a, 0xa1, 0x01, 0x0a, 0x0e, 0x00, 0x41, 0x07, 0x41, 0xaa, 0x01, 0x3a, 0x00, 0x00, 0x41, 0x01, 0x24, 0x00, 0x0b, 0x09, 0x00,
    0x20, 0x00, 0x20, 0x01, 0x37, 0x00, 0x03, 0x0b, 0x09, 0x00, 0x20, 0x00, 0x20, 0x01, 0x3a, 0x00, 0x00, 0x0b, 0x09, 0x00, 0x20, 0x00,
    0x2e, 0x00, 0xff, 0xff, 0x03, 0x0b, 0x2b, 0x00, 0x02, 0x40, 0x20, 0x02, 0x45, 0x0d, 0x00, 0x03, 0x40, 0x20, 0x00, 0x20, 0x01, 0x3a,
    0x00, 0x00, 0x23, 0x01, 0x42, 0x01, 0x7c, 0x24, 0x01, 0x20, 0x00, 0x41, 0x01, 0x6a, 0x21, 0x00, 0x20, 0x02, 0x41, 0x01, 0x6b, 0x22,
    0x02, 0x0d, 0x00, 0x0b, 0x0b, 0x0b, 0x06, 0x00, 0x20, 0x00, 0x40, 0x00, 0x0b, 0x0b, 0x00, 0x23, 0x03, 0x41, 0x01, 0x6a, 0x24, 0x03,
    0x23, 0x03, 0x0b, 0x1c, 0x00, 0x20, 0x00, 0x20, 0x00, 0x3a, 0x00, 0x80, 0x04, 0x20, 0x00, 0x04, 0x7f, 0x41, 0x01, 0x20, 0x00, 0x41,
    0x01, 0x6b, 0x10, 0x07, 0x6a, 0x05, 0x41, 0x00, 0x0b, 0x0b, 0x0e, 0x00, 0x20, 0x00, 0xac, 0x24, 0x01, 0x20, 0x00, 0x20, 0x01, 0x6d,
    0x23, 0x01, 0x0b, 0x07, 0x00, 0x42, 0x05, 0x24, 0x01, 0x00, 0x0b, 0x0b, 0x19, 0x02, 0x00, 0x41, 0xe4, 0x00, 0x0b, 0x05, 0x62, 0x65,
    0x67, 0x75, 0x6e, 0x00, 0x41, 0xfa, 0xff, 0x03, 0x0b, 0x06, 0x01, 0x02, 0x03, 0x04, 0x05, 0x06
};

enum { STARTS, SUM, FIXED };

static void own_begin(model *it) {
    memcpy(it->memory + 100, "begun", 5);
    memcpy(it->memory + 65530, "\1\2\3\4\5\6", 6);
    it->memory[7] = 0xAA;
    it->globals[STARTS] = 1;
    it->globals[SUM] = UINT64_MAX;
    it->globals[FIXED] = UINT64_C(0x0123456789ABCDEF);
}

static void own_put(call *it) { store(it, (uint64_t)arg(it, 0) + 3, it->args[1].bits, 8); }

static void own_put8(call *it) { store(it, arg(it, 0), arg(it, 1), 1); }

static void own_get(call *it) { give(it, gate_i32((int16_t)load(it, (uint64_t)arg(it, 0) + 65535, 2))); }

static void own_fill(call *it) {
    const uint32_t at = arg(it, 0), count = arg(it, 2);
    for (uint32_t i = 0; i < count && turn(it); i++) {
        store(it, at + i, arg(it, 1), 1);
        if (it->ended.end != GATE_VALUES) return;
        it->on->globals[SUM]++;
    }
}

static void own_grow(call *it) {
    const uint64_t pages = it->on->size / PAGE, asked = pages + arg(it, 0);
    const bool fits = asked <= MOST_PAGES && asked <= it->pages;
    if (fits) it->on->size = asked * PAGE;
    give(it, gate_i32(fits ? (int32_t)pages : -1));
}

static void own_hidden(call *it) { give(it, gate_i32(as_signed(++it->on->hidden))); }

/* The fuel of the first entry is taken already. */
static void own_down(call *it) {
    uint32_t number = arg(it, 0);
    for (uint32_t frames = 1;; frames++, number--) {
        store(it, (uint64_t)number + 512, number, 1);
        if (it->ended.end != GATE_VALUES || !number) break;
        if (!turn(it)) break;
        if (frames < it->limits.frames) continue;
        it->ended.end = GATE_OUT_OF_FRAMES;
        it->ended.fuel--;
        break;
    }
    give(it, (gate_value){ 32, arg(it, 0) });
}

static void own_divide(call *it) {
    const int32_t one = as_signed(arg(it, 0)), other = as_signed(arg(it, 1));
    it->on->globals[SUM] = (uint64_t)(int64_t)one;
    if (!other) trap(it, GATE_DIVIDE_BY_ZERO);
    else if (one == INT32_MIN && other == -1) trap(it, GATE_INTEGER_OVERFLOW);
    else give(it, gate_i32(one / other));
    give(it, gate_i64(one));
}

static void own_stop(call *it) {
    it->on->globals[SUM] = 5;
    trap(it, GATE_UNREACHABLE);
}

static const function OWN_FUNCTIONS[] = {
    { "put", "il", own_put },   { "put8", "ii", own_put8 },    { "get", "i", own_get },
    { "fill", "iii", own_fill }, { "grow", "i", own_grow },    { "hidden", "", own_hidden },
    { "down", "i", own_down },  { "divide", "ii", own_divide }, { "stop", "", own_stop },
    { NULL, NULL, NULL },
};
static const global OWN_GLOBALS[] = { { "starts", 32 }, { "sum", 64 }, { "fixed", 64 }, { NULL, 0 } };

/* examples/guests/upper.rs: its first variable stands at 12,288, and its text at 4,096. */
enum { UPPER_TEXT = 4096, UPPER_USED = 12288, UPPER_ROOM = 8192 };

static void upper_begin(model *it) {
    it->globals[0] = 12292;
    it->globals[1] = 12304;
}

static void upper_alloc(call *it) {
    const uint32_t used = (uint32_t)load(it, UPPER_USED, 4), length = arg(it, 0);
    const bool fits = length <= UPPER_ROOM - used;
    if (fits) store(it, UPPER_USED, used + length, 4);
    give(it, (gate_value){ 32, fits ? used + UPPER_TEXT : 0 });
}

/* The compiled loop takes up to three bytes one by one, and then four in a turn. */
static void upper_handle(call *it) {
    const uint32_t at = arg(it, 0), length = arg(it, 1), odd = length % 4;
    for (uint32_t i = 0; i < length; i++) {
        if ((i < odd || (i - odd) % 4 == 0) && !turn(it)) return;
        const uint8_t byte = (uint8_t)load(it, at + i, 1);
        store(it, at + i, byte >= 'a' && byte <= 'z' ? byte - 32 : byte, 1);
        if (it->ended.end != GATE_VALUES) return;
    }
    give(it, (gate_value){ 64, (uint64_t)at << 32 | length });
}

static const function UPPER_FUNCTIONS[] = { { "alloc", "i", upper_alloc }, { "handle", "ii", upper_handle }, { NULL, NULL, NULL } };
static const global UPPER_GLOBALS[] = { { "__data_end", 32 }, { "__heap_base", 32 }, { NULL, 0 } };

static void nothing(model *it) { (void)it; }

static void steps_steps(call *it) {
    uint32_t number = arg(it, 0), count = 0;
    for (; number != 1 && turn(it); count++) number = number % 2 ? 3 * number + 1 : number / 2;
    give(it, (gate_value){ 32, count });
}

static void add_add(call *it) { give(it, (gate_value){ 32, arg(it, 0) + arg(it, 1) }); }

static const function STEPS_FUNCTIONS[] = { { "steps", "i", steps_steps }, { NULL, NULL, NULL } };
static const function ADD_FUNCTIONS[] = { { "add", "ii", add_add }, { NULL, NULL, NULL } };
static const global NO_GLOBALS[] = { { NULL, 0 } };

plugin plugins[PLUGINS] = {
    { NULL, { OWN, sizeof OWN }, OWN_FUNCTIONS, OWN_GLOBALS, 1, 3, 1, own_begin },
    { "guests/upper.wasm", { NULL, 0 }, UPPER_FUNCTIONS, UPPER_GLOBALS, 1, 1, 0, upper_begin },
    { "guests/steps.wasm", { NULL, 0 }, STEPS_FUNCTIONS, NO_GLOBALS, 2, 2, 0, nothing },
    { "add.wasm", { NULL, 0 }, ADD_FUNCTIONS, NO_GLOBALS, 0, 0, 0, nothing },
};

void model_begin(model *it, const plugin *of) {
    memset(it, 0, sizeof *it);
    it->size = (uint64_t)of->first_pages * PAGE;
    of->begin(it);
}

void model_call(call *it, const function *what) {
    it->ended = (gate_call){ GATE_VALUES, 0, 0, 0, 0 };
    if (turn(it)) what->body(it);
}
