/* gate for Node: an addon in C over libgate, by Node-API alone. README.md builds it, index.d.ts has the types of its functions.
 *
 *   build()                                which build the library is
 *   check(bytes)                           the line of the verdict
 *   explain(bytes)                         what `gate explain` prints
 *   exportsText(bytes, limits)             what `gate exports` prints within these limits
 *   measures(bytes)                        numbers by which a host may refuse an accepted module
 *   open(bytes, limits)                    an instance of the module, which goes on from call to call
 *   exports(instance)                      what its module exports, with the types of functions
 *   call(instance, name, args, limits)     the values of a call of an export: an i32 is a Number, an i64 a BigInt
 *   callOrReset(instance, name, args, ..)  the same, and after each end but values a reset
 *   fuel(instance)                         what the last call cost, or the start function
 *   memorySize(instance)                   how many bytes its memory has
 *   read(instance, at, length)             a Buffer of bytes of its memory
 *   write(instance, at, bytes)             writes bytes there
 *   global(instance, name)                 the value of an exported global; undefined where there is none
 *   reset(instance)                        makes it anew
 *   close(instance)                        frees it; a forgotten one is freed when it is garbage
 *
 * Bytes are a Buffer or a Uint8Array, over memory that no other thread writes. Limits are { fuel, frames, pages }, each with a default. What
 * goes wrong is thrown: a TypeError for wrong arguments and for a closed instance, a RangeError for bytes outside the memory and for limits
 * out of range, and else an Error. Its code is the name of a gate_end, as TRAP, and its message that of a report, as `trap unreachable`; or
 * REFUSED for a module, with the sentence that says why; or NO_INSTANCE after a reset that failed. */
#define NAPI_VERSION 8
#include "gate.h"
#include <node_api.h>
#include <stdbool.h>
#include <stdio.h>
#include <stdlib.h>
#include <string.h>

enum { MOST_ARGUMENTS = 4, LINE_ROOM = 64, WORDS_ROOM = 80 };

static const gate_settings SETTINGS = { .fuel = 1000000, .frames = 1024, .pages = 256 };

static const char *const ENDS[] = { "VALUES", "TRAP", "OUT_OF_FUEL", "OUT_OF_FRAMES", "NO_EXPORT",
                                    "NOT_A_FUNCTION", "BAD_ARGUMENTS", "NOT_STARTED", "NO_MEMORY" };
static const char *const TRAPS[] = { "unreachable", "out-of-bounds", "undefined-element", "uninitialized-element",
                                     "type-mismatch", "divide-by-zero", "integer-overflow" };
static const char *const REASONS[] = { "imports", "floats", "table-limit", "memory-limit", "element-outside", "data-outside" };
static const char *const KINDS[] = { "function", "table", "memory", "global" };

typedef struct plug_in {
    uint8_t *bytes; /* of the module, for as long as its handles */
    gate_module module;
    gate_instance instance;
    gate_settings limits;
    uint32_t fuel; /* of the last call, or of the start function */
} plug_in;

/* Marks the objects whose data is a plug_in. */
static const napi_type_tag TAG = { 0x6761746520696E73, 0x74616E6365203031 };

typedef struct bytes {
    uint8_t *at;
    size_t length;
} bytes;

static napi_value fail(napi_env env, const char *code, const char *words) {
    bool is_pending = false;
    if (napi_is_exception_pending(env, &is_pending) == napi_ok && !is_pending) napi_throw_error(env, code, words);
    return NULL;
}

static napi_value wrong(napi_env env, const char *words) {
    napi_throw_type_error(env, NULL, words);
    return NULL;
}

static napi_value no_memory(napi_env env) { return fail(env, "NO_MEMORY", "no-memory"); }

/* How a call ended, as the line of a report says it, but for its values: `trap unreachable fuel 1`. */
static void tell(const gate_call *ended, char *out) {
    char name[WORDS_ROOM], reason[WORDS_ROOM] = "", fuel[WORDS_ROOM] = "";
    size_t length = 0;
    for (; ENDS[ended->end][length]; length++)
        name[length] = ENDS[ended->end][length] == '_' ? '-' : (char)(ENDS[ended->end][length] + ('a' - 'A'));
    name[length] = 0;
    if (ended->end == GATE_END_TRAP) snprintf(reason, sizeof reason, " %s", TRAPS[ended->reason]);
    if (ended->end == GATE_END_NOT_STARTED) snprintf(reason, sizeof reason, " %s", REASONS[ended->reason]);
    if (ended->end == GATE_END_NOT_STARTED && ended->reason >= GATE_ELEMENT_OUTSIDE)
        snprintf(reason, sizeof reason, " %s %u", REASONS[ended->reason], ended->place);
    if (ended->end <= GATE_END_OUT_OF_FRAMES) snprintf(fuel, sizeof fuel, " fuel %u", ended->fuel);
    snprintf(out, 3 * WORDS_ROOM, "%s%s%s", name, reason, fuel);
}

/* Throws an end that is not values. */
static napi_value throw_end(napi_env env, const gate_call *ended, const char *before) {
    char end[3 * WORDS_ROOM], words[4 * WORDS_ROOM];
    tell(ended, end);
    snprintf(words, sizeof words, "%s%s", before, end);
    return fail(env, ENDS[ended->end], words);
}

/* Limits that are not given are those of `usual`. */
static bool are_limits(napi_env env, napi_value given, gate_settings usual, gate_settings *limits) {
    const char *const names[] = { "fuel", "frames", "pages" };
    uint32_t *const fields[] = { &limits->fuel, &limits->frames, &limits->pages };
    napi_valuetype type;
    napi_value value;
    *limits = usual;
    if (napi_typeof(env, given, &type) != napi_ok || type == napi_undefined) return true;
    if (type != napi_object) return wrong(env, "limits are { fuel, frames, pages }"), false;
    for (int i = 0; i < 3; i++) {
        double number;
        if (napi_get_named_property(env, given, names[i], &value) != napi_ok || napi_typeof(env, value, &type) != napi_ok) return false;
        if (type == napi_undefined) continue;
        if (napi_get_value_double(env, value, &number) != napi_ok) return wrong(env, "a limit is a Number"), false;
        /* What is no whole number of 32 bits is out of each range. */
        *fields[i] = number >= 0 && number <= UINT32_MAX && (double)(uint32_t)number == number ? (uint32_t)number : UINT32_MAX;
    }
    return true;
}

/* What a status says of limits and of memory, where there is no answer. */
static napi_value no_answer(napi_env env, uint32_t status) {
    if (status != GATE_BAD_ARGUMENT) return no_memory(env);
    napi_throw_range_error(env, NULL, "a limit is out of its range");
    return NULL;
}

static bool is_bytes(napi_env env, napi_value value, bytes *found) {
    bool is_array = false, is_ours = false;
    napi_typedarray_type type;
    napi_value buffer;
    void *at = NULL;
    if (napi_is_typedarray(env, value, &is_array) != napi_ok || !is_array) return false;
    if (napi_get_typedarray_info(env, value, &type, &found->length, &at, &buffer, NULL) != napi_ok) return false;
    found->at = at;
    /* Node-API does not take a shared buffer for an array buffer. */
    return type == napi_uint8_array && napi_is_arraybuffer(env, buffer, &is_ours) == napi_ok && is_ours;
}

/* A whole number from 0 to 2^53. */
static bool is_place(napi_env env, napi_value value, uint64_t *place) {
    double number;
    if (napi_get_value_double(env, value, &number) != napi_ok || !(number >= 0 && number <= 9007199254740992.0)) return false;
    *place = (uint64_t)number;
    return (double)*place == number;
}

/* The arguments of a call; those that are not given are undefined. */
static bool arguments(napi_env env, napi_callback_info info, napi_value *args) {
    size_t count = MOST_ARGUMENTS;
    return napi_get_cb_info(env, info, &count, args, NULL, NULL) == napi_ok;
}

static plug_in *tagged(napi_env env, napi_value value) {
    bool is_ours = false;
    void *found = NULL;
    if (napi_check_object_type_tag(env, value, &TAG, &is_ours) == napi_ok && is_ours) napi_unwrap(env, value, &found);
    return found;
}

static plug_in *plug_in_of(napi_env env, napi_value value) {
    plug_in *it = tagged(env, value);
    if (it && it->instance.at) return it;
    wrong(env, it ? "the instance is closed" : "an instance is wanted");
    return NULL;
}

static void free_handles(plug_in *it) {
    gate_instance_drop(it->instance);
    gate_module_drop(it->module);
    free(it->bytes);
    *it = (plug_in){ .bytes = NULL };
}

static void free_plug_in(napi_env env, void *data, void *hint) {
    (void)env, (void)hint;
    free_handles(data);
    free(data);
}

static napi_value build(napi_env env, napi_callback_info info) {
    napi_value text = NULL;
    uint8_t out[LINE_ROOM];
    size_t length = 0;
    (void)info;
    if (gate_build(out, sizeof out, &length) == GATE_OK) napi_create_string_latin1(env, (char *)out, length, &text);
    return text;
}

static napi_value check(napi_env env, napi_callback_info info) {
    napi_value args[MOST_ARGUMENTS], line = NULL;
    bytes module;
    gate_verdict verdict;
    uint8_t out[LINE_ROOM];
    size_t length = 0;
    if (!arguments(env, info, args) || !is_bytes(env, args[0], &module)) return wrong(env, "bytes are wanted");
    if (gate_check(module.at, module.length, &verdict) == GATE_NO_MEMORY) return no_memory(env);
    if (gate_verdict_line(&verdict, out, sizeof out, &length) != GATE_OK) return no_memory(env);
    napi_create_string_latin1(env, (char *)out, length - 1, &line);
    return line;
}

/* Writes a text on a module, as a function of gate.h does. */
typedef uint32_t writes(bytes module, const gate_settings *limits, uint8_t *out, size_t room, size_t *length);

static uint32_t write_explanation(bytes module, const gate_settings *limits, uint8_t *out, size_t room, size_t *length) {
    (void)limits;
    return gate_explain_text(module.at, module.length, out, room, length);
}

static uint32_t write_exports(bytes module, const gate_settings *limits, uint8_t *out, size_t room, size_t *length) {
    return gate_exports_text(module.at, module.length, limits, out, room, length);
}

/* The text, ended by a NUL, which the caller frees. NULL where there is none, and *status says why. */
static char *text_by(writes *write, bytes module, const gate_settings *limits, size_t *length, uint32_t *status) {
    size_t room = 1024;
    for (;;) {
        char *text = malloc(room + 1);
        *status = text ? write(module, limits, (uint8_t *)text, room, length) : GATE_NO_MEMORY;
        if (*status == GATE_OK || *status == GATE_MODULE_REFUSED) return text[*length] = 0, text;
        free(text);
        if (*status != GATE_SHORT_BUFFER) return NULL;
        room = *length;
    }
}

static char *explanation_of(bytes module, size_t *length) {
    uint32_t status;
    return text_by(write_explanation, module, &SETTINGS, length, &status);
}

static napi_value explain(napi_env env, napi_callback_info info) {
    napi_value args[MOST_ARGUMENTS], text = NULL;
    bytes module;
    size_t length = 0;
    if (!arguments(env, info, args) || !is_bytes(env, args[0], &module)) return wrong(env, "bytes are wanted");
    char *told = explanation_of(module, &length);
    if (!told) return no_memory(env);
    napi_create_string_utf8(env, told, length, &text);
    free(told);
    return text;
}

static napi_value exports_text(napi_env env, napi_callback_info info) {
    napi_value args[MOST_ARGUMENTS], text = NULL;
    bytes module;
    gate_settings limits;
    size_t length = 0;
    uint32_t status;
    if (!arguments(env, info, args) || !is_bytes(env, args[0], &module)) return wrong(env, "bytes are wanted");
    if (!are_limits(env, args[1], SETTINGS, &limits)) return NULL;
    char *told = text_by(write_exports, module, &limits, &length, &status);
    if (!told) return no_answer(env, status);
    napi_create_string_utf8(env, told, length, &text);
    free(told);
    return text;
}

/* Throws that a module is refused, with the verdict and why. */
static bool refuse(napi_env env, bytes module) {
    static const char KEY[] = "\nbecause   ";
    size_t length = 0;
    char *told = explanation_of(module, &length);
    if (!told) return no_memory(env), false;
    char *because = strstr(told, KEY);
    size_t verdict = strcspn(told, "\n");
    char *sentence = malloc(length + 3);
    if (sentence) {
        int count = because ? (int)strcspn(because + sizeof KEY - 1, "\n") : 0;
        snprintf(sentence, length + 3, "%.*s%s%.*s", (int)verdict, told, because ? ": " : "", count, because ? because + sizeof KEY - 1 : "");
    }
    fail(env, "REFUSED", sentence ? sentence : "refused");
    return free(sentence), free(told), false;
}

static napi_value measures(napi_env env, napi_callback_info info) {
    napi_value args[MOST_ARGUMENTS], object, number;
    bytes given;
    gate_verdict verdict;
    gate_module module;
    gate_measures found;
    if (!arguments(env, info, args) || !is_bytes(env, args[0], &given)) return wrong(env, "bytes are wanted");
    uint32_t status = gate_module_new(given.at, given.length, &verdict, &module);
    if (status == GATE_MODULE_REFUSED) return refuse(env, given), NULL;
    if (status != GATE_OK) return no_memory(env);
    gate_module_measures(module, &found);
    gate_module_free(module);
    const char *const names[] = { "tokens", "locals", "values" };
    const uint64_t numbers[] = { found.tokens, found.locals, found.values };
    if (napi_create_object(env, &object) != napi_ok) return NULL;
    for (int i = 0; i < 3; i++)
        if (napi_create_double(env, (double)numbers[i], &number) == napi_ok) napi_set_named_property(env, object, names[i], number);
    return object;
}

/* Throws why there is no instance, with the first cause of a refused start. */
static napi_value throw_none(napi_env env, bytes module, const gate_settings *limits, const gate_call *ended) {
    size_t length = 0;
    uint32_t status;
    char *told = ended->end == GATE_END_NOT_STARTED ? text_by(write_exports, module, limits, &length, &status) : NULL;
    if (!told) return throw_end(env, ended, "no instance: ");
    told[length - 1] = 0; /* for its newline */
    const char *newline = strrchr(told, '\n'), *line = newline ? newline + 1 : told;
    char *words = malloc(length + LINE_ROOM);
    if (words) snprintf(words, length + LINE_ROOM, "no instance: %s", line);
    fail(env, ENDS[ended->end], words ? words : "no instance");
    return free(words), free(told), NULL;
}

/* Makes the instance of a copy of the bytes; whether it is there. */
static bool begin(napi_env env, plug_in *it, bytes module) {
    gate_verdict verdict;
    gate_call ended;
    it->bytes = malloc(module.length + 1);
    if (!it->bytes) return no_memory(env);
    if (module.length) memcpy(it->bytes, module.at, module.length);
    uint32_t status = gate_module_new(it->bytes, module.length, &verdict, &it->module);
    if (status == GATE_MODULE_REFUSED) return refuse(env, module);
    if (status == GATE_OK) status = gate_instance_new(it->module, &it->limits, &it->instance, &ended);
    if (status == GATE_NO_INSTANCE) return throw_none(env, module, &it->limits, &ended);
    it->fuel = ended.fuel;
    return status == GATE_OK || no_answer(env, status);
}

static napi_value open(napi_env env, napi_callback_info info) {
    napi_value args[MOST_ARGUMENTS], object;
    bytes module;
    gate_settings limits;
    if (!arguments(env, info, args) || !is_bytes(env, args[0], &module)) return wrong(env, "bytes are wanted");
    if (!are_limits(env, args[1], SETTINGS, &limits)) return NULL;
    plug_in *it = calloc(1, sizeof *it);
    if (!it) return no_memory(env);
    it->limits = limits;
    if (begin(env, it, module) && napi_create_object(env, &object) == napi_ok &&
        napi_wrap(env, object, it, free_plug_in, NULL, NULL) == napi_ok)
        return napi_type_tag_object(env, object, &TAG) == napi_ok ? object : fail(env, NULL, "no object");
    free_plug_in(env, it, NULL);
    return fail(env, NULL, "no object");
}

/* A Number for an i32 and a BigInt for an i64, of which the lowest bits count, as in JavaScript's own interface. */
static bool is_value(napi_env env, napi_value given, uint8_t type, gate_value *found) {
    int32_t small;
    int64_t large;
    bool fits;
    if (type == GATE_TYPE_I32 && napi_get_value_int32(env, given, &small) == napi_ok) return *found = gate_i32(small), true;
    if (type == GATE_TYPE_I64 && napi_get_value_bigint_int64(env, given, &large, &fits) == napi_ok) return *found = gate_i64(large), true;
    return wrong(env, "an i32 takes a Number, and an i64 a BigInt"), false;
}

static napi_value number_of(napi_env env, gate_value value) {
    napi_value number = NULL;
    if (value.width == 32)
        napi_create_int32(env, (int32_t)value.bits, &number);
    else
        napi_create_bigint_int64(env, (int64_t)value.bits, &number);
    return number;
}

/* What a call needs of its function: the bytes of the name, the types of its parameters, and room for arguments and results. */
typedef struct callee {
    char *name;
    size_t length;
    gate_export found; /* of an export that is no function, and where there is none: without parameters and results */
    bool is_function;
    uint8_t *types;
    gate_value *values;
} callee;

static void free_callee(callee *it) { free(it->name), free(it->types), free(it->values); }

/* The bytes of a name, which the caller frees. */
static char *name_of(napi_env env, napi_value given, size_t *length) {
    if (napi_get_value_string_utf8(env, given, NULL, 0, length) != napi_ok) return wrong(env, "a name is wanted"), NULL;
    char *name = malloc(*length + 1);
    if (!name) return no_memory(env), NULL;
    napi_get_value_string_utf8(env, given, name, *length + 1, length);
    return name;
}

/* Looks a name up; false where something is thrown. */
static bool look_up(napi_env env, plug_in *of, napi_value name, callee *it) {
    *it = (callee){ .name = NULL };
    it->name = name_of(env, name, &it->length);
    if (!it->name) return false;
    uint32_t status = gate_module_find(of->module, (uint8_t *)it->name, it->length, &it->found);
    it->is_function = status == GATE_OK && it->found.kind == GATE_EXPORT_FUNCTION;
    if (!it->is_function) it->found = (gate_export){ .kind = GATE_EXPORT_FUNCTION };
    size_t params = it->found.params, results = it->found.results;
    it->types = malloc(params + results + 1);
    it->values = calloc(params + results + 1, sizeof *it->values);
    if (!it->types || !it->values) return no_memory(env), false;
    return !it->is_function || gate_module_types(of->module, it->found.index, it->types, params, it->types + params, results) == GATE_OK;
}

/* Takes the arguments; false where something is thrown. */
static bool take(napi_env env, napi_value array, callee *it) {
    uint32_t count = 0;
    napi_value item;
    if (napi_get_array_length(env, array, &count) != napi_ok) return wrong(env, "an array of arguments is wanted"), false;
    if (!it->is_function) return true;
    if (count != it->found.params) {
        char words[WORDS_ROOM];
        snprintf(words, sizeof words, "the function takes %u arguments, and not %u", it->found.params, count);
        return wrong(env, words), false;
    }
    for (uint32_t i = 0; i < count; i++)
        if (napi_get_element(env, array, i, &item) != napi_ok || !is_value(env, item, it->types[i], &it->values[i])) return false;
    return true;
}

static napi_value array_of(napi_env env, const gate_value *values, size_t count) {
    napi_value array;
    if (napi_create_array_with_length(env, count, &array) != napi_ok) return NULL;
    for (uint32_t i = 0; i < count; i++) napi_set_element(env, array, i, number_of(env, values[i]));
    return array;
}

static void make_anew(napi_env env, plug_in *it) {
    gate_call ended;
    if (gate_instance_reset(it->instance, &ended) != GATE_OK) throw_end(env, &ended, "no instance: ");
    it->fuel = ended.fuel;
}

static napi_value ran(napi_env env, plug_in *it, callee *of, const gate_settings *limits, bool resets) {
    gate_value *results = of->values + of->found.params;
    gate_call ended;
    uint32_t status = gate_instance_call(it->instance, (uint8_t *)of->name, of->length, of->values, of->found.params, limits, results,
                                         of->found.results, &ended);
    if (status == GATE_NO_INSTANCE) return fail(env, "NO_INSTANCE", "the last reset made no instance");
    if (status != GATE_OK) return no_answer(env, status);
    it->fuel = ended.fuel;
    if (ended.end == GATE_VALUES) return array_of(env, results, of->found.results);
    if (resets) make_anew(env, it);
    return throw_end(env, &ended, "");
}

static napi_value called(napi_env env, napi_callback_info info, bool resets) {
    napi_value args[MOST_ARGUMENTS], array = NULL;
    gate_settings limits;
    callee of;
    plug_in *it = arguments(env, info, args) ? plug_in_of(env, args[0]) : NULL;
    if (!it || !are_limits(env, args[3], it->limits, &limits)) return NULL;
    if (look_up(env, it, args[1], &of) && take(env, args[2], &of)) array = ran(env, it, &of, &limits, resets);
    free_callee(&of);
    return array;
}

static napi_value call(napi_env env, napi_callback_info info) { return called(env, info, false); }

static napi_value call_or_reset(napi_env env, napi_callback_info info) { return called(env, info, true); }

static napi_value fuel(napi_env env, napi_callback_info info) {
    napi_value args[MOST_ARGUMENTS], number = NULL;
    plug_in *it = arguments(env, info, args) ? plug_in_of(env, args[0]) : NULL;
    if (it) napi_create_uint32(env, it->fuel, &number);
    return number;
}

static void put(napi_env env, napi_value object, const char *name, napi_value value) { napi_set_named_property(env, object, name, value); }

static napi_value text_of(napi_env env, const char *text, size_t length) {
    napi_value made = NULL;
    napi_create_string_utf8(env, text, length, &made);
    return made;
}

static napi_value types_of(napi_env env, const uint8_t *types, uint32_t count) {
    napi_value array = NULL;
    napi_create_array_with_length(env, count, &array);
    for (uint32_t i = 0; i < count; i++) {
        const char *name = types[i] == GATE_TYPE_I32 ? "i32" : types[i] == GATE_TYPE_I64 ? "i64" : types[i] == GATE_TYPE_F32 ? "f32" : "f64";
        napi_set_element(env, array, i, text_of(env, name, 3));
    }
    return array;
}

/* The export of that number: its name, its kind, its index, and of a function the types. */
static napi_value export_of(napi_env env, gate_module module, uint64_t number) {
    napi_value object = NULL, index = NULL;
    gate_export found;
    size_t length = 0;
    if (gate_module_export(module, number, &found) != GATE_OK || napi_create_object(env, &object) != napi_ok) return NULL;
    if (gate_module_export_name(module, number, NULL, 0, &length) != GATE_SHORT_BUFFER) length = 0;
    size_t params = found.params, room = length > params + found.results ? length : params + found.results;
    uint8_t *out = malloc(room + 1);
    if (!out) return no_memory(env);
    if (gate_module_export_name(module, number, out, length, &length) == GATE_OK) put(env, object, "name", text_of(env, (char *)out, length));
    put(env, object, "kind", text_of(env, KINDS[found.kind], NAPI_AUTO_LENGTH));
    napi_create_uint32(env, found.index, &index);
    put(env, object, "index", index);
    if (found.kind == GATE_EXPORT_FUNCTION &&
        gate_module_types(module, found.index, out, params, out + params, found.results) == GATE_OK) {
        put(env, object, "params", types_of(env, out, found.params));
        put(env, object, "results", types_of(env, out + params, found.results));
    }
    free(out);
    return object;
}

static napi_value exports_of(napi_env env, napi_callback_info info) {
    napi_value args[MOST_ARGUMENTS], array = NULL;
    plug_in *it = arguments(env, info, args) ? plug_in_of(env, args[0]) : NULL;
    if (!it) return NULL;
    uint64_t count = gate_module_export_count(it->module);
    if (napi_create_array_with_length(env, count, &array) != napi_ok) return no_memory(env);
    for (uint64_t number = 0; number < count; number++) {
        napi_value found = export_of(env, it->module, number);
        if (!found || napi_set_element(env, array, (uint32_t)number, found) != napi_ok) return NULL;
    }
    return array;
}

static napi_value memory_size(napi_env env, napi_callback_info info) {
    napi_value args[MOST_ARGUMENTS], number = NULL;
    uint64_t size = 0;
    plug_in *it = arguments(env, info, args) ? plug_in_of(env, args[0]) : NULL;
    if (it && gate_instance_memory_size(it->instance, &size) == GATE_OK) napi_create_double(env, (double)size, &number);
    return number;
}

static napi_value global(napi_env env, napi_callback_info info) {
    napi_value args[MOST_ARGUMENTS];
    gate_value value;
    size_t length = 0;
    plug_in *it = arguments(env, info, args) ? plug_in_of(env, args[0]) : NULL;
    char *name = it ? name_of(env, args[1], &length) : NULL;
    bool is_there = name && gate_instance_global(it->instance, (uint8_t *)name, length, &value) == GATE_OK;
    free(name);
    return is_there ? number_of(env, value) : NULL;
}

static napi_value outside(napi_env env) {
    napi_throw_range_error(env, NULL, "the bytes do not lie in the memory");
    return NULL;
}

static napi_value read(napi_env env, napi_callback_info info) {
    napi_value args[MOST_ARGUMENTS], buffer;
    uint64_t at, length, size = 0;
    void *out;
    plug_in *it = arguments(env, info, args) ? plug_in_of(env, args[0]) : NULL;
    if (!it) return NULL;
    if (!is_place(env, args[1], &at) || !is_place(env, args[2], &length)) return wrong(env, "a place and a length are wanted");
    if (gate_instance_memory_size(it->instance, &size) != GATE_OK || length > size) return outside(env);
    if (napi_create_buffer(env, (size_t)length, &out, &buffer) != napi_ok) return no_memory(env);
    return gate_instance_read(it->instance, at, out, (size_t)length) == GATE_OK ? buffer : outside(env);
}

static napi_value write(napi_env env, napi_callback_info info) {
    napi_value args[MOST_ARGUMENTS];
    uint64_t at;
    bytes given;
    plug_in *it = arguments(env, info, args) ? plug_in_of(env, args[0]) : NULL;
    if (!it) return NULL;
    if (!is_place(env, args[1], &at) || !is_bytes(env, args[2], &given)) return wrong(env, "a place and bytes are wanted");
    return gate_instance_write(it->instance, at, given.at, given.length) == GATE_OK ? NULL : outside(env);
}

static napi_value reset(napi_env env, napi_callback_info info) {
    napi_value args[MOST_ARGUMENTS];
    plug_in *it = arguments(env, info, args) ? plug_in_of(env, args[0]) : NULL;
    if (it) make_anew(env, it);
    return NULL;
}

/* A second time it does nothing. */
static napi_value close(napi_env env, napi_callback_info info) {
    napi_value args[MOST_ARGUMENTS];
    plug_in *it = arguments(env, info, args) ? tagged(env, args[0]) : NULL;
    if (it) free_handles(it);
    else wrong(env, "an instance is wanted");
    return NULL;
}

static const struct { const char *name; napi_callback function; } FUNCTIONS[] = {
    { "build", build }, { "check", check }, { "explain", explain },
    { "exportsText", exports_text }, { "measures", measures }, { "open", open }, { "exports", exports_of }, { "call", call },
    { "callOrReset", call_or_reset }, { "fuel", fuel }, { "memorySize", memory_size }, { "read", read }, { "write", write },
    { "global", global }, { "reset", reset }, { "close", close },
};

NAPI_MODULE_INIT() {
    napi_value function;
    for (size_t i = 0; i < sizeof FUNCTIONS / sizeof *FUNCTIONS; i++)
        if (napi_create_function(env, FUNCTIONS[i].name, NAPI_AUTO_LENGTH, FUNCTIONS[i].function, NULL, &function) == napi_ok)
            napi_set_named_property(env, exports, FUNCTIONS[i].name, function);
    return exports;
}
