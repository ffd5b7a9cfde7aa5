/* What a module imports, the text that lists it, and the numbers by which a host may refuse it. */
#include "interface.h"

/* Of type [i32 i64] -> [i32] the function f of env; its table t, a memory m of no module, its global g; and a custom section. */
static const text IMPORTS = BYTES(HEAD, 1, 7, 1, 0x60, 2, 0x7F, 0x7E, 1, 0x7F, 2, 34, 4, 3, 'e', 'n', 'v', 1, 'f', 0, 0, 3, 'e', 'n', 'v',
                                  1, 't', 1, 0x70, 0, 1, 0, 1, 'm', 2, 0, 1, 3, 'e', 'n', 'v', 1, 'g', 3, 0x7F, 0, 0, 8, 4, 'n', 'o',
                                  't', 'e', 1, 2, 3);
/* Types [] -> [], [i32 i32 i64] -> [] and [] -> [i32 i32 i32 i32]; functions with 7 locals, with 3 and 3, and with 3 tokens. */
static const text LONGEST = BYTES(HEAD, 1, 17, 3, 0x60, 0, 0, 0x60, 3, 0x7F, 0x7F, 0x7E, 0, 0x60, 0, 4, 0x7F, 0x7F, 0x7F, 0x7F, 3, 4, 3, 0,
                                  1, 0, 0x0A, 18, 3, 6, 2, 5, 0x7F, 2, 0x7E, 0x0B, 4, 1, 3, 0x7C, 0x0B, 4, 0, 1, 1, 0x0B);

static bool is_import(const gate_import *it, gate_import wanted) {
    return it->kind == wanted.kind && it->params == wanted.params && it->results == wanted.results;
}

typedef uint32_t names(gate_module module, uint64_t number, uint8_t *out, size_t room, size_t *length);

/* A name in each room. */
static void named(names *by, gate_module module, uint64_t number, const char *name) {
    for (size_t room = 0; room <= strlen(name) + 1; room++) {
        uint8_t out[ROOM];
        size_t length = 77;
        memset(out, UNTOUCHED, sizeof out);
        uint32_t status = by(module, number, room ? out : NULL, room, &length);
        HOLDS(length == strlen(name));
        if (room < length)
            HOLDS(status == GATE_SHORT_BUFFER && is_untouched(out, ROOM));
        else
            HOLDS(status == GATE_OK && is(out, length, name) && is_untouched(out + length, ROOM - length));
    }
}

static void import(gate_module module, uint64_t number, const char *of, const char *name, gate_import wanted) {
    gate_import found = { 9, 9, 9 };
    HOLDS(gate_module_import(module, number, &found) == GATE_OK && is_import(&found, wanted));
    named(gate_module_import_module, module, number, of);
    named(gate_module_import_name, module, number, name);
}

static void no_import(gate_module module, uint64_t number) {
    gate_import found = { 9, 9, 9 };
    uint8_t out[ROOM];
    size_t length = 77;
    memset(out, UNTOUCHED, sizeof out);
    HOLDS(gate_module_import(module, number, &found) == GATE_NOTHING && is_import(&found, (gate_import){ 9, 9, 9 }));
    HOLDS(gate_module_import_module(module, number, out, ROOM, &length) == GATE_NOTHING);
    HOLDS(gate_module_import_name(module, number, out, ROOM, &length) == GATE_NOTHING);
    HOLDS(length == 77 && is_untouched(out, ROOM));
}

static void told(void) {
    gate_module module = module_of(IMPORTS);
    uint8_t params[2], results[1];
    HOLDS(gate_module_import_count(module) == 4);
    import(module, 0, "env", "f", (gate_import){ GATE_EXPORT_FUNCTION, 2, 1 });
    import(module, 1, "env", "t", (gate_import){ GATE_EXPORT_TABLE, 0, 0 });
    import(module, 2, "", "m", (gate_import){ GATE_EXPORT_MEMORY, 0, 0 });
    import(module, 3, "env", "g", (gate_import){ GATE_EXPORT_GLOBAL, 0, 0 });
    no_import(module, 4);
    no_import(module, UINT64_C(1) << 32);
    no_import(module, UINT64_MAX);
    HOLDS(gate_module_types(module, 0, params, 2, results, 1) == GATE_OK);
    HOLDS(params[0] == GATE_TYPE_I32 && params[1] == GATE_TYPE_I64 && results[0] == GATE_TYPE_I32);
    gate_module_free(module);
    module = module_of(ADD);
    HOLDS(gate_module_import_count(module) == 0);
    no_import(module, 0);
    gate_module_free(module);
}

/* The text within so many pages, in each room. */
static void listed(text bytes, uint32_t pages, uint32_t wanted, const char *text) {
    const gate_settings settings = { 0, 1, pages };
    for (size_t room = 0; room <= strlen(text) + 1; room++) {
        uint8_t out[ROOM];
        size_t length = 77;
        memset(out, UNTOUCHED, sizeof out);
        uint32_t status = gate_exports_text(bytes.at, bytes.length, &settings, room ? out : NULL, room, &length);
        HOLDS(length == strlen(text));
        if (room < length)
            HOLDS(status == GATE_SHORT_BUFFER && is_untouched(out, ROOM));
        else
            HOLDS(status == wanted && is(out, length, text) && is_untouched(out + length, ROOM - length));
    }
}

static void not_listed(gate_settings settings) {
    uint8_t out[ROOM];
    size_t length = 77;
    memset(out, UNTOUCHED, sizeof out);
    HOLDS(gate_exports_text(ADD.at, ADD.length, &settings, out, ROOM, &length) == GATE_BAD_ARGUMENT);
    HOLDS(length == 77 && is_untouched(out, ROOM));
}

static void lists(void) {
    const char *outside = "function 0 \"f\" [] -> []\nmemory 0 \"m\"\n"
                          "not-started data-outside 1: it has 2 bytes from 65535 on, and the memory has 65536\n";
    const char *limit = "function 0 \"f\" [] -> []\nmemory 0 \"m\"\nnot-started memory-limit: the memory has 1 pages, and 0 are the most\n";
    listed(ADD, 0, GATE_OK, "function 0 \"add\" [i32 i32] -> [i32]\nstarts\n");
    listed(OUTSIDE, 256, GATE_OK, outside);
    listed(OUTSIDE, 0, GATE_OK, limit);
    listed(IMPORTS, 256, GATE_OK,
           "import \"env\" \"f\" function [i32 i64] -> [i32]\nimport \"env\" \"t\" table\nimport \"\" \"m\" memory\n"
           "import \"env\" \"g\" global i32\ncustom \"note\" 3\nnot-started imports: import 0 \"env\" \"f\" is a function\n");
    listed(VERSION_2, 256, GATE_MODULE_REFUSED, "refused malformed\n");
    listed(ILL_TYPED, 256, GATE_MODULE_REFUSED, "refused body 0 ill-typed at 1\n");
    listed(NONE, 256, GATE_MODULE_REFUSED, "refused malformed\n");
    not_listed((gate_settings){ 1000000001, 1, 1 });
    not_listed((gate_settings){ 0, 0, 1 });
    not_listed((gate_settings){ 0, 1, 1025 });
}

static void measured(text bytes, gate_measures wanted) {
    gate_module module = module_of(bytes);
    gate_measures found = { 9, 9, 9 };
    HOLDS(gate_module_measures(module, &found) == GATE_OK);
    HOLDS(found.tokens == wanted.tokens && found.locals == wanted.locals && found.values == wanted.values);
    gate_module_free(module);
}

void imports(void) {
    told();
    lists();
    measured((text)BYTES(HEAD), (gate_measures){ 0, 0, 0 });
    measured(ADD, (gate_measures){ 4, 2, 2 });
    measured(ALL_KINDS, (gate_measures){ 3, 2, 2 });
    measured(LONGEST, (gate_measures){ 3, 7, 4 });
    measured(IMPORTS, (gate_measures){ 0, 0, 2 });
}
