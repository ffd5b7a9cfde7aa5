/* The report on calls, of bytes and of a module that is kept. */
#include "interface.h"

/* An answer that is kept, read in each room from none to all, and once more. */
static void kept_answer(gate_report kept, uint32_t status, const char *words) {
    for (size_t room = 0; room <= strlen(words) + 1; room++) {
        uint8_t out[ROOM];
        size_t length = 0;
        memset(out, UNTOUCHED, sizeof out);
        uint32_t got = gate_report_read(kept, room ? out : NULL, room, &length);
        HOLDS(length == strlen(words));
        if (room < length)
            HOLDS(got == GATE_SHORT_BUFFER && is_untouched(out, ROOM));
        else
            HOLDS(got == status && is(out, length, words) && is_untouched(out + length, ROOM - length));
    }
    gate_report_free(kept);
}

/* What gate_run, or gate_module_run where there is a module, answers in this room. */
static uint32_t run(gate_module *module, text bytes, text calls, gate_settings settings, uint8_t *out, size_t room, size_t *length,
                    gate_report *kept) {
    return module ? gate_module_run(*module, calls.at, calls.length, &settings, out, room, length, kept)
                  : gate_run(bytes.at, bytes.length, calls.at, calls.length, &settings, out, room, length, kept);
}

static void answer(gate_module *module, text bytes, text calls, uint32_t status, const char *words) {
    uint8_t out[ROOM];
    gate_report kept = { out };
    size_t length = 0, rooms[] = { 0, 1, strlen(words) - 1 };
    for (size_t i = 0; i < sizeof rooms / sizeof *rooms; i++) {
        memset(out, UNTOUCHED, sizeof out);
        uint32_t got = run(module, bytes, calls, USUAL, rooms[i] ? out : NULL, rooms[i], &length, &kept);
        if (HOLDS(got == GATE_SHORT_BUFFER && length == strlen(words) && is_untouched(out, ROOM))) kept_answer(kept, status, words);
    }
    kept.at = out;
    HOLDS(run(module, bytes, calls, USUAL, out, strlen(words), &length, &kept) == status && is(out, length, words));
    HOLDS(is_untouched(out + length, ROOM - length) && kept.at == out);
}

static void no_answer(gate_module *module, gate_settings settings) {
    uint8_t out[ROOM];
    size_t length = 77;
    gate_report kept = { out };
    memset(out, UNTOUCHED, sizeof out);
    HOLDS(run(module, ADD, said("add\n"), settings, out, ROOM, &length, &kept) == GATE_BAD_ARGUMENT);
    HOLDS(length == 77 && kept.at == out && is_untouched(out, ROOM));
}

static void answers(gate_module *module) {
    answer(module, ADD, NONE, GATE_OK, "total 0 values 0 traps 0 exhausted 0 refused 0 no-memory 0 fuel 0\n");
    answer(module, ADD, said("add\ti32:40\ti32:2\nsub\n"), GATE_OK,
           "0 values i32:42 fuel 1\n1 no-export\ntotal 2 values 1 traps 0 exhausted 0 refused 1 no-memory 0 fuel 1\n");
    answer(module, ADD, said("add\nadd"), GATE_CALLS_REFUSED, "accepted\ncalls line 2 refused\n");
    no_answer(module, (gate_settings){ 1000000001, 1024, 256 });
    no_answer(module, (gate_settings){ 1000000, 0, 256 });
    no_answer(module, (gate_settings){ 1000000, 4097, 256 });
    no_answer(module, (gate_settings){ 1000000, 1024, 1025 });
}

static void modules(void) {
    gate_verdict verdict = { 9, 9, 9, 9 };
    gate_module module = { &verdict };
    HOLDS(gate_module_new(NULL, 0, &verdict, &module) == GATE_MODULE_REFUSED && is_verdict(&verdict, GATE_MALFORMED, 0, 0, 0));
    HOLDS(gate_module_new(ILL_TYPED.at, ILL_TYPED.length, &verdict, &module) == GATE_MODULE_REFUSED);
    HOLDS(is_verdict(&verdict, GATE_BODY_ILL_TYPED, 0, 0, 1) && module.at == &verdict);
    module = module_of(ADD);
    answers(&module);
    gate_module_free(module);
}

void reports(void) {
    answer(NULL, NONE, NONE, GATE_MODULE_REFUSED, "refused malformed\n");
    answer(NULL, ILL_TYPED, said("f\n"), GATE_MODULE_REFUSED, "refused body 0 ill-typed at 1\n");
    answers(NULL);
    modules();
}
