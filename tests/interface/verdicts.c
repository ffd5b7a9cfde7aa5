/* The verdict on a module, and its line. */
#include "interface.h"

static void checks(void) {
    gate_verdict verdict = { 9, 9, 9, 9 };
    HOLDS(gate_version() == GATE_INTERFACE);
    HOLDS(gate_check(NULL, 0, &verdict) == GATE_MODULE_REFUSED && is_verdict(&verdict, GATE_MALFORMED, 0, 0, 0));
    verdict = (gate_verdict){ 9, 9, 9, 9 };
    HOLDS(gate_check(ADD.at, ADD.length, &verdict) == GATE_OK && is_verdict(&verdict, GATE_ACCEPTED, 0, 0, 0));
    HOLDS(gate_check(ILL_TYPED.at, ILL_TYPED.length, &verdict) == GATE_MODULE_REFUSED);
    HOLDS(is_verdict(&verdict, GATE_BODY_ILL_TYPED, 0, 0, 1));
}

/* The line of a verdict in each room, from none to all. */
static void line(gate_verdict verdict, const char *words) {
    for (size_t room = 0; room <= strlen(words); room++) {
        uint8_t out[ROOM];
        size_t length = 0;
        memset(out, UNTOUCHED, sizeof out);
        uint32_t status = gate_verdict_line(&verdict, room ? out : NULL, room, &length);
        HOLDS(length == strlen(words));
        if (room < length)
            HOLDS(status == GATE_SHORT_BUFFER && is_untouched(out, ROOM));
        else
            HOLDS(status == GATE_OK && is(out, length, words) && is_untouched(out + length, ROOM - length));
    }
}

static void no_line(gate_verdict verdict) {
    uint8_t out[ROOM];
    size_t length = 77;
    memset(out, UNTOUCHED, sizeof out);
    HOLDS(gate_verdict_line(&verdict, out, ROOM, &length) == GATE_BAD_ARGUMENT && length == 77 && is_untouched(out, ROOM));
}

static void lines(void) {
    line((gate_verdict){ GATE_ACCEPTED, 0, 0, 0 }, "accepted\n");
    line((gate_verdict){ GATE_TOO_LARGE, 0, 0, 0 }, "refused too-large\n");
    line((gate_verdict){ GATE_MALFORMED, 0, 0, 0 }, "refused malformed\n");
    line((gate_verdict){ GATE_RULE, 2, 0, 0 }, "refused rule 2\n");
    line((gate_verdict){ GATE_RULE, 13, 0, 0 }, "refused rule 13\n");
    line((gate_verdict){ GATE_BODY_MALFORMED, 0, 4, 0 }, "refused body 4 malformed\n");
    line((gate_verdict){ GATE_BODY_TOO_MANY_LOCALS, 0, 0, 0 }, "refused body 0 too-many-locals\n");
    line((gate_verdict){ GATE_BODY_ILL_TYPED, 0, 12, 345 }, "refused body 12 ill-typed at 345\n");
    no_line((gate_verdict){ 7, 0, 0, 0 });
    no_line((gate_verdict){ GATE_ACCEPTED, 2, 0, 0 });
    no_line((gate_verdict){ GATE_MALFORMED, 0, 1, 0 });
    no_line((gate_verdict){ GATE_RULE, 1, 0, 0 });
    no_line((gate_verdict){ GATE_RULE, 14, 0, 0 });
    no_line((gate_verdict){ GATE_RULE, 2, 1, 0 });
    no_line((gate_verdict){ GATE_BODY_MALFORMED, 0, 1, 1 });
    no_line((gate_verdict){ GATE_BODY_ILL_TYPED, 2, 1, 1 });
}

/* Whether some verdict has these numbers, by what gate.h says of each kind. */
static bool is_of_a_verdict(gate_verdict it) {
    bool has_function = it.kind == GATE_BODY_MALFORMED || it.kind == GATE_BODY_TOO_MANY_LOCALS || it.kind == GATE_BODY_ILL_TYPED;
    bool is_rule = it.kind == GATE_RULE ? it.rule >= 2 && it.rule <= 13 : !it.rule;
    return it.kind <= 6 && is_rule && (has_function || !it.function) && (it.kind == GATE_BODY_ILL_TYPED || !it.token);
}

/* GATE_BAD_ARGUMENT exactly for numbers that are of no verdict. */
static void numbers(void) {
    static const uint32_t rules[] = { 0, 1, 2, 3, 12, 13, 14, UINT32_MAX }, functions[] = { 0, 1, UINT32_MAX };
    static const uint64_t tokens[] = { 0, 1, UINT64_C(1) << 32, UINT64_MAX };
    for (uint32_t kind = 0; kind <= 8; kind++)
        for (size_t i = 0; i < sizeof rules / sizeof *rules; i++)
            for (size_t j = 0; j < sizeof functions / sizeof *functions; j++)
                for (size_t k = 0; k < sizeof tokens / sizeof *tokens; k++) {
                    gate_verdict it = { kind, rules[i], functions[j], tokens[k] };
                    uint8_t out[ROOM];
                    size_t length = 77;
                    uint32_t status = gate_verdict_line(&it, out, ROOM, &length);
                    HOLDS(is_of_a_verdict(it) ? status == GATE_OK && length <= 64 : status == GATE_BAD_ARGUMENT && length == 77);
                }
}

void verdicts(void) {
    checks();
    lines();
    numbers();
}
