#include "ends.h"

#include <inttypes.h>
#include <stdio.h>

static const char *const ENDS[] = {
    [GATE_VALUES] = "values", [GATE_TRAP] = "trap", [GATE_OUT_OF_FUEL] = "out-of-fuel", [GATE_OUT_OF_FRAMES] = "out-of-frames",
    [GATE_NO_EXPORT] = "no-export", [GATE_NOT_A_FUNCTION] = "not-a-function", [GATE_BAD_ARGUMENTS] = "bad-arguments",
    [GATE_NOT_STARTED] = "not-started", [GATE_CALL_NO_MEMORY] = "no-memory",
};

static const char *const TRAPS[] = {
    [GATE_UNREACHABLE] = "unreachable", [GATE_OUT_OF_BOUNDS] = "out-of-bounds", [GATE_UNDEFINED_ELEMENT] = "undefined-element",
    [GATE_UNINITIALIZED_ELEMENT] = "uninitialized-element", [GATE_TYPE_MISMATCH] = "type-mismatch",
    [GATE_DIVIDE_BY_ZERO] = "divide-by-zero", [GATE_INTEGER_OVERFLOW] = "integer-overflow",
};

static const char *const NOT_STARTED[] = {
    [GATE_HAS_IMPORTS] = "imports", [GATE_HAS_FLOATS] = "floats", [GATE_TABLE_LIMIT] = "table-limit",
    [GATE_MEMORY_LIMIT] = "memory-limit", [GATE_ELEMENT_OUTSIDE] = "element-outside", [GATE_DATA_OUTSIDE] = "data-outside",
};

void print_end(const gate_call *ended) {
    fputs(ENDS[ended->end], stdout);
    if (ended->end == GATE_TRAP) printf(" %s", TRAPS[ended->reason]);
    if (ended->end == GATE_NOT_STARTED) printf(" %s", NOT_STARTED[ended->reason]);
    if (ended->end == GATE_NOT_STARTED && ended->reason >= GATE_ELEMENT_OUTSIDE) printf(" %" PRIu32, ended->place);
}

void print_fuel(const gate_call *ended) {
    if (ended->end <= GATE_OUT_OF_FRAMES) printf(" fuel %" PRIu32, ended->fuel);
}
