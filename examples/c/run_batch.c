/* Judges a module and runs the calls of a text: what `gate run` prints, and its status.
 * usage: run_batch MODULE CALLS FUEL FRAMES PAGES */
#include "files.h"
#include "gate.h"
#include <stdlib.h>

/* The answer has to fit into this at first, and else it is kept. */
enum { SMALL = 128 };

/* Prints an answer that was kept, and frees it. */
static uint32_t print_kept(gate_report kept, size_t length) {
    uint8_t *text = room(NULL, length, 1);
    uint32_t status = gate_report_read(kept, text, length, &length);
    gate_report_free(kept);
    print(text, length);
    free(text);
    return status;
}

static uint32_t run(bytes module, bytes calls, const gate_settings *settings) {
    uint8_t text[SMALL];
    size_t length = 0;
    gate_report kept;
    uint32_t status = gate_run(module.at, module.length, calls.at, calls.length, settings, text, sizeof text, &length, &kept);
    switch (status) {
    case GATE_SHORT_BUFFER: return print_kept(kept, length);
    case GATE_BAD_ARGUMENT: end(WRONG_WORDS, "a limit is out of its range", "");
    case GATE_NO_MEMORY: end(GATE_NO_MEMORY, "no memory", "");
    default: print(text, length); return status;
    }
}

int main(int count, char **words) {
    if (count != 6) end(WRONG_WORDS, "usage: run_batch MODULE CALLS FUEL FRAMES PAGES", "");
    gate_settings settings = {
        .fuel = number_of(words[3], UINT32_MAX),
        .frames = number_of(words[4], UINT32_MAX),
        .pages = number_of(words[5], UINT32_MAX),
    };
    bytes module = bytes_of(words[1]), calls = bytes_of(words[2]);
    uint32_t status = run(module, calls, &settings);
    flush();
    free(module.at);
    free(calls.at);
    return (int)status;
}
