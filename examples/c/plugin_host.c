/* plugin_host MODULE TEXT..    hands texts to a plug-in that keeps the convention of docs/GUESTS.md, and prints its answers. Ends with 1
 * where a text has no answer, and with 2 where there is no plug-in. */
#include "files.h"
#include "gate.h"
#include "plugin.h"
#include <stdio.h>
#include <stdlib.h>
#include <string.h>

static const gate_settings SETTINGS = { .fuel = 1000000, .frames = 1024, .pages = 32 };

/* Prints the answer to a text, or why there is none; whether there is one. */
static bool print_answer(gate_instance plug_in, char *text) {
    request it = { .plug_in = plug_in, .limits = SETTINGS };
    bool is_answered = ask(&it, (bytes){ (uint8_t *)text, strlen(text) });
    if (is_answered) {
        print(it.answer.at, it.answer.length);
        puts("");
    } else if (it.fault == NO_ANSWER) {
        puts("no answer");
    } else {
        fputs("fault: ", stdout);
        print_why(&it);
    }
    free(it.answer.at);
    return is_answered;
}

int main(int count, char **words) {
    if (count < 2) end(WRONG_WORDS, "usage: plugin_host MODULE TEXT..", "");
    bytes file = bytes_of(words[1]);
    gate_verdict verdict;
    gate_module module;
    gate_instance plug_in;
    gate_call ended;
    if (gate_module_new(file.at, file.length, &verdict, &module) != GATE_OK) end(GATE_MODULE_REFUSED, "no module: ", words[1]);
    if (gate_instance_new(module, &SETTINGS, &plug_in, &ended) != GATE_OK) end(GATE_MODULE_REFUSED, "no instance: ", words[1]);
    gate_module_free(module);
    int status = 0;
    for (int i = 2; i < count; i++) {
        if (!print_answer(plug_in, words[i])) status = 1;
        if (gate_instance_reset(plug_in, &ended) != GATE_OK) end(GATE_NO_MEMORY, "no memory", ""); /* all its room, for each text */
    }
    gate_instance_free(plug_in);
    free(file.at);
    flush();
    return status;
}
