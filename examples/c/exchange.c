/* exchange MODULE TEXT FUEL [KEY=VALUE ..]    hands a text to a plug-in that may ask for more, as examples/guests/greet.wasm does:
 *
 *     $ ./exchange examples/guests/greet.wasm Hello 1000 name=World
 *     Hello World
 *
 * An answer that begins with `?` is a wish: it names a key, and the plug-in is called again with the key's value. Any other is the last
 * one, and is printed without its first byte. All calls together have FUEL. Ends with 1 where there is no last answer, and with 2 where
 * there is no plug-in. */
#include "files.h"
#include "gate.h"
#include "plugin.h"
#include <stdio.h>
#include <stdlib.h>
#include <string.h>

/* The value of a key among words KEY=VALUE; empty where there is none. */
static bytes value_of(bytes key, char **words, int count) {
    for (int i = 0; i < count; i++) {
        size_t length = strcspn(words[i], "=");
        if (words[i][length] && length == key.length && !memcmp(words[i], key.at, length))
            return (bytes){ (uint8_t *)&words[i][length + 1], strlen(&words[i][length + 1]) };
    }
    return (bytes){ NULL, 0 };
}

/* Calls the plug-in until it has its last answer, without a reset between: it keeps in its memory how far it is. */
static bool exchange(request *it, bytes text, char **words, int count) {
    while (ask(it, text)) {
        if (it->answer.length == 0 || *it->answer.at != '?') return true;
        text = value_of((bytes){ it->answer.at + 1, it->answer.length - 1 }, words, count);
        free(it->answer.at);
        it->answer = (bytes){ NULL, 0 };
    }
    return false;
}

static void print_last(const request *it, bool is_answered) {
    if (!is_answered) {
        print_why(it);
        return;
    }
    if (it->answer.length) print(it->answer.at + 1, it->answer.length - 1);
    puts("");
}

int main(int count, char **words) {
    if (count < 4) end(WRONG_WORDS, "usage: exchange MODULE TEXT FUEL [KEY=VALUE ..]", "");
    bytes file = bytes_of(words[1]);
    gate_verdict verdict;
    gate_module module;
    request it = { .limits = { .fuel = number_of(words[3], 1000000000), .frames = 1024, .pages = 32 } };
    if (gate_module_new(file.at, file.length, &verdict, &module) != GATE_OK) end(GATE_MODULE_REFUSED, "no module: ", words[1]);
    if (gate_instance_new(module, &it.limits, &it.plug_in, &it.ended) != GATE_OK) end(GATE_MODULE_REFUSED, "no instance: ", words[1]);
    gate_module_free(module);
    bool is_answered = exchange(&it, (bytes){ (uint8_t *)words[2], strlen(words[2]) }, &words[4], count - 4);
    print_last(&it, is_answered);
    free(it.answer.at);
    gate_instance_free(it.plug_in);
    free(file.at);
    flush();
    return !is_answered;
}
