/* worker MODULE [--fuel N] [--frames N] [--pages N] [--keep]    a process for one plug-in, which a host can end at a deadline.
 *
 * It reads texts on standard input, and writes an answer to each on standard output. A text is a line with its length in decimal digits,
 * and then its bytes. An answer is a line, in the words of a report (docs/FORMATS.md), and after `values LENGTH fuel K` that many bytes.
 * README.md has all lines and statuses. Each text has a fresh plug-in; with --keep it goes on, until an answer is not `values`.
 */
#include "ends.h"
#include "files.h"
#include "gate.h"
#include "plugin.h"
#include <inttypes.h>
#include <stdio.h>
#include <stdlib.h>
#include <string.h>

/* No memory has more bytes than the most pages have. */
enum { MOST_TEXT = 1024 * 65536, LONGEST_LINE = 64, BAD_FRAME = 3 };

static const char USAGE[] = "usage: worker MODULE [--fuel N] [--frames N] [--pages N] [--keep]";

/* What was read: a text, or that standard input ended before one, or what is wrong. */
typedef enum frame { TEXT, NONE, NO_LENGTH, TOO_LARGE, CUT_SHORT } frame;

static const char *const FAULTS[] = { [NO_LENGTH] = "length", [TOO_LARGE] = "too-large", [CUT_SHORT] = "cut-short" };

typedef struct worker {
    gate_settings limits;
    bool keeps;
    gate_verdict verdict;
    gate_module module; /* { NULL } where it is refused */
    gate_instance plug_in;
    bool is_ready;
    gate_call started; /* where no instance is ready: why */
} worker;

static void take_options(worker *it, char **words) {
    for (; *words; words++) {
        const char *word = *words, *next = words[1] ? words[1] : "";
        if (!strcmp(word, "--keep"))
            it->keeps = true;
        else if (!strcmp(word, "--fuel"))
            it->limits.fuel = number_of(next, 1000000000), words++;
        else if (!strcmp(word, "--frames"))
            it->limits.frames = number_of(next, 4096), words++;
        else if (!strcmp(word, "--pages"))
            it->limits.pages = number_of(next, 1024), words++;
        else
            end(WRONG_WORDS, USAGE, "");
    }
}

/* Makes the instance, or makes it anew. */
static void renew(worker *it) {
    uint32_t status = it->plug_in.at ? gate_instance_reset(it->plug_in, &it->started)
                                     : gate_instance_new(it->module, &it->limits, &it->plug_in, &it->started);
    if (status == GATE_BAD_ARGUMENT) end(WRONG_WORDS, "a limit is out of its range", "");
    if (status == GATE_NO_MEMORY) it->started = (gate_call){ .end = GATE_CALL_NO_MEMORY };
    it->is_ready = status == GATE_OK;
}

/* Reads a line with a length. */
static frame read_length(uint32_t *length) {
    int count = 0, first = getchar(), byte = first;
    *length = 0;
    for (; byte >= '0' && byte <= '9' && *length <= MOST_TEXT; byte = getchar(), count++) *length = 10 * *length + (uint32_t)(byte - '0');
    if (*length > MOST_TEXT) return TOO_LARGE;
    if (byte == EOF) return count ? CUT_SHORT : NONE;
    return byte == '\n' && count && (first != '0' || count == 1) ? TEXT : NO_LENGTH;
}

/* Reads a text, which is freed by who asked, also where there is none. */
static frame read_text(bytes *text) {
    uint32_t length;
    *text = (bytes){ NULL, 0 };
    frame found = read_length(&length);
    if (found == TEXT) {
        *text = (bytes){ room(NULL, length, 1), length };
        if (fread(text->at, 1, length, stdin) != length) found = CUT_SHORT;
    }
    if (ferror(stdin)) end(NO_FILE, "cannot read ", "standard input");
    return found;
}

/* Answers from the instance; whether by values. */
static bool answer_by_call(const worker *it, bytes text) {
    request asked = { .plug_in = it->plug_in, .limits = it->limits };
    bool is_answered = ask(&asked, text);
    if (is_answered) {
        printf("values %zu fuel %" PRIu32 "\n", asked.answer.length, asked.ended.fuel);
        print(asked.answer.at, asked.answer.length);
    } else {
        print_why(&asked);
    }
    free(asked.answer.at);
    return is_answered;
}

/* Answers why there is no instance. */
static void answer_by_start(const worker *it) {
    uint8_t line[LONGEST_LINE];
    size_t length = 0;
    if (it->module.at) {
        print_end(&it->started);
        print_fuel(&it->started);
        putchar('\n');
    } else if (gate_verdict_line(&it->verdict, line, sizeof line, &length) == GATE_OK) {
        print(line, length);
    }
}

/* Answers a text, and makes the plug-in fresh for the next one. */
static void serve(worker *it, bytes text) {
    bool is_answered = it->is_ready && answer_by_call(it, text);
    if (!it->is_ready) answer_by_start(it);
    flush();
    if (it->module.at && !(is_answered && it->keeps)) renew(it);
}

/* Answers the texts of standard input; whether it ended after one. Past a wrong frame nobody knows where the next one begins. */
static bool serve_all(worker *it) {
    for (;;) {
        bytes text;
        frame found = read_text(&text);
        if (found == TEXT) serve(it, text);
        free(text.at);
        if (found > NONE) printf("bad-frame %s\n", FAULTS[found]);
        if (found != TEXT) return found == NONE;
    }
}

int main(int count, char **words) {
    if (count < 2) end(WRONG_WORDS, USAGE, "");
    worker it = { .limits = { .fuel = 1000000, .frames = 1024, .pages = 256 } };
    take_options(&it, words + 2);
    bytes file = bytes_of(words[1]);
    uint32_t status = gate_module_new(file.at, file.length, &it.verdict, &it.module);
    if (status == GATE_NO_MEMORY) end(GATE_NO_MEMORY, "no memory", "");
    if (status == GATE_OK) renew(&it);
    if (!serve_all(&it)) status = BAD_FRAME;
    gate_instance_drop(it.plug_in);
    gate_module_drop(it.module);
    free(file.at);
    flush();
    return (int)status;
}
