/* Refuses each request for memory of each function of gate.h in turn: it has to answer as it does with all of them, or GATE_NO_MEMORY with
 * nothing written, and no block may be left. The handle of a module is used on after each refusal.
 * usage: refuse_through_c <LIST    a line of LIST has the words MODULE CALLS FUEL FRAMES PAGES, the first two being files
 * Linked with -Wl,--wrap=malloc,--wrap=realloc,--wrap=free. Writes each report in which a call ran out of memory after the report that
 * has all of it, both ended by a NUL, and at last how many requests were refused and how many of them were answered by no memory. What is
 * wrong stands on standard error, and it ends with 1 then. */
#include "gate.h"
#include <stdbool.h>
#include <stdio.h>
#include <stdlib.h>
#include <string.h>

enum { ROOM = 1 << 16, MOST_VALUES = 16, UNTOUCHED = 0x5A, NOT_WRITTEN = 77 };

void *__real_malloc(size_t size);
void *__real_realloc(void *block, size_t size);
void __real_free(void *block);
void *__wrap_malloc(size_t size);
void *__wrap_realloc(void *block, size_t size);
void __wrap_free(void *block);

static long asked, refused, blocks;

void *__wrap_malloc(size_t size) {
    void *block = ++asked == refused ? NULL : __real_malloc(size);
    blocks += block != NULL;
    return block;
}

void *__wrap_realloc(void *old, size_t size) {
    void *block = ++asked == refused ? NULL : __real_realloc(old, size);
    blocks += block && !old;
    return block;
}

void __wrap_free(void *block) {
    blocks -= block != NULL;
    __real_free(block);
}

typedef struct text {
    uint8_t *at;
    size_t length;
} text;

typedef struct task {
    const char *path;
    text bytes, calls;
    gate_settings settings;
    gate_verdict verdict;
    gate_module module;
    text name; /* of the first call */
    gate_value args[MOST_VALUES];
    size_t args_count;
} task;

/* What a function wrote, and what of it counts. */
typedef struct answer {
    uint32_t status;
    size_t length;
    union {
        uint8_t text[ROOM];
        gate_verdict verdict;
        gate_explanation explanation;
        struct {
            gate_call ended;
            gate_value results[MOST_VALUES];
        } call;
    } as;
    gate_module module;
    gate_report kept;
} answer;

typedef void play(const task *, answer *);

/* What stands between two fields of a struct counts for nothing. */
static void clear_gap(uint32_t *before) { memset(before + 1, UNTOUCHED, sizeof *before); }

static void play_check(const task *it, answer *got) {
    got->status = gate_check(it->bytes.at, it->bytes.length, &got->as.verdict);
    clear_gap(&got->as.verdict.function);
}

static void play_explain(const task *it, answer *got) {
    got->status = gate_explain(it->bytes.at, it->bytes.length, &got->as.explanation);
    clear_gap(&got->as.explanation.verdict.function);
    clear_gap(&got->as.explanation.opcode);
}

static void play_explain_text(const task *it, answer *got) {
    got->status = gate_explain_text(it->bytes.at, it->bytes.length, got->as.text, ROOM, &got->length);
}

static void play_line(const task *it, answer *got) {
    got->status = gate_verdict_line(&it->verdict, got->as.text, ROOM, &got->length);
}

static void play_run(const task *it, answer *got) {
    got->status = gate_run(it->bytes.at, it->bytes.length, it->calls.at, it->calls.length, &it->settings, got->as.text, ROOM, &got->length,
                           &got->kept);
}

static void read_kept(answer *got) {
    if (got->status != GATE_SHORT_BUFFER) return;
    got->status = gate_report_read(got->kept, got->as.text, ROOM, &got->length);
    gate_report_free(got->kept);
}

static void play_run_short(const task *it, answer *got) {
    got->status = gate_run(it->bytes.at, it->bytes.length, it->calls.at, it->calls.length, &it->settings, NULL, 0, &got->length,
                           &got->kept);
    read_kept(got);
}

static void play_new(const task *it, answer *got) {
    got->status = gate_module_new(it->bytes.at, it->bytes.length, &got->as.verdict, &got->module);
    clear_gap(&got->as.verdict.function);
    if (got->status == GATE_OK) gate_module_free(got->module);
}

static void play_share(const task *it, answer *got) {
    got->status = gate_module_share(it->module, &got->module);
    if (got->status == GATE_OK) gate_module_free(got->module);
}

static void play_module_run(const task *it, answer *got) {
    got->status = gate_module_run(it->module, it->calls.at, it->calls.length, &it->settings, got->as.text, ROOM, &got->length, &got->kept);
}

static void play_module_run_short(const task *it, answer *got) {
    got->status = gate_module_run(it->module, it->calls.at, it->calls.length, &it->settings, NULL, 0, &got->length, &got->kept);
    read_kept(got);
}

static void play_call(const task *it, answer *got) {
    got->status = gate_module_call(it->module, it->name.at, it->name.length, it->args, it->args_count, &it->settings, got->as.call.results,
                                   MOST_VALUES, &got->as.call.ended);
    for (size_t i = 0; i < MOST_VALUES; i++) clear_gap(&got->as.call.results[i].width);
}

static void play_starts(const task *it, answer *got) {
    got->status = gate_module_starts(it->module, &it->settings, &got->as.call.ended);
}

/* An instance. Where there is none, its end counts. */
static bool is_begun(const task *it, answer *got, gate_instance *instance) {
    gate_call begun;
    got->status = gate_instance_new(it->module, &it->settings, instance, &begun);
    if (got->status == GATE_NO_INSTANCE) got->as.call.ended = begun;
    return got->status == GATE_OK;
}

static void end(answer *got, gate_instance instance) {
    for (size_t i = 0; i < MOST_VALUES; i++) clear_gap(&got->as.call.results[i].width);
    gate_instance_free(instance);
}

static void play_instance(const task *it, answer *got) {
    gate_instance instance;
    if (!is_begun(it, got, &instance)) return;
    got->status = gate_instance_call(instance, it->name.at, it->name.length, it->args, it->args_count, &it->settings, got->as.call.results,
                                     MOST_VALUES, &got->as.call.ended);
    end(got, instance);
}

static void play_number(const task *it, answer *got) {
    gate_instance instance;
    uint64_t number = UINT64_MAX;
    if (!is_begun(it, got, &instance)) return;
    const uint32_t found = gate_instance_find(instance, it->name.at, it->name.length, &number);
    got->status = gate_instance_call_at(instance, number, it->args, it->args_count, &it->settings, got->as.call.results, MOST_VALUES,
                                        &got->as.call.ended);
    if (found != (number == UINT64_MAX ? GATE_NOTHING : GATE_OK)) got->status = found;
    end(got, instance);
}

/* The questions that take no memory. */
static void play_questions(const task *it, answer *got) {
    gate_export found = { 0, 0, 0, 0 };
    const uint64_t count = gate_module_export_count(it->module);
    got->status = gate_module_find(it->module, it->name.at, it->name.length, &found);
    if (got->status == GATE_OK && found.kind == GATE_EXPORT_FUNCTION && found.params + found.results <= ROOM)
        got->status = gate_module_types(it->module, found.index, got->as.text, found.params, got->as.text + found.params, found.results);
    if (count && gate_module_export(it->module, count - 1, &found) != GATE_OK) got->status = GATE_NO_MEMORY;
    if (count && gate_module_export_name(it->module, count - 1, got->as.text, ROOM, &got->length) != GATE_OK) got->status = GATE_NO_MEMORY;
    if (asked) got->status = GATE_NO_MEMORY;
}

typedef struct game {
    const char *name;
    play *play;
    bool needs_module, has_report;
} game;

static const game GAMES[] = {
    { "gate_check", play_check, false, false },
    { "gate_explain", play_explain, false, false },
    { "gate_explain_text", play_explain_text, false, false },
    { "gate_verdict_line", play_line, false, false },
    { "gate_run", play_run, false, true },
    { "gate_run, no room", play_run_short, false, true },
    { "gate_module_new", play_new, false, false },
    { "gate_module_share", play_share, true, false },
    { "gate_module_run", play_module_run, true, true },
    { "gate_module_run, no room", play_module_run_short, true, true },
    { "gate_module_call", play_call, true, false },
    { "gate_module_starts", play_starts, true, false },
    { "gate_instance_new, gate_instance_call", play_instance, true, false },
    { "gate_instance_new, gate_instance_call_at", play_number, true, false },
    { "gate_module_export and the like", play_questions, true, false },
};

static long tried, none, wrong;

static void blame(const task *it, const game *of, const char *what) {
    wrong++;
    fprintf(stderr, "refuse_through_c: %s, %s, request %ld: %s\n", it->path, of->name, refused, what);
}

static void clear(answer *got) {
    memset(&got->as, UNTOUCHED, sizeof got->as);
    got->status = got->length = NOT_WRITTEN;
    got->module.at = got->kept.at = got;
}

static bool is_cleared(const answer *got) {
    const uint8_t *at = got->as.text;
    bool is_same = got->length == NOT_WRITTEN && got->module.at == got && got->kept.at == got;
    return is_same && at[0] == UNTOUCHED && !memcmp(at, at + 1, sizeof got->as - 1);
}

/* Plays once. Whatever the answer, no block is left. */
static void turn(const task *it, const game *of, answer *got) {
    clear(got);
    asked = blocks = 0;
    of->play(it, got);
    if (blocks) blame(it, of, "blocks are left");
}

static bool is_same(const answer *one, const answer *other) {
    return one->status == other->status && one->length == other->length && !memcmp(&one->as, &other->as, sizeof one->as);
}

/* A call that ran out of memory by itself. */
static bool is_short_call(const game *of, const answer *got) {
    const gate_call *it = &got->as.call.ended;
    const bool has_instance = of->play == play_instance || of->play == play_number;
    const bool is_call = of->play == play_call || of->play == play_starts || has_instance;
    const bool is_told = got->status == GATE_OK || (got->status == GATE_NO_INSTANCE && has_instance);
    return is_call && is_told && it->end == GATE_CALL_NO_MEMORY && !it->reason && !it->place && !it->results;
}

static void write_report(const answer *got) {
    fwrite(got->as.text, 1, got->length, stdout);
    putchar(0);
}

static void judge(const task *it, const game *of, const answer *wanted, const answer *got, answer *last) {
    tried++;
    if (got->status == GATE_NO_MEMORY) {
        none++;
        if (!is_cleared(got)) blame(it, of, "something is written");
    } else if (is_same(wanted, got) || is_short_call(of, got)) {
        return;
    } else if (of->has_report && got->status == GATE_OK && wanted->status == GATE_OK) {
        if (is_same(last, got)) return;
        write_report(wanted);
        write_report(got);
        *last = *got;
    } else {
        blame(it, of, "another answer");
    }
}

static void refuse_each(const task *it, const game *of) {
    static answer wanted, got, last;
    refused = 0;
    turn(it, of, &wanted);
    long requests = asked;
    if (wanted.status == GATE_NO_MEMORY || wanted.status == GATE_SHORT_BUFFER) blame(it, of, "no answer");
    clear(&last);
    for (refused = 1; refused <= requests; refused++) {
        turn(it, of, &got);
        judge(it, of, &wanted, &got, &last);
    }
    refused = 0;
}

static text bytes_of(const char *path) {
    static uint8_t room[ROOM];
    FILE *file = fopen(path, "rb");
    text read = { NULL, file ? fread(room, 1, ROOM, file) : ROOM };
    if (read.length < ROOM) read.at = __real_malloc(read.length + 1);
    if (!read.at || fclose(file)) {
        fprintf(stderr, "refuse_through_c: cannot read %s\n", path);
        exit(1);
    }
    memcpy(read.at, room, read.length);
    read.at[read.length] = 0;
    return read;
}

/* The name of the first call, and its arguments. */
static void read_call(task *it) {
    char *at = (char *)it->calls.at;
    it->name = (text){ it->calls.at, strcspn(at, "\t\n") };
    for (at += it->name.length; *at == '\t' && it->args_count < MOST_VALUES; it->args_count++) {
        bool is_32 = !strncmp(at, "\ti32:", 5);
        uint64_t number = (uint64_t)strtoll(at + 5, &at, 10);
        it->args[it->args_count] = is_32 ? (gate_value){ 32, (uint32_t)number } : (gate_value){ 64, number };
    }
}

static void play_all(task *it) {
    read_call(it);
    gate_check(it->bytes.at, it->bytes.length, &it->verdict);
    gate_verdict verdict;
    bool is_module = gate_module_new(it->bytes.at, it->bytes.length, &verdict, &it->module) == GATE_OK;
    for (size_t i = 0; i < sizeof GAMES / sizeof *GAMES; i++)
        if (is_module || !GAMES[i].needs_module) refuse_each(it, &GAMES[i]);
    if (is_module) gate_module_free(it->module);
}

int main(void) {
    char path[512], calls[512];
    gate_settings settings;
    while (scanf("%511s %511s %u %u %u", path, calls, &settings.fuel, &settings.frames, &settings.pages) == 5) {
        task it = { .path = path, .bytes = bytes_of(path), .calls = bytes_of(calls), .settings = settings };
        play_all(&it);
        __real_free(it.bytes.at);
        __real_free(it.calls.at);
    }
    printf("%ld %ld\n", tried, none);
    return wrong != 0;
}
