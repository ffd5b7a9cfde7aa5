/* Each wrong use of the library that debug/gate_debug.h is to find, in a process of its own: it has to end by abort(), and to say where the
 * call stands, and what is wrong.
 * usage: wrong_uses     made with GATE_DEBUG; with AddressSanitizer there are more of them
 * Prints each wrong use that was not told so, and ends with 1 then; else how many were told. */
#define _GNU_SOURCE
#include "gate.h"
#include <pthread.h>
#include <signal.h>
#include <stdatomic.h>
#include <stdbool.h>
#include <stdio.h>
#include <stdlib.h>
#include <string.h>
#include <sys/mman.h>
#include <sys/wait.h>
#include <unistd.h>

#if defined __SANITIZE_ADDRESS__
#define HAS_SANITIZER 1
#elif defined __has_feature
#if __has_feature(address_sanitizer)
#define HAS_SANITIZER 1
#endif
#endif

/* Says on standard error what gate_debug has to say there next, and makes the call. */
#define WRONG(words, call) WRONG_ONCE(true, words, call)
#define WRONG_ONCE(says, words, call) ((says ? fprintf(stderr, "%s:%d: %s\n", __FILE__, __LINE__, words) : 0), (void)(call))
#define CALL(module, name) gate_module_call(module, (const uint8_t *)name, strlen(name), NULL, 0, &USUAL, NULL, 0, &ended)
#define TWO_CALLS "gate_module_call: the module is in another call at this moment"
#define COUNT_OF(items) (sizeof(items) / sizeof *(items))

enum { ROOM = 4096 };

/* One function of type [] -> [], exported as f, whose loop ends when the fuel does. */
static const uint8_t LOOP[] = { 0, 'a', 's', 'm', 1, 0, 0, 0, 1, 4, 1, 0x60, 0, 0, 3, 2, 1, 0, 7, 5, 1, 1, 'f', 0, 0,
                                0x0A, 9, 1, 7, 0, 3, 0x40, 0x0C, 0, 0x0B, 0x0B };
static const gate_settings USUAL = { 1000000, 1024, 256 };

static uint8_t *bytes; /* those of LOOP, in pages of their own */
static gate_verdict verdict;
static gate_module module;
static gate_report kept;
static gate_call ended;
static uint8_t out[ROOM];
static size_t length;

static void null_module_freed(void) {
    gate_module none = { NULL };
    WRONG("gate_module_free: the module is { NULL }", gate_module_free(none));
}

static void null_report_freed(void) {
    gate_report none = { NULL };
    WRONG("gate_report_free: the report is { NULL }", gate_report_free(none));
}

static void null_instance_freed(void) {
    gate_instance none = { NULL };
    WRONG("gate_instance_free: the instance is { NULL }", gate_instance_free(none));
}

static void module_freed_twice(void) {
    gate_module_free(module);
    WRONG("gate_module_free: the module was freed before", gate_module_free(module));
}

static void report_freed_twice(void) {
    gate_report_drop(kept);
    WRONG("gate_report_drop: the report was freed before", gate_report_drop(kept));
}

static void called_after_free(void) {
    gate_module_drop(module);
    WRONG("gate_module_call: the module was freed before", CALL(module, "f"));
}

static void shared_after_free(void) {
    gate_module other;
    gate_module_free(module);
    WRONG("gate_module_share: the module was freed before", gate_module_share(module, &other));
}

static void read_after_free(void) {
    gate_report_free(kept);
    WRONG("gate_report_read: the report was freed before", gate_report_read(kept, out, ROOM, &length));
}

static void null_verdict(void) { WRONG("gate_check: verdict is null", gate_check(bytes, sizeof LOOP, NULL)); }

static void null_explanation(void) { WRONG("gate_explain: explanation is null", gate_explain(bytes, sizeof LOOP, NULL)); }

static void null_text(void) { WRONG("gate_explain_text: out is null", gate_explain_text(bytes, sizeof LOOP, NULL, ROOM, &length)); }

static void null_bytes(void) { WRONG("gate_check: bytes is null", gate_check(NULL, 8, &verdict)); }

static void null_settings(void) {
    WRONG("gate_run: settings is null", gate_run(bytes, sizeof LOOP, NULL, 0, NULL, out, ROOM, &length, &kept));
}

static void counted_after_free(void) {
    gate_module_free(module);
    WRONG("gate_module_export_count: the module was freed before", gate_module_export_count(module));
}

static void measured_after_free(void) {
    gate_module_free(module);
    WRONG("gate_module_size: the module was freed before", gate_module_size(module));
}

static void null_length_of_a_build(void) { WRONG("gate_build: length is null", gate_build(out, ROOM, NULL)); }

static void instance_called_after_free(void) {
    gate_instance it = { NULL };
    if (gate_instance_new(module, &USUAL, &it, &ended) != GATE_OK) return;
    gate_module_free(module);
    gate_instance_free(it);
    WRONG("gate_instance_call: the instance was freed before", gate_instance_call(it, bytes, 1, NULL, 0, &USUAL, NULL, 0, &ended));
}

static void null_number(void) {
    gate_instance it = { NULL };
    if (gate_instance_new(module, &USUAL, &it, &ended) != GATE_OK) return;
    WRONG("gate_instance_find: number is null", gate_instance_find(it, bytes, 1, NULL));
}

static void null_end_of_a_number(void) {
    gate_instance it = { NULL };
    if (gate_instance_new(module, &USUAL, &it, &ended) != GATE_OK) return;
    WRONG("gate_instance_call_at: ended is null", gate_instance_call_at(it, 0, NULL, 0, &USUAL, NULL, 0, NULL));
}

static void null_bytes_written(void) {
    gate_instance it = { NULL };
    if (gate_instance_new(module, &USUAL, &it, &ended) != GATE_OK) return;
    WRONG("gate_instance_write: bytes is null", gate_instance_write(it, 0, NULL, 8));
}

static void null_found(void) { WRONG("gate_module_find: found is null", gate_module_find(module, bytes, 1, NULL)); }

static void types_in_one_place(void) {
    WRONG("gate_module_types: results overlaps something else of the call", gate_module_types(module, 0, out, 8, out + 4, 8));
}

static void null_line(void) { WRONG("gate_verdict_line: out is null", gate_verdict_line(&verdict, NULL, ROOM, &length)); }

static void length_within_out(void) {
    size_t both[8];
    uint8_t *at = (uint8_t *)both;
    WRONG("gate_run: length overlaps something else of the call", gate_run(LOOP, 8, NULL, 0, &USUAL, at, 64, &both[2], &kept));
}

static void out_within_module(void) {
    uint8_t *at = bytes + sizeof LOOP - 1;
    WRONG("gate_module_run: out overlaps something else of the call", gate_module_run(module, NULL, 0, &USUAL, at, 1, &length, &kept));
}

static void verdict_within_bytes(void) {
    gate_verdict *at = (gate_verdict *)bytes;
    WRONG("gate_module_new: verdict overlaps something else of the call", gate_module_new(bytes, sizeof LOOP, at, &module));
}

static void misaligned(void) {
    gate_verdict *at = (gate_verdict *)(bytes + 1);
    WRONG("gate_check: verdict is not aligned", gate_check(LOOP, sizeof LOOP, at));
}

static void too_long(void) {
    const size_t count = SIZE_MAX / sizeof(gate_value) + 2;
    gate_value one = gate_i32(1);
    WRONG("gate_module_call: args is 2^63 bytes or longer", gate_module_call(module, bytes, 1, &one, count, &USUAL, NULL, 0, &ended));
}

static void bytes_unmapped(void) {
    munmap(bytes, ROOM);
    WRONG("gate_module_call: the module has bytes that were changed or freed", CALL(module, "f"));
}

static void calls_unmapped(void) {
    munmap(bytes, ROOM);
    WRONG("gate_run: calls is not mapped in its whole length", gate_run(LOOP, 8, bytes, 2, &USUAL, out, ROOM, &length, &kept));
}

static void bytes_changed(void) {
    bytes[sizeof LOOP - 1] ^= 1;
    WRONG("gate_module_call: the module has bytes that were changed or freed", CALL(module, "f"));
}

static void own_handle(void) {
    gate_module own = { out };
    WRONG("gate_module_call: the module is none that the library wrote", CALL(own, "f"));
}

static void other_handle(void) {
    gate_report other = { module.at };
    WRONG("gate_report_read: the report is none that the library wrote", gate_report_read(other, out, ROOM, &length));
}

/* A call that takes seconds. Of two threads with the same handle the first says what is to be told, before it calls; the later in the call
 * is told. */
static void *call_long(void *unused) {
    static const gate_settings most = { 1000000000, 1, 0 };
    static atomic_flag is_said = ATOMIC_FLAG_INIT;
    const bool says = !atomic_flag_test_and_set(&is_said);
    const uint8_t *name = (const uint8_t *)"f";
    gate_call last;
    WRONG_ONCE(says, TWO_CALLS, gate_module_call(module, name, 1, NULL, 0, &most, NULL, 0, &last));
    return unused;
}

static void two_threads(void) {
    pthread_t other;
    if (pthread_create(&other, NULL, call_long, NULL)) exit(1);
    call_long(NULL);
}

#ifdef HAS_SANITIZER
static void out_shorter(void) {
    uint8_t *few = malloc(4);
    WRONG("gate_run: out is shorter than told, or freed", gate_run(bytes, sizeof LOOP, NULL, 0, &USUAL, few, ROOM, &length, &kept));
}

static void bytes_freed(void) {
    uint8_t *block = malloc(sizeof LOOP);
    memcpy(block, LOOP, sizeof LOOP);
    if (gate_module_new(block, sizeof LOOP, &verdict, &module)) exit(1);
    free(block);
    WRONG("gate_module_call: the module has bytes that were changed or freed", CALL(module, "f"));
}
#endif

static void (*const uses[])(void) = {
    null_module_freed, null_report_freed, null_instance_freed,
    module_freed_twice, report_freed_twice, called_after_free, shared_after_free, read_after_free,
    null_verdict, null_explanation, null_text, null_bytes, null_settings, null_line, length_within_out, out_within_module,
    verdict_within_bytes, misaligned, too_long, bytes_unmapped, calls_unmapped, bytes_changed, own_handle, other_handle, two_threads,
    counted_after_free, measured_after_free, null_length_of_a_build, null_found, types_in_one_place, instance_called_after_free,
    null_number, null_end_of_a_number, null_bytes_written,
#ifdef HAS_SANITIZER
    out_shorter, bytes_freed,
#endif
};

/* A module, and a report that is kept. */
static void prepare(void) {
    bytes = mmap(NULL, ROOM, PROT_READ | PROT_WRITE, MAP_PRIVATE | MAP_ANONYMOUS, -1, 0);
    if (bytes == MAP_FAILED) exit(1);
    memcpy(bytes, LOOP, sizeof LOOP);
    if (gate_module_new(bytes, sizeof LOOP, &verdict, &module) != GATE_OK) exit(1);
    if (gate_module_run(module, NULL, 0, &USUAL, NULL, 0, &length, &kept) != GATE_SHORT_BUFFER) exit(1);
}

/* What a process of a wrong use writes to standard error; how it ended. */
static int said_by(void (*use)(void), char *text, size_t room) {
    int ends[2], status = 0;
    if (pipe(ends)) exit(1);
    const pid_t child = fork();
    if (!child) {
        dup2(ends[1], STDERR_FILENO);
        use();
        _exit(0);
    }
    close(ends[1]);
    FILE *from = fdopen(ends[0], "r");
    text[from ? fread(text, 1, room - 1, from) : 0] = 0;
    if (from) fclose(from);
    waitpid(child, &status, 0);
    return status;
}

/* Whether the first two lines are the same, and there is no third. */
static bool is_told(const char *text) {
    const char *second = strchr(text, '\n');
    const size_t line = second ? (size_t)(second - text) + 1 : 0;
    return line && strlen(text) == 2 * line && !memcmp(text, text + line, line);
}

int main(void) {
    unsigned failed = 0;
    prepare();
    for (size_t i = 0; i < COUNT_OF(uses); i++) {
        char text[ROOM];
        const int status = said_by(uses[i], text, sizeof text);
        if (WIFSIGNALED(status) && WTERMSIG(status) == SIGABRT && is_told(text)) continue;
        printf("wrong_uses: number %zu ended with %d: %s\n", i, status, text);
        failed++;
    }
    gate_report_free(kept);
    gate_module_free(module);
    if (!failed) printf("%zu\n", COUNT_OF(uses));
    return failed != 0;
}
