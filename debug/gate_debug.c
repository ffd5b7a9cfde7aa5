/* The functions that gate_debug.h puts before those of the library. A name in parentheses, as (gate_check), is the library's own. */
#define _DEFAULT_SOURCE
#include "gate_debug.h"
#include <errno.h>
#include <pthread.h>
#include <stdbool.h>
#include <stdio.h>
#include <stdlib.h>
#include <sys/mman.h>
#include <unistd.h>

#if defined __SANITIZE_ADDRESS__
#define HAS_SANITIZER 1
#elif defined __has_feature
#if __has_feature(address_sanitizer)
#define HAS_SANITIZER 1
#endif
#endif
#ifdef HAS_SANITIZER
#include <sanitizer/asan_interface.h>
#endif

#define LONGEST ((size_t)INT64_MAX)
#define COUNT_OF(items) (sizeof(items) / sizeof *(items))

/* Where a call stands. */
typedef struct site {
    const char *file;
    int line;
    const char *function;
} site;

/* What a call reads or writes at a pointer. */
typedef struct area {
    const char *name;
    const void *at;
    size_t count, size, alignment;
    bool is_written;
} area;

#define READS(type, at, count) { #at, at, count, sizeof(type), _Alignof(type), false }
#define WRITES(type, at, count) { #at, at, count, sizeof(type), _Alignof(type), true }
#define READS_BYTES_OF(it) { "the module's own", (it)->bytes, (it)->length, 1, 1, false }

static _Noreturn void stop(site here, const char *what, const char *why) {
    fprintf(stderr, "%s:%d: %s: %s %s\n", here.file, here.line, here.function, what, why);
    abort();
}

/* Areas. */

static size_t bytes_of(const area *it) { return it->count * it->size; }

/* Of mincore only the error counts: ENOMEM where a page is none of the process. */
static bool is_mapped(const void *at, size_t length) {
    unsigned char resident[256];
    const uintptr_t page = (uintptr_t)sysconf(_SC_PAGESIZE), end = (uintptr_t)at + length, most = page * sizeof resident;
    uintptr_t from = (uintptr_t)at - (uintptr_t)at % page;
    for (; from < end; from += most)
        if (mincore((void *)from, end - from < most ? end - from : most, resident) && errno == ENOMEM) return false;
    return (uintptr_t)at <= end;
}

/* What AddressSanitizer knows of these bytes; without it nothing is. */
static bool is_poisoned(const void *at, size_t length) {
#ifdef HAS_SANITIZER
    return __asan_region_is_poisoned((void *)(uintptr_t)at, length) != NULL;
#else
    (void)at;
    (void)length;
    return false;
#endif
}

static void look_at_one(site here, const area *it) {
    if (it->count > LONGEST / it->size) stop(here, it->name, "is 2^63 bytes or longer");
    if ((uintptr_t)it->at % it->alignment) stop(here, it->name, "is not aligned");
    if (!it->count) return;
    if (!it->at) stop(here, it->name, "is null");
    if (!is_mapped(it->at, bytes_of(it))) stop(here, it->name, "is not mapped in its whole length");
    if (is_poisoned(it->at, bytes_of(it))) stop(here, it->name, "is shorter than told, or freed");
}

static bool is_overlap(const area *one, const area *other) {
    const uintptr_t at = (uintptr_t)one->at, there = (uintptr_t)other->at;
    return one->count && other->count && at < there + bytes_of(other) && there < at + bytes_of(one);
}

/* An area beside those before it in the list: where one of two is written, they lie apart. */
static void look_before(site here, const area *areas, const area *it) {
    for (const area *other = areas; other < it; other++)
        if ((it->is_written || other->is_written) && is_overlap(it, other))
            stop(here, it->is_written ? it->name : other->name, "overlaps something else of the call");
}

static void look_at(site here, const area *areas, size_t count) {
    for (const area *it = areas; it < areas + count; it++) {
        look_at_one(here, it);
        look_before(here, areas, it);
    }
}

/* Handles. */

static const char MODULE[] = "the module", REPORT[] = "the report", INSTANCE[] = "the instance";

typedef struct handle {
    const void *at;
    const char *kind; /* MODULE, REPORT or INSTANCE */
    bool is_called, is_freed;
    const uint8_t *bytes; /* of its module, with their sum when it was judged */
    size_t length;
    uint64_t sum;
    struct handle *next;
} handle;

/* Each address that the library gave as a handle, once. What changes in it, changes under the lock. */
static handle *handles;
static pthread_mutex_t lock = PTHREAD_MUTEX_INITIALIZER;

/* FNV-1a. */
static uint64_t sum_of(const uint8_t *bytes, size_t length) {
    uint64_t sum = UINT64_C(14695981039346656037);
    for (size_t i = 0; i < length; i++) sum = (sum ^ bytes[i]) * UINT64_C(1099511628211);
    return sum;
}

static handle *known(const void *at) {
    handle *it = handles;
    while (it && it->at != at) it = it->next;
    return it;
}

static handle *new_place(void) {
    handle *it = malloc(sizeof *it);
    if (!it) {
        fputs("gate_debug: no memory\n", stderr);
        abort();
    }
    it->next = handles;
    return handles = it;
}

/* Writes down a handle that the library gave, where an earlier one of the same address may stand. */
static void keep(handle given) {
    pthread_mutex_lock(&lock);
    handle *it = known(given.at);
    if (!it) it = new_place();
    given.next = it->next;
    *it = given;
    pthread_mutex_unlock(&lock);
}

static void look_at_handle(site here, const void *at, const handle *it, const char *kind) {
    if (!at) stop(here, kind, "is { NULL }");
    if (!it || it->kind != kind) stop(here, kind, "is none that the library wrote");
    if (it->is_freed) stop(here, kind, "was freed before");
    if (it->is_called) stop(here, kind, "is in another call at this moment");
}

static bool has_its_bytes(const handle *it) {
    if (!it->length) return true;
    return is_mapped(it->bytes, it->length) && !is_poisoned(it->bytes, it->length) && sum_of(it->bytes, it->length) == it->sum;
}

/* Begins a call with a handle. Where it is the last one, the library may give the same address anew before that call ends: so nothing
 * finishes it. */
static handle *begin(site here, const void *at, const char *kind, bool is_last) {
    pthread_mutex_lock(&lock);
    handle *it = known(at);
    look_at_handle(here, at, it, kind);
    it->is_called = true;
    pthread_mutex_unlock(&lock);
    if (!has_its_bytes(it)) stop(here, kind, "has bytes that were changed or freed");
    pthread_mutex_lock(&lock);
    it->is_freed = is_last;
    pthread_mutex_unlock(&lock);
    return it;
}

static void finish(handle *it) {
    pthread_mutex_lock(&lock);
    it->is_called = false;
    pthread_mutex_unlock(&lock);
}

static void keep_report(uint32_t status, const gate_report *kept) {
    if (status == GATE_SHORT_BUFFER) keep((handle){ .at = kept->at, .kind = REPORT });
}

/* The functions, in the order of gate.h. */

uint32_t gate_debug_check(const char *file, int line, const uint8_t *bytes, size_t bytes_length, gate_verdict *verdict) {
    const site here = { file, line, "gate_check" };
    const area areas[] = { READS(uint8_t, bytes, bytes_length), WRITES(gate_verdict, verdict, 1) };
    look_at(here, areas, COUNT_OF(areas));
    return (gate_check)(bytes, bytes_length, verdict);
}

uint32_t gate_debug_verdict_line(const char *file, int line, const gate_verdict *verdict, uint8_t *out, size_t room, size_t *length) {
    const site here = { file, line, "gate_verdict_line" };
    const area areas[] = { READS(gate_verdict, verdict, 1), WRITES(uint8_t, out, room), WRITES(size_t, length, 1) };
    look_at(here, areas, COUNT_OF(areas));
    return (gate_verdict_line)(verdict, out, room, length);
}

uint32_t gate_debug_build(const char *file, int line, uint8_t *out, size_t room, size_t *length) {
    const site here = { file, line, "gate_build" };
    const area areas[] = { WRITES(uint8_t, out, room), WRITES(size_t, length, 1) };
    look_at(here, areas, COUNT_OF(areas));
    return (gate_build)(out, room, length);
}

uint32_t gate_debug_explain(const char *file, int line, const uint8_t *bytes, size_t bytes_length, gate_explanation *explanation) {
    const site here = { file, line, "gate_explain" };
    const area areas[] = { READS(uint8_t, bytes, bytes_length), WRITES(gate_explanation, explanation, 1) };
    look_at(here, areas, COUNT_OF(areas));
    return (gate_explain)(bytes, bytes_length, explanation);
}

uint32_t gate_debug_explain_text(const char *file, int line, const uint8_t *bytes, size_t bytes_length, uint8_t *out, size_t room,
                                 size_t *length) {
    const site here = { file, line, "gate_explain_text" };
    const area areas[] = { READS(uint8_t, bytes, bytes_length), WRITES(uint8_t, out, room), WRITES(size_t, length, 1) };
    look_at(here, areas, COUNT_OF(areas));
    return (gate_explain_text)(bytes, bytes_length, out, room, length);
}

uint32_t gate_debug_exports_text(const char *file, int line, const uint8_t *bytes, size_t bytes_length, const gate_settings *settings,
                                 uint8_t *out, size_t room, size_t *length) {
    const site here = { file, line, "gate_exports_text" };
    const area areas[] = {
        READS(uint8_t, bytes, bytes_length), READS(gate_settings, settings, 1), WRITES(uint8_t, out, room), WRITES(size_t, length, 1),
    };
    look_at(here, areas, COUNT_OF(areas));
    return (gate_exports_text)(bytes, bytes_length, settings, out, room, length);
}

uint32_t gate_debug_run(const char *file, int line, const uint8_t *module, size_t module_length, const uint8_t *calls,
                        size_t calls_length, const gate_settings *settings, uint8_t *out, size_t room, size_t *length,
                        gate_report *kept) {
    const site here = { file, line, "gate_run" };
    const area areas[] = {
        READS(uint8_t, module, module_length), READS(uint8_t, calls, calls_length), READS(gate_settings, settings, 1),
        WRITES(uint8_t, out, room), WRITES(size_t, length, 1), WRITES(gate_report, kept, 1),
    };
    look_at(here, areas, COUNT_OF(areas));
    const uint32_t status = (gate_run)(module, module_length, calls, calls_length, settings, out, room, length, kept);
    keep_report(status, kept);
    return status;
}

uint32_t gate_debug_report_read(const char *file, int line, gate_report report, uint8_t *out, size_t room, size_t *length) {
    const site here = { file, line, "gate_report_read" };
    const area areas[] = { WRITES(uint8_t, out, room), WRITES(size_t, length, 1) };
    look_at(here, areas, COUNT_OF(areas));
    handle *used = begin(here, report.at, REPORT, false);
    const uint32_t status = (gate_report_read)(report, out, room, length);
    finish(used);
    return status;
}

static void free_report(site here, gate_report report) {
    begin(here, report.at, REPORT, true);
    (gate_report_free)(report);
}

void gate_debug_report_free(const char *file, int line, gate_report report) {
    free_report((site){ file, line, "gate_report_free" }, report);
}

void gate_debug_report_drop(const char *file, int line, gate_report report) {
    if (report.at) free_report((site){ file, line, "gate_report_drop" }, report);
}

uint32_t gate_debug_module_new(const char *file, int line, const uint8_t *bytes, size_t bytes_length, gate_verdict *verdict,
                               gate_module *module) {
    const site here = { file, line, "gate_module_new" };
    const area areas[] = { READS(uint8_t, bytes, bytes_length), WRITES(gate_verdict, verdict, 1), WRITES(gate_module, module, 1) };
    look_at(here, areas, COUNT_OF(areas));
    const uint32_t status = (gate_module_new)(bytes, bytes_length, verdict, module);
    if (status == GATE_OK)
        keep((handle){ .at = module->at, .kind = MODULE, .bytes = bytes, .length = bytes_length, .sum = sum_of(bytes, bytes_length) });
    return status;
}

uint32_t gate_debug_module_run(const char *file, int line, gate_module module, const uint8_t *calls, size_t calls_length,
                               const gate_settings *settings, uint8_t *out, size_t room, size_t *length, gate_report *kept) {
    const site here = { file, line, "gate_module_run" };
    handle *used = begin(here, module.at, MODULE, false);
    const area areas[] = {
        READS_BYTES_OF(used), READS(uint8_t, calls, calls_length), READS(gate_settings, settings, 1),
        WRITES(uint8_t, out, room), WRITES(size_t, length, 1), WRITES(gate_report, kept, 1),
    };
    look_at(here, areas, COUNT_OF(areas));
    const uint32_t status = (gate_module_run)(module, calls, calls_length, settings, out, room, length, kept);
    finish(used);
    keep_report(status, kept);
    return status;
}

uint32_t gate_debug_module_call(const char *file, int line, gate_module module, const uint8_t *name, size_t name_length,
                                const gate_value *args, size_t args_count, const gate_settings *settings, gate_value *results,
                                size_t results_room, gate_call *ended) {
    const site here = { file, line, "gate_module_call" };
    handle *used = begin(here, module.at, MODULE, false);
    const area areas[] = {
        READS_BYTES_OF(used), READS(uint8_t, name, name_length), READS(gate_value, args, args_count),
        READS(gate_settings, settings, 1), WRITES(gate_value, results, results_room), WRITES(gate_call, ended, 1),
    };
    look_at(here, areas, COUNT_OF(areas));
    const uint32_t status = (gate_module_call)(module, name, name_length, args, args_count, settings, results, results_room, ended);
    finish(used);
    return status;
}

uint32_t gate_debug_module_share(const char *file, int line, gate_module module, gate_module *other) {
    const site here = { file, line, "gate_module_share" };
    handle *used = begin(here, module.at, MODULE, false);
    const area areas[] = { READS_BYTES_OF(used), WRITES(gate_module, other, 1) };
    look_at(here, areas, COUNT_OF(areas));
    const uint32_t status = (gate_module_share)(module, other);
    if (status == GATE_OK)
        keep((handle){ .at = other->at, .kind = MODULE, .bytes = used->bytes, .length = used->length, .sum = used->sum });
    finish(used);
    return status;
}

static void free_module(site here, gate_module module) {
    begin(here, module.at, MODULE, true);
    (gate_module_free)(module);
}

void gate_debug_module_free(const char *file, int line, gate_module module) {
    free_module((site){ file, line, "gate_module_free" }, module);
}

void gate_debug_module_drop(const char *file, int line, gate_module module) {
    if (module.at) free_module((site){ file, line, "gate_module_drop" }, module);
}

uint64_t gate_debug_module_export_count(const char *file, int line, gate_module module) {
    const site here = { file, line, "gate_module_export_count" };
    handle *used = begin(here, module.at, MODULE, false);
    const uint64_t count = (gate_module_export_count)(module);
    finish(used);
    return count;
}

uint64_t gate_debug_module_size(const char *file, int line, gate_module module) {
    const site here = { file, line, "gate_module_size" };
    handle *used = begin(here, module.at, MODULE, false);
    const uint64_t size = (gate_module_size)(module);
    finish(used);
    return size;
}

uint32_t gate_debug_module_measures(const char *file, int line, gate_module module, gate_measures *measures) {
    const site here = { file, line, "gate_module_measures" };
    handle *used = begin(here, module.at, MODULE, false);
    const area areas[] = { READS_BYTES_OF(used), WRITES(gate_measures, measures, 1) };
    look_at(here, areas, COUNT_OF(areas));
    const uint32_t status = (gate_module_measures)(module, measures);
    finish(used);
    return status;
}

uint32_t gate_debug_module_export(const char *file, int line, gate_module module, uint64_t number, gate_export *found) {
    const site here = { file, line, "gate_module_export" };
    handle *used = begin(here, module.at, MODULE, false);
    const area areas[] = { READS_BYTES_OF(used), WRITES(gate_export, found, 1) };
    look_at(here, areas, COUNT_OF(areas));
    const uint32_t status = (gate_module_export)(module, number, found);
    finish(used);
    return status;
}

uint32_t gate_debug_module_export_name(const char *file, int line, gate_module module, uint64_t number, uint8_t *out, size_t room,
                                       size_t *length) {
    const site here = { file, line, "gate_module_export_name" };
    handle *used = begin(here, module.at, MODULE, false);
    const area areas[] = { READS_BYTES_OF(used), WRITES(uint8_t, out, room), WRITES(size_t, length, 1) };
    look_at(here, areas, COUNT_OF(areas));
    const uint32_t status = (gate_module_export_name)(module, number, out, room, length);
    finish(used);
    return status;
}

uint32_t gate_debug_module_find(const char *file, int line, gate_module module, const uint8_t *name, size_t name_length,
                                gate_export *found) {
    const site here = { file, line, "gate_module_find" };
    handle *used = begin(here, module.at, MODULE, false);
    const area areas[] = { READS_BYTES_OF(used), READS(uint8_t, name, name_length), WRITES(gate_export, found, 1) };
    look_at(here, areas, COUNT_OF(areas));
    const uint32_t status = (gate_module_find)(module, name, name_length, found);
    finish(used);
    return status;
}

uint32_t gate_debug_module_types(const char *file, int line, gate_module module, uint32_t function, uint8_t *params,
                                 size_t params_room, uint8_t *results, size_t results_room) {
    const site here = { file, line, "gate_module_types" };
    handle *used = begin(here, module.at, MODULE, false);
    const area areas[] = { READS_BYTES_OF(used), WRITES(uint8_t, params, params_room), WRITES(uint8_t, results, results_room) };
    look_at(here, areas, COUNT_OF(areas));
    const uint32_t status = (gate_module_types)(module, function, params, params_room, results, results_room);
    finish(used);
    return status;
}

uint64_t gate_debug_module_import_count(const char *file, int line, gate_module module) {
    const site here = { file, line, "gate_module_import_count" };
    handle *used = begin(here, module.at, MODULE, false);
    const uint64_t count = (gate_module_import_count)(module);
    finish(used);
    return count;
}

uint32_t gate_debug_module_import(const char *file, int line, gate_module module, uint64_t number, gate_import *found) {
    const site here = { file, line, "gate_module_import" };
    handle *used = begin(here, module.at, MODULE, false);
    const area areas[] = { READS_BYTES_OF(used), WRITES(gate_import, found, 1) };
    look_at(here, areas, COUNT_OF(areas));
    const uint32_t status = (gate_module_import)(module, number, found);
    finish(used);
    return status;
}

typedef uint32_t names_import(gate_module module, uint64_t number, uint8_t *out, size_t room, size_t *length);

static uint32_t name_import(site here, names_import *names, gate_module module, uint64_t number, uint8_t *out, size_t room, size_t *length) {
    handle *used = begin(here, module.at, MODULE, false);
    const area areas[] = { READS_BYTES_OF(used), WRITES(uint8_t, out, room), WRITES(size_t, length, 1) };
    look_at(here, areas, COUNT_OF(areas));
    const uint32_t status = names(module, number, out, room, length);
    finish(used);
    return status;
}

uint32_t gate_debug_module_import_module(const char *file, int line, gate_module module, uint64_t number, uint8_t *out, size_t room,
                                         size_t *length) {
    const site here = { file, line, "gate_module_import_module" };
    return name_import(here, gate_module_import_module, module, number, out, room, length);
}

uint32_t gate_debug_module_import_name(const char *file, int line, gate_module module, uint64_t number, uint8_t *out, size_t room,
                                       size_t *length) {
    const site here = { file, line, "gate_module_import_name" };
    return name_import(here, gate_module_import_name, module, number, out, room, length);
}

uint32_t gate_debug_module_starts(const char *file, int line, gate_module module, const gate_settings *settings, gate_call *ended) {
    const site here = { file, line, "gate_module_starts" };
    handle *used = begin(here, module.at, MODULE, false);
    const area areas[] = { READS_BYTES_OF(used), READS(gate_settings, settings, 1), WRITES(gate_call, ended, 1) };
    look_at(here, areas, COUNT_OF(areas));
    const uint32_t status = (gate_module_starts)(module, settings, ended);
    finish(used);
    return status;
}

uint32_t gate_debug_instance_new(const char *file, int line, gate_module module, const gate_settings *settings,
                                 gate_instance *instance, gate_call *ended) {
    const site here = { file, line, "gate_instance_new" };
    handle *used = begin(here, module.at, MODULE, false);
    const area areas[] = {
        READS_BYTES_OF(used), READS(gate_settings, settings, 1), WRITES(gate_instance, instance, 1), WRITES(gate_call, ended, 1),
    };
    look_at(here, areas, COUNT_OF(areas));
    const uint32_t status = (gate_instance_new)(module, settings, instance, ended);
    if (status == GATE_OK)
        keep((handle){ .at = instance->at, .kind = INSTANCE, .bytes = used->bytes, .length = used->length, .sum = used->sum });
    finish(used);
    return status;
}

uint32_t gate_debug_instance_call(const char *file, int line, gate_instance instance, const uint8_t *name, size_t name_length,
                                  const gate_value *args, size_t args_count, const gate_settings *settings, gate_value *results,
                                  size_t results_room, gate_call *ended) {
    const site here = { file, line, "gate_instance_call" };
    handle *used = begin(here, instance.at, INSTANCE, false);
    const area areas[] = {
        READS_BYTES_OF(used), READS(uint8_t, name, name_length), READS(gate_value, args, args_count),
        READS(gate_settings, settings, 1), WRITES(gate_value, results, results_room), WRITES(gate_call, ended, 1),
    };
    look_at(here, areas, COUNT_OF(areas));
    const uint32_t status = (gate_instance_call)(instance, name, name_length, args, args_count, settings, results, results_room, ended);
    finish(used);
    return status;
}

uint32_t gate_debug_instance_find(const char *file, int line, gate_instance instance, const uint8_t *name, size_t name_length,
                                  uint64_t *number) {
    const site here = { file, line, "gate_instance_find" };
    handle *used = begin(here, instance.at, INSTANCE, false);
    const area areas[] = { READS_BYTES_OF(used), READS(uint8_t, name, name_length), WRITES(uint64_t, number, 1) };
    look_at(here, areas, COUNT_OF(areas));
    const uint32_t status = (gate_instance_find)(instance, name, name_length, number);
    finish(used);
    return status;
}

uint32_t gate_debug_instance_call_at(const char *file, int line, gate_instance instance, uint64_t number, const gate_value *args,
                                     size_t args_count, const gate_settings *settings, gate_value *results, size_t results_room,
                                     gate_call *ended) {
    const site here = { file, line, "gate_instance_call_at" };
    handle *used = begin(here, instance.at, INSTANCE, false);
    const area areas[] = {
        READS_BYTES_OF(used), READS(gate_value, args, args_count), READS(gate_settings, settings, 1),
        WRITES(gate_value, results, results_room), WRITES(gate_call, ended, 1),
    };
    look_at(here, areas, COUNT_OF(areas));
    const uint32_t status = (gate_instance_call_at)(instance, number, args, args_count, settings, results, results_room, ended);
    finish(used);
    return status;
}

uint32_t gate_debug_instance_memory_size(const char *file, int line, gate_instance instance, uint64_t *size) {
    const site here = { file, line, "gate_instance_memory_size" };
    handle *used = begin(here, instance.at, INSTANCE, false);
    const area areas[] = { READS_BYTES_OF(used), WRITES(uint64_t, size, 1) };
    look_at(here, areas, COUNT_OF(areas));
    const uint32_t status = (gate_instance_memory_size)(instance, size);
    finish(used);
    return status;
}

uint32_t gate_debug_instance_read(const char *file, int line, gate_instance instance, uint64_t at, uint8_t *out, size_t length) {
    const site here = { file, line, "gate_instance_read" };
    handle *used = begin(here, instance.at, INSTANCE, false);
    const area areas[] = { READS_BYTES_OF(used), WRITES(uint8_t, out, length) };
    look_at(here, areas, COUNT_OF(areas));
    const uint32_t status = (gate_instance_read)(instance, at, out, length);
    finish(used);
    return status;
}

uint32_t gate_debug_instance_write(const char *file, int line, gate_instance instance, uint64_t at, const uint8_t *bytes,
                                   size_t length) {
    const site here = { file, line, "gate_instance_write" };
    handle *used = begin(here, instance.at, INSTANCE, false);
    const area areas[] = { READS_BYTES_OF(used), READS(uint8_t, bytes, length) };
    look_at(here, areas, COUNT_OF(areas));
    const uint32_t status = (gate_instance_write)(instance, at, bytes, length);
    finish(used);
    return status;
}

uint32_t gate_debug_instance_global(const char *file, int line, gate_instance instance, const uint8_t *name, size_t name_length,
                                    gate_value *value) {
    const site here = { file, line, "gate_instance_global" };
    handle *used = begin(here, instance.at, INSTANCE, false);
    const area areas[] = { READS_BYTES_OF(used), READS(uint8_t, name, name_length), WRITES(gate_value, value, 1) };
    look_at(here, areas, COUNT_OF(areas));
    const uint32_t status = (gate_instance_global)(instance, name, name_length, value);
    finish(used);
    return status;
}

uint32_t gate_debug_instance_reset(const char *file, int line, gate_instance instance, gate_call *ended) {
    const site here = { file, line, "gate_instance_reset" };
    handle *used = begin(here, instance.at, INSTANCE, false);
    const area areas[] = { READS_BYTES_OF(used), WRITES(gate_call, ended, 1) };
    look_at(here, areas, COUNT_OF(areas));
    const uint32_t status = (gate_instance_reset)(instance, ended);
    finish(used);
    return status;
}

static void free_instance(site here, gate_instance instance) {
    begin(here, instance.at, INSTANCE, true);
    (gate_instance_free)(instance);
}

void gate_debug_instance_free(const char *file, int line, gate_instance instance) {
    free_instance((site){ file, line, "gate_instance_free" }, instance);
}

void gate_debug_instance_drop(const char *file, int line, gate_instance instance) {
    if (instance.at) free_instance((site){ file, line, "gate_instance_drop" }, instance);
}
