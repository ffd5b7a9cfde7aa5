/* Finds what a host owes the library and does not keep. gate.h includes this header where GATE_DEBUG is defined, and gate_debug.c is made
 * with the host. DEBUG is the folder of both:
 *
 *     cc -g -DGATE_DEBUG -I DEBUG host.c DEBUG/gate_debug.c $(pkg-config --cflags --libs gate) -pthread
 *
 * Each call is looked at before the library gets it. At the first wrong use the process says so on standard error, and aborts:
 *
 *     host.c:20: gate_module_call: the module was freed before
 *
 * Found are: pointers that are null, unmapped, misaligned or overlap; lengths of 2^63 bytes and more; handles that are null, freed, foreign
 * or in another call; bytes of a module that changed. With AddressSanitizer (-fsanitize=address) also: buffers that are shorter than told,
 * or freed. Not found is a handle that goes to another thread without a lock; a detector of races finds that.
 *
 * The host is C99, C++11 or later. Each call of a module or of an instance reads all bytes of it.
 */
#ifndef GATE_DEBUG_H
#define GATE_DEBUG_H

#include <gate.h>

#ifdef __cplusplus
extern "C" {
#endif

uint32_t gate_debug_check(const char *file, int line, const uint8_t *bytes, size_t bytes_length, gate_verdict *verdict);
uint32_t gate_debug_verdict_line(const char *file, int line, const gate_verdict *verdict, uint8_t *out, size_t room, size_t *length);
uint32_t gate_debug_build(const char *file, int line, uint8_t *out, size_t room, size_t *length);
uint32_t gate_debug_explain(const char *file, int line, const uint8_t *bytes, size_t bytes_length, gate_explanation *explanation);
uint32_t gate_debug_explain_text(const char *file, int line, const uint8_t *bytes, size_t bytes_length, uint8_t *out, size_t room,
                                 size_t *length);
uint32_t gate_debug_exports_text(const char *file, int line, const uint8_t *bytes, size_t bytes_length, const gate_settings *settings,
                                 uint8_t *out, size_t room, size_t *length);
uint32_t gate_debug_run(const char *file, int line, const uint8_t *module, size_t module_length, const uint8_t *calls,
                        size_t calls_length, const gate_settings *settings, uint8_t *out, size_t room, size_t *length,
                        gate_report *kept);
uint32_t gate_debug_report_read(const char *file, int line, gate_report report, uint8_t *out, size_t room, size_t *length);
void gate_debug_report_free(const char *file, int line, gate_report report);
void gate_debug_report_drop(const char *file, int line, gate_report report);
uint32_t gate_debug_module_new(const char *file, int line, const uint8_t *bytes, size_t bytes_length, gate_verdict *verdict,
                               gate_module *module);
uint32_t gate_debug_module_run(const char *file, int line, gate_module module, const uint8_t *calls, size_t calls_length,
                               const gate_settings *settings, uint8_t *out, size_t room, size_t *length, gate_report *kept);
uint32_t gate_debug_module_call(const char *file, int line, gate_module module, const uint8_t *name, size_t name_length,
                                const gate_value *args, size_t args_count, const gate_settings *settings, gate_value *results,
                                size_t results_room, gate_call *ended);
uint32_t gate_debug_module_share(const char *file, int line, gate_module module, gate_module *other);
void gate_debug_module_free(const char *file, int line, gate_module module);
void gate_debug_module_drop(const char *file, int line, gate_module module);
uint64_t gate_debug_module_export_count(const char *file, int line, gate_module module);
uint64_t gate_debug_module_size(const char *file, int line, gate_module module);
uint32_t gate_debug_module_measures(const char *file, int line, gate_module module, gate_measures *measures);
uint32_t gate_debug_module_export(const char *file, int line, gate_module module, uint64_t number, gate_export *found);
uint32_t gate_debug_module_export_name(const char *file, int line, gate_module module, uint64_t number, uint8_t *out, size_t room,
                                       size_t *length);
uint32_t gate_debug_module_find(const char *file, int line, gate_module module, const uint8_t *name, size_t name_length,
                                gate_export *found);
uint32_t gate_debug_module_types(const char *file, int line, gate_module module, uint32_t function, uint8_t *params,
                                 size_t params_room, uint8_t *results, size_t results_room);
uint64_t gate_debug_module_import_count(const char *file, int line, gate_module module);
uint32_t gate_debug_module_import(const char *file, int line, gate_module module, uint64_t number, gate_import *found);
uint32_t gate_debug_module_import_module(const char *file, int line, gate_module module, uint64_t number, uint8_t *out, size_t room,
                                         size_t *length);
uint32_t gate_debug_module_import_name(const char *file, int line, gate_module module, uint64_t number, uint8_t *out, size_t room,
                                       size_t *length);
uint32_t gate_debug_module_starts(const char *file, int line, gate_module module, const gate_settings *settings, gate_call *ended);
uint32_t gate_debug_instance_new(const char *file, int line, gate_module module, const gate_settings *settings,
                                 gate_instance *instance, gate_call *ended);
uint32_t gate_debug_instance_call(const char *file, int line, gate_instance instance, const uint8_t *name, size_t name_length,
                                  const gate_value *args, size_t args_count, const gate_settings *settings, gate_value *results,
                                  size_t results_room, gate_call *ended);
uint32_t gate_debug_instance_find(const char *file, int line, gate_instance instance, const uint8_t *name, size_t name_length,
                                  uint64_t *number);
uint32_t gate_debug_instance_call_at(const char *file, int line, gate_instance instance, uint64_t number, const gate_value *args,
                                     size_t args_count, const gate_settings *settings, gate_value *results, size_t results_room,
                                     gate_call *ended);
uint32_t gate_debug_instance_memory_size(const char *file, int line, gate_instance instance, uint64_t *size);
uint32_t gate_debug_instance_read(const char *file, int line, gate_instance instance, uint64_t at, uint8_t *out, size_t length);
uint32_t gate_debug_instance_write(const char *file, int line, gate_instance instance, uint64_t at, const uint8_t *bytes,
                                   size_t length);
uint32_t gate_debug_instance_global(const char *file, int line, gate_instance instance, const uint8_t *name, size_t name_length,
                                    gate_value *value);
uint32_t gate_debug_instance_reset(const char *file, int line, gate_instance instance, gate_call *ended);
void gate_debug_instance_free(const char *file, int line, gate_instance instance);
void gate_debug_instance_drop(const char *file, int line, gate_instance instance);

#ifdef __cplusplus
}
#endif

#define gate_check(...) gate_debug_check(__FILE__, __LINE__, __VA_ARGS__)
#define gate_verdict_line(...) gate_debug_verdict_line(__FILE__, __LINE__, __VA_ARGS__)
#define gate_build(...) gate_debug_build(__FILE__, __LINE__, __VA_ARGS__)
#define gate_explain(...) gate_debug_explain(__FILE__, __LINE__, __VA_ARGS__)
#define gate_explain_text(...) gate_debug_explain_text(__FILE__, __LINE__, __VA_ARGS__)
#define gate_exports_text(...) gate_debug_exports_text(__FILE__, __LINE__, __VA_ARGS__)
#define gate_run(...) gate_debug_run(__FILE__, __LINE__, __VA_ARGS__)
#define gate_report_read(...) gate_debug_report_read(__FILE__, __LINE__, __VA_ARGS__)
#define gate_report_free(...) gate_debug_report_free(__FILE__, __LINE__, __VA_ARGS__)
#define gate_report_drop(...) gate_debug_report_drop(__FILE__, __LINE__, __VA_ARGS__)
#define gate_module_new(...) gate_debug_module_new(__FILE__, __LINE__, __VA_ARGS__)
#define gate_module_run(...) gate_debug_module_run(__FILE__, __LINE__, __VA_ARGS__)
#define gate_module_call(...) gate_debug_module_call(__FILE__, __LINE__, __VA_ARGS__)
#define gate_module_share(...) gate_debug_module_share(__FILE__, __LINE__, __VA_ARGS__)
#define gate_module_free(...) gate_debug_module_free(__FILE__, __LINE__, __VA_ARGS__)
#define gate_module_drop(...) gate_debug_module_drop(__FILE__, __LINE__, __VA_ARGS__)
#define gate_module_export_count(...) gate_debug_module_export_count(__FILE__, __LINE__, __VA_ARGS__)
#define gate_module_size(...) gate_debug_module_size(__FILE__, __LINE__, __VA_ARGS__)
#define gate_module_measures(...) gate_debug_module_measures(__FILE__, __LINE__, __VA_ARGS__)
#define gate_module_export(...) gate_debug_module_export(__FILE__, __LINE__, __VA_ARGS__)
#define gate_module_export_name(...) gate_debug_module_export_name(__FILE__, __LINE__, __VA_ARGS__)
#define gate_module_find(...) gate_debug_module_find(__FILE__, __LINE__, __VA_ARGS__)
#define gate_module_types(...) gate_debug_module_types(__FILE__, __LINE__, __VA_ARGS__)
#define gate_module_import_count(...) gate_debug_module_import_count(__FILE__, __LINE__, __VA_ARGS__)
#define gate_module_import(...) gate_debug_module_import(__FILE__, __LINE__, __VA_ARGS__)
#define gate_module_import_module(...) gate_debug_module_import_module(__FILE__, __LINE__, __VA_ARGS__)
#define gate_module_import_name(...) gate_debug_module_import_name(__FILE__, __LINE__, __VA_ARGS__)
#define gate_module_starts(...) gate_debug_module_starts(__FILE__, __LINE__, __VA_ARGS__)
#define gate_instance_new(...) gate_debug_instance_new(__FILE__, __LINE__, __VA_ARGS__)
#define gate_instance_call(...) gate_debug_instance_call(__FILE__, __LINE__, __VA_ARGS__)
#define gate_instance_find(...) gate_debug_instance_find(__FILE__, __LINE__, __VA_ARGS__)
#define gate_instance_call_at(...) gate_debug_instance_call_at(__FILE__, __LINE__, __VA_ARGS__)
#define gate_instance_memory_size(...) gate_debug_instance_memory_size(__FILE__, __LINE__, __VA_ARGS__)
#define gate_instance_read(...) gate_debug_instance_read(__FILE__, __LINE__, __VA_ARGS__)
#define gate_instance_write(...) gate_debug_instance_write(__FILE__, __LINE__, __VA_ARGS__)
#define gate_instance_global(...) gate_debug_instance_global(__FILE__, __LINE__, __VA_ARGS__)
#define gate_instance_reset(...) gate_debug_instance_reset(__FILE__, __LINE__, __VA_ARGS__)
#define gate_instance_free(...) gate_debug_instance_free(__FILE__, __LINE__, __VA_ARGS__)
#define gate_instance_drop(...) gate_debug_instance_drop(__FILE__, __LINE__, __VA_ARGS__)

#endif
