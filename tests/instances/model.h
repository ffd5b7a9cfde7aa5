/* Plug-ins, and what an instance of each of them should hold: a plain array for its memory, and numbers for its globals. */
#ifndef MODEL_H
#define MODEL_H
#include "gate.h"
#include <stdbool.h>

enum { PAGE = 65536, MOST_PAGES = 3, MOST_GLOBALS = 3, MOST_PARAMS = 3, MOST_RESULTS = 2 };

typedef struct text {
    const uint8_t *at;
    size_t length;
} text;

typedef struct model {
    uint8_t memory[MOST_PAGES * PAGE];
    uint64_t size;
    uint64_t globals[MOST_GLOBALS];
    uint32_t hidden; /* of a global that is not exported */
} model;

/* A call in the model: what it may use up, and how it ends. */
typedef struct call {
    model *on;
    gate_settings limits;
    uint32_t pages; /* how many the memory may have */
    gate_value args[MOST_PARAMS];
    gate_call ended;
    gate_value results[MOST_RESULTS];
} call;

typedef struct function {
    const char *name, *params; /* of each parameter a letter: i of 32 bits, l of 64 */
    void (*body)(call *);
} function;

typedef struct global {
    const char *name; /* NULL ends a list of them */
    uint32_t width;
} global;

typedef struct plugin {
    const char *file; /* where it stands; of one that stands here it is NULL */
    text module;
    const function *functions; /* the name NULL ends them */
    const global *globals;
    uint32_t first_pages, most_pages;
    uint32_t start_fuel;
    void (*begin)(model *); /* what segments, first values and the start function write into zeros */
} plugin;

enum { PLUGINS = 4 };

extern plugin plugins[PLUGINS];

/* Fills the model with what a fresh instance holds. */
void model_begin(model *it, const plugin *of);

/* Calls a function in the model. */
void model_call(call *it, const function *what);

#endif
