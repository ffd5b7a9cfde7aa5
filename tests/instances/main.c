/* Plays at random with instances and modules of the library, and holds what it answers beside a model (model.c), or beside itself.
 * usage: play PART FOLDER NUMBER [SEED]
 * Instances of the plug-ins in FOLDER, each answer, the whole memory and all globals beside the model:
 *   heap     NUMBER steps, each buffer in a block of malloc of just its length
 *   fence    likewise, each buffer at the end or at the beginning of pages between two that nobody may touch
 *   threads  eight threads make NUMBER steps each, with handles of their own, and exchange instances by a lock
 *   refuse   NUMBER sequences, of which each request for memory is refused in turn, alone and with all that follow it in its call
 *   limits   up to NUMBER large instances, in little address space
 *   flat     NUMBER rounds of all that an instance can do, in memory that may not grow
 * The modules in FOLDER, the names of which end in .wasm:
 *   guard    NUMBER mutants, each at the end and at the beginning of pages that nobody may write, beside pages that nobody may touch, as
 *            are the buffers for answers. gate_check, gate_explain, gate_module_new and gate_run have to agree
 *   rounds   NUMBER rounds of all that takes memory, none of which may leave a block
 *   handles  NUMBER handles of one module, each shared from another one, freed in any order
 *   stack    all modules are judged, and called, on a painted stack: of it MOST_STACK bytes more may be written than by an idle thread
 *   size     what gate_module_size says of each module is no more than the heap gave for it, and no less than half of that, MOST_FIXED
 *            bytes of the handle aside
 * Prints each line that does not hold, and ends with 1 then; else how many held. */
#define _GNU_SOURCE
#include "parts.h"
#include <sys/mman.h>

/* Puts each plug-in at the end of pages that nobody may write, before one that nobody may touch. */
static void place_plugins(const char *folder) {
    for (int i = 0; i < PLUGINS; i++) {
        const text from = plugins[i].file ? bytes_of(folder, plugins[i].file) : plugins[i].module;
        const fence of = fence_of(from.length);
        uint8_t *at = of.at + of.room - from.length;
        memcpy(at, from.at, from.length);
        if (mprotect(of.at, of.room, PROT_READ)) fail("no pages");
        plugins[i].module = (text){ at, from.length };
    }
}

typedef struct part {
    const char *name;
    void (*run)(play *it, long count);
    void (*begin)(const char *folder);
    bool is_fenced;
} part;

static const part PARTS[] = { { "heap", part_steps, place_plugins, false },     { "fence", part_steps, place_plugins, true },
                              { "threads", part_threads, place_plugins, false }, { "refuse", part_refuse, place_plugins, true },
                              { "limits", part_limits, place_plugins, false },   { "flat", part_flat, place_plugins, false },
                              { "guard", part_guard, read_modules, false },      { "rounds", part_rounds, read_modules, false },
                              { "handles", part_handles, read_modules, false },  { "stack", part_stack, read_modules, false },
                              { "size", part_size, read_modules, false } };

static const part *part_of(const char *name) {
    for (size_t i = 0; i < sizeof PARTS / sizeof *PARTS; i++)
        if (!strcmp(name, PARTS[i].name)) return &PARTS[i];
    fail("no such part");
}

int main(int count, char **words) {
    static play it;
    if (count < 4) fail("usage: play PART FOLDER NUMBER [SEED]");
    const part *chosen = part_of(words[1]);
    chosen->begin(words[2]);
    begin_play(&it, count > 4 ? strtoull(words[4], NULL, 10) : 1, chosen->is_fenced);
    chosen->run(&it, atol(words[3]));
    end_play(&it);
    free_modules();
    if (!it.held && !it.failed) fail("nothing was asked");
    if (!it.failed) printf("%ld\n", it.held);
    return it.failed != 0;
}
