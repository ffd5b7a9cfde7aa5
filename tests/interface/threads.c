/* A module that threads share. */
#include "interface.h"
#include <pthread.h>

typedef struct part {
    pthread_t thread;
    gate_module module; /* its own handle, which it frees */
    long rounds, wrong;
} part;

static void *call_often(void *at) {
    part *it = at;
    for (long i = 0; i < it->rounds; i++) {
        gate_value sum = { 0, 0 }, args[] = { { 32, (uint64_t)i }, { 32, 2 } };
        gate_call ended = { 99, 0, 0, 0, 0 };
        uint32_t status = gate_module_call(it->module, said("add").at, 3, args, 2, &USUAL, &sum, 1, &ended);
        it->wrong += status != GATE_OK || ended.end != GATE_VALUES || ended.fuel != 1 || sum.width != 32 || sum.bits != (uint64_t)i + 2;
    }
    gate_module_free(it->module);
    return NULL;
}

/* The handle that all others come from is freed while they are at work. */
void threads(long rounds) {
    part parts[THREADS];
    gate_module module = module_of(ADD);
    for (size_t i = 0; i < THREADS; i++) {
        parts[i] = (part){ .rounds = rounds };
        HOLDS(gate_module_share(module, &parts[i].module) == GATE_OK);
        if (pthread_create(&parts[i].thread, NULL, call_often, &parts[i])) exit(1);
    }
    gate_module_free(module);
    for (size_t i = 0; i < THREADS; i++) {
        pthread_join(parts[i].thread, NULL);
        HOLDS(parts[i].wrong == 0);
    }
}
