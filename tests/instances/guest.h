/* An instance beside its model. */
#ifndef GUEST_H
#define GUEST_H
#include "play.h"

typedef enum state { NONE, LIVE, SHORT, GONE } state; /* SHORT: a call ran out of memory; GONE: a reset did */

typedef struct guest {
    const plugin *of;
    gate_module module;
    gate_instance instance;
    state state;
    gate_settings made; /* the limits that it was made with */
    model now;
} guest;

/* A step of chance: an instance is made, called, written, read, reset or freed. All that it shows has to be what the model has then. */
void step(play *it, guest *on);

/* The module, whose bytes stand where none may be written, and none beside them be read. */
gate_module judged(play *it, const plugin *of);

/* The instance outlives the handle of its module. */
void end_guest(guest *on);

#endif
