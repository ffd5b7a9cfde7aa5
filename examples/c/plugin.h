/* A text for a plug-in that keeps the convention of docs/GUESTS.md: `alloc` and `handle`. Nothing that it gives is believed. */
#ifndef PLUGIN_H
#define PLUGIN_H

#include "files.h"
#include "gate.h"

/* The fault of a plug-in that says itself that it has no answer. */
extern const char NO_ANSWER[];

/* A request to an instance, and what came of it. */
typedef struct request {
    gate_instance plug_in;
    gate_settings limits; /* of all its calls together; a call takes away the fuel that it cost */
    gate_call ended;      /* how the last call ended; its fuel is that of all calls */
    const char *fault;    /* where they gave values and there is no answer: why, else NULL */
    bytes answer;         /* freed by who asked, also where there is none */
} request;

/* Hands a text over; whether there is an answer. */
bool ask(request *it, bytes text);

/* Prints in a line why there is no answer. */
void print_why(const request *it);

#endif
