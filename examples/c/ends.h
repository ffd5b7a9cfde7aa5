/* How a call ended, in the words of a report (docs/FORMATS.md). */
#ifndef ENDS_H
#define ENDS_H

#include "gate.h"

/* Prints the word of an end, and the kind of a trap, or why nothing was started. */
void print_end(const gate_call *ended);

/* Prints what the call cost, where something ran. */
void print_fuel(const gate_call *ended);

#endif
