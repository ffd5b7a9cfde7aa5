/* The parts, each over the plug-ins or the modules that are read before; main.c says what they do. */
#ifndef PARTS_H
#define PARTS_H
#include "play.h"

/* guests.c */
void part_steps(play *it, long count);
void part_threads(play *it, long count);
void part_refuse(play *it, long count);

/* large.c */
void part_limits(play *it, long count);
void part_flat(play *it, long count);

/* modules.c */
void read_modules(const char *folder);
void free_modules(void);
void part_guard(play *by, long count);
void part_rounds(play *by, long count);
void part_handles(play *by, long count);
void part_stack(play *by, long count);
void part_size(play *by, long count);

#endif
