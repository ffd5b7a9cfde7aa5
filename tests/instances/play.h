/* What all parts share: memory that is counted and refused, buffers at the ends of pages, chance, and what holds. */
#ifndef PLAY_H
#define PLAY_H
#include "model.h"
#include <stdio.h>
#include <stdlib.h>
#include <string.h>

#define HOLDS(it, what) holds(it, what, #what, __FILE__, __LINE__)

enum { UNTOUCHED = 0x5A, SYSTEM_PAGE = 4096 };

/* Requests are counted while the library is called. The one of the number `refused` is refused, and where `refuses_on` all that come after
 * it in the same call. */
typedef struct heap {
    long asked, refused, blocks;
    size_t given; /* how many bytes the blocks have */
    bool refuses_on, is_in_call, was_refused;
} heap;

extern _Thread_local heap asks;

typedef enum role { IN, OUT, NAME, ARGS, RESULTS, SETTINGS, ENDED, VALUE, SIZE, HANDLE, ROLES } role;

typedef struct fence {
    uint8_t *at;
    size_t room;
} fence;

/* What one thread plays with. */
typedef struct play {
    uint64_t seed;
    bool is_fenced, may_refuse;
    fence fences[ROLES];
    void *blocks[ROLES];
    long held, failed;
    model before;
} play;

_Noreturn void fail(const char *why);

/* Counts what holds; tells of what does not, where it is one of the first. */
bool holds(play *it, bool is, const char *what, const char *file, int line);

/* Pages between two that nobody may touch. */
fence fence_of(size_t length);

void begin_play(play *it, uint64_t seed, bool is_fenced);
void end_play(play *it);

uint64_t random_of(play *it);
uint64_t below(play *it, uint64_t most);
bool seldom(play *it);

/* A buffer of just that length, of which no byte is known; null at times where it has none. */
void *buffer(play *it, role of, size_t length);
bool is_untouched(const void *at, size_t length);
bool is_end(const gate_call *it, uint32_t end, uint32_t reason, uint32_t fuel, uint64_t results);

/* The call ran out of memory; what it cost is not told here. */
bool is_short(const gate_call *it);

/* The bytes of a file that has no more than a page of a memory. */
text bytes_of(const char *folder, const char *name);

#endif
