// What an instance takes in plain C: its parts are made, the call's one write is done, and all is given back.
// usage: instances kept|fresh PAGES SEGMENT WRITES GLOBALS ENTRIES COUNT    prints the best of five, in nanoseconds an instance
//   kept     the memory is kept between instances: the blocks of 4,096 bytes that were touched are cleared again (by marks)
//   fresh    the memory is had from calloc and freed
// Slots, globals and table are had from malloc and freed either way, as many bytes as in gate. SEGMENT is the length of a data
// segment at 0, and WRITES of 1 writes a byte in the middle of the memory.
#include <stdint.h>
#include <stdio.h>
#include <stdlib.h>
#include <string.h>
#include <time.h>

typedef uint8_t u8;
typedef uint32_t u32;
typedef uint64_t u64;

enum { PAGE = 65536, BLOCK = 4096, REACH = 7, SLOTS = 6 };

typedef struct { u32 is_set, function; } Entry;
typedef struct { u8 *bytes, *marks; size_t length; } Memory;
typedef struct { size_t pages, segment, writes, globals, entries; } Kind;

// What stands at a place may be read by others, so that no allocation is left out.
#define SEEN(at) __asm__ volatile("" : : "r"(at) : "memory")

static void *had(void *at) {
    if (!at) { fprintf(stderr, "instances: no memory\n"); exit(2); }
    SEEN(at);
    return at;
}

static void *room(size_t size) { return had(malloc(size)); }
static void *zeros(size_t size) { return had(calloc(size, 1)); }

static Memory new_memory(size_t length) {
    return (Memory){ zeros(length), zeros(length / BLOCK), length };
}

static void free_memory(Memory memory) {
    free(memory.bytes);
    free(memory.marks);
}

// Writes zero into the blocks that were touched, and takes their marks away.
static void clear(Memory memory) {
    for (size_t block = 0; block < memory.length / BLOCK; block++) {
        if (!memory.marks[block]) continue;
        size_t from = block * BLOCK, most = memory.length - from;
        memset(memory.bytes + from, 0, most < BLOCK + REACH ? most : BLOCK + REACH);
        memory.marks[block] = 0;
    }
}

static u64 *new_globals(size_t count, const u64 *first) {
    u64 *globals = room(count * sizeof(u64));
    for (size_t i = 0; i < count; i++) globals[i] = first[i];
    SEEN(globals);
    return globals;
}

static Entry *new_table(size_t count) {
    Entry *table = room(count * sizeof(Entry));
    for (size_t i = 0; i < count; i++) table[i] = (Entry){ 0, 0 };
    SEEN(table);
    return table;
}

static void write_in(Memory memory, Kind kind, const u8 *segment) {
    if (kind.segment) {
        memory.marks[0] = 1;
        memcpy(memory.bytes, segment, kind.segment);
    }
    if (kind.writes) {
        memory.marks[memory.length / 2 / BLOCK] = 1;
        memory.bytes[memory.length / 2] = 1;
    }
    SEEN(memory.bytes);
}

// One instance, from its making to its end, in a memory that is kept, or in one of its own.
static void live(Kind kind, int is_kept, Memory kept, const u64 *first, const u8 *segment) {
    u64 *globals = kind.globals ? new_globals(kind.globals, first) : 0;
    Entry *table = kind.entries ? new_table(kind.entries) : 0;
    Memory memory = is_kept ? kept : new_memory(kind.pages * PAGE);
    if (kind.pages) write_in(memory, kind, segment);
    free(zeros(SLOTS * sizeof(u64)));
    if (is_kept) clear(memory); else free_memory(memory);
    free(table);
    free(globals);
}

static double now(void) {
    struct timespec t;
    clock_gettime(CLOCK_PROCESS_CPUTIME_ID, &t);
    return t.tv_sec * 1e9 + t.tv_nsec;
}

int main(int count, char **words) {
    if (count != 8) { fprintf(stderr, "instances: seven words are needed\n"); return 2; }
    int is_kept = !strcmp(words[1], "kept"), times = atoi(words[7]);
    Kind kind = { atoi(words[2]), atoi(words[3]), atoi(words[4]), atoi(words[5]), atoi(words[6]) };
    u64 *first = zeros(kind.globals * sizeof(u64) + 1);
    u8 *segment = zeros(kind.segment + 1);
    Memory kept = new_memory(kind.pages * PAGE);
    double best = 1e18;
    for (int turn = 0; turn < 5; turn++) {
        double start = now();
        for (int i = 0; i < times; i++) live(kind, is_kept, kept, first, segment);
        double spent = (now() - start) / times;
        if (spent < best) best = spent;
    }
    printf("%.2f\n", best);
    return 0;
}
