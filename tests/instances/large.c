/* Many instances: large ones in little address space, and one after the other in memory that may not grow. */
#define _GNU_SOURCE
#include "guest.h"
#include "parts.h"
#include <malloc.h>
#include <sys/resource.h>
#include <sys/wait.h>
#include <unistd.h>

enum { NOT_WRITTEN = 99 };

/* (module (memory 16 1024) (func (export "grow") (param i32) (result i32) (memory.grow (local.get 0)))) */
static const uint8_t LARGE[] = { 0,    'a', 's', 'm',  1, 0, 0, 0, 1,   6,   1,   0x60, 1, 0x7F, 1,    0x7F, 3, 2, 1,    0,    5, 5,
                                 1,    1,   16,  0x80, 8, 7, 8, 1, 4,   'g', 'r', 'o',  'w', 0,  0,    0x0A, 8, 1, 6,    0,    0x20, 0,
                                 0x40, 0,   0x0B };

enum { MEGABYTE = 1 << 20, MOST_LARGE = 512 };

static const gate_settings USUAL = { 1000000, 1024, 1024 };

typedef struct hoard {
    gate_module module;
    gate_instance all[MOST_LARGE];
    size_t count, most;
} hoard;

static size_t address_space(void) {
    unsigned long pages = 0;
    FILE *file = fopen("/proc/self/statm", "r");
    if (!file || fscanf(file, "%lu", &pages) != 1) fail("no statm");
    fclose(file);
    return pages * 4096;
}

/* Eight bytes of a number at the beginning, the middle and the end of the first megabyte. */
static void tag(play *it, gate_instance on, uint64_t number) {
    for (uint64_t i = 0; i < 3; i++)
        HOLDS(it, gate_instance_write(on, i * (MEGABYTE / 2 - 4), (const uint8_t *)&number, sizeof number) == GATE_OK);
}

static void has_tag(play *it, gate_instance on, uint64_t wanted) {
    for (uint64_t i = 0; i < 3; i++) {
        uint64_t number = ~wanted;
        HOLDS(it, gate_instance_read(on, i * (MEGABYTE / 2 - 4), (uint8_t *)&number, sizeof number) == GATE_OK && number == wanted);
    }
}

/* Makes instances until memory is refused. */
static size_t fill(play *it, hoard *of) {
    size_t made = 0;
    for (; of->count < of->most; made++) {
        gate_call ended = { NOT_WRITTEN, 0, 0, 0, 0 };
        gate_instance on = { NULL };
        const uint32_t status = gate_instance_new(of->module, &USUAL, &on, &ended);
        if (status != GATE_OK) {
            const bool is_told = status == GATE_NO_INSTANCE && is_short(&ended);
            HOLDS(it, !on.at && (is_told || (status == GATE_NO_MEMORY && ended.end == NOT_WRITTEN)));
            return made;
        }
        tag(it, on, of->count + 1);
        of->all[of->count++] = on;
    }
    return made;
}

static void have_tags(play *it, const hoard *of) {
    for (size_t i = 0; i < of->count; i++) has_tag(it, of->all[i], i + 1);
}

/* It wants 63 megabytes more, which are not there. Then each call ends so, and all else goes on. */
static void grow_too_far(play *it, gate_instance on, uint64_t number) {
    for (int i = 0; i < 2; i++) {
        const gate_value pages = { 32, 1008 };
        gate_value result;
        gate_call ended;
        memset(&result, UNTOUCHED, sizeof result);
        HOLDS(it, gate_instance_call(on, (const uint8_t *)"grow", 4, &pages, 1, &USUAL, &result, 1, &ended) == GATE_OK);
        HOLDS(it, is_short(&ended) && is_untouched(&result, sizeof result));
        has_tag(it, on, number);
    }
    uint64_t size = 0;
    gate_instance_memory_size(on, &size);
    HOLDS(it, size == MEGABYTE);
}

/* Clean again; or without memory, and clean when some was given back. */
static void reset_first(play *it, hoard *of) {
    gate_call ended;
    uint32_t status = gate_instance_reset(of->all[0], &ended);
    if (status == GATE_NO_INSTANCE && of->count > 1) {
        HOLDS(it, is_short(&ended));
        gate_instance_free(of->all[--of->count]);
        status = gate_instance_reset(of->all[0], &ended);
    }
    if (!HOLDS(it, status == GATE_OK && is_end(&ended, GATE_VALUES, 0, 0, 0))) return;
    has_tag(it, of->all[0], 0);
    tag(it, of->all[0], 1);
}

static void free_down_to(hoard *of, size_t count) {
    while (of->count > count) gate_instance_free(of->all[--of->count]);
}

/* With this many megabytes of address space beside what is taken already. */
static void in_little_space(play *it, hoard *of, size_t megabytes) {
    const size_t space = address_space() + megabytes * MEGABYTE;
    const struct rlimit limit = { space, space };
    if (setrlimit(RLIMIT_AS, &limit)) fail("no limit");
    const size_t made = fill(it, of);
    HOLDS(it, made <= megabytes && made + 2 >= megabytes / 2);
    have_tags(it, of);
    if (of->count && megabytes < 64) {
        grow_too_far(it, of->all[0], 1);
        reset_first(it, of);
    }
    have_tags(it, of);
    free_down_to(of, of->count / 2);
    HOLDS(it, fill(it, of) + 2 >= made / 2);
    have_tags(it, of);
    free_down_to(of, 0);
    HOLDS(it, fill(it, of) >= made / 2);
    free_down_to(of, 0);
}

/* A limit stays for the life of a process. */
static void in_child(play *it, hoard *of, size_t megabytes) {
    const pid_t child = fork();
    if (!child) {
        it->failed = 0;
        in_little_space(it, of, megabytes);
        _exit(it->failed != 0);
    }
    int status = -1;
    HOLDS(it, child > 0 && waitpid(child, &status, 0) == child && status == 0);
}

void part_limits(play *it, long count) {
    static const size_t rooms[] = { 0, 1, 2, 3, 5, 8, 20, 60, 200 };
    static hoard of;
    gate_verdict verdict;
    of.most = count < MOST_LARGE ? (size_t)count : MOST_LARGE;
    if (gate_module_new(LARGE, sizeof LARGE, &verdict, &of.module) != GATE_OK) fail("LARGE is refused");
    for (size_t i = 0; i < sizeof rooms / sizeof *rooms; i++) in_child(it, &of, rooms[i]);
    gate_module_free(of.module);
}

/* Without what is mapped of files: how much of the code is in memory goes by what ran, and by the system. */
static size_t resident(void) {
    unsigned long kilobytes = 0;
    char line[256];
    FILE *file = fopen("/proc/self/smaps_rollup", "r");
    if (!file) fail("no smaps_rollup");
    while (fgets(line, sizeof line, file) && sscanf(line, "Anonymous: %lu kB", &kilobytes) != 1) continue;
    fclose(file);
    if (!kilobytes) fail("no anonymous memory");
    return (size_t)kilobytes * 1024;
}

/* A new instance stores a byte, gets and gives two, is reset, and is freed. */
static void live(play *it, gate_module module, uint64_t number) {
    const gate_value args[] = { { 32, 40 }, { 32, number & 0xFF } };
    const uint8_t one = (uint8_t)(number >> 8);
    uint8_t out[2] = { 0, 0 };
    gate_instance on;
    gate_call ended;
    if (!HOLDS(it, gate_instance_new(module, &USUAL, &on, &ended) == GATE_OK)) return;
    HOLDS(it, gate_instance_call(on, (const uint8_t *)"put8", 4, args, 2, &USUAL, NULL, 0, &ended) == GATE_OK && ended.end == GATE_VALUES);
    HOLDS(it, gate_instance_write(on, 41, &one, 1) == GATE_OK);
    HOLDS(it, gate_instance_read(on, 40, out, 2) == GATE_OK && out[0] == (uint8_t)number && out[1] == one);
    HOLDS(it, gate_instance_reset(on, &ended) == GATE_OK && gate_instance_read(on, 40, out, 2) == GATE_OK && !out[0] && !out[1]);
    gate_instance_free(on);
}

enum { MOST_GROWTH = 256 << 10 };

void part_flat(play *it, long count) {
    const gate_module module = judged(it, &plugins[0]);
    for (long i = 0; i < count / 10; i++) live(it, module, (uint64_t)i);
    const size_t before = resident(), blocks = mallinfo2().uordblks;
    for (long i = 0; i < count && !it->failed; i++) live(it, module, (uint64_t)i);
    HOLDS(it, resident() <= before + MOST_GROWTH);
    HOLDS(it, mallinfo2().uordblks == blocks);
    gate_module_free(module);
}
