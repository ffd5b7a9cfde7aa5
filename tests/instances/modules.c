/* Asks of modules what guests.c asks of instances: reads and writes at the edges of buffers, memory that may not grow, many handles, and
 * small stacks. The hosts of an embedder that instances takes where they are (--hosts) ask the same, and more. */
#define _GNU_SOURCE
#include "play.h"
#include "parts.h"
#include <dirent.h>
#include <pthread.h>
#include <sys/mman.h>

enum { ROOM = 1 << 16, LONGEST = 20000, MOST = 4096, STACK = 64 << 10, MOST_STACK = 16 << 10, PAINT = 0xA5, MOST_FIXED = 2048 };

static const gate_settings FEW = { 2000, 64, 16 };
static const char CALLS[] = "f\nf\ti32:1\nf0\ti32:1\ti64:2\n\nadd\ti32:1\ti32:1\n";
static text modules[MOST];
static size_t module_count;

static void read_module(const char *folder, const char *name) {
    const text read = bytes_of(folder, name);
    if (read.length > LONGEST) return;
    modules[module_count++] = (text){ memcpy(malloc(read.length + 1), read.at, read.length), read.length };
}

static int by_bytes(const void *one, const void *other) {
    const text *left = one, *right = other;
    const int first = memcmp(left->at, right->at, left->length < right->length ? left->length : right->length);
    return first ? first : (left->length > right->length) - (left->length < right->length);
}

void read_modules(const char *folder) {
    DIR *entries = opendir(folder);
    if (!entries) fail(folder);
    for (struct dirent *it; module_count < MOST && (it = readdir(entries));)
        if (strlen(it->d_name) > 5 && !strcmp(it->d_name + strlen(it->d_name) - 5, ".wasm")) read_module(folder, it->d_name);
    closedir(entries);
    if (!module_count) fail("no modules");
    qsort(modules, module_count, sizeof *modules, by_bytes);
}

void free_modules(void) {
    while (module_count > 0) free((void *)modules[--module_count].at);
}

/* One change: a byte set or turned, put in or left out, the end cut off, or bytes of another module. */
static size_t changed(uint8_t *at, size_t length, play *by) {
    const size_t place = below(by, length), rest = length - place;
    const text *other = &modules[below(by, module_count)];
    const size_t most = rest < other->length ? rest : other->length, copied = below(by, most < 64 ? most : 64);
    switch (below(by, 6)) {
    case 0: at[place] = (uint8_t)random_of(by); return length + !length;
    case 1: at[place] ^= (uint8_t)(1u << below(by, 8)); return length + !length;
    case 2: memmove(at + place + 1, at + place, rest); at[place] = (uint8_t)random_of(by); return length + 1;
    case 3: if (length) memmove(at + place, at + place + 1, rest - 1); return length - (length > 0);
    case 4: return below(by, length + 1);
    default: memcpy(at + place, other->at + below(by, other->length - copied + 1), copied); return length;
    }
}

static bool is_same(const gate_verdict *one, const gate_verdict *other) {
    return one->kind == other->kind && one->rule == other->rule && one->function == other->function && one->token == other->token;
}

/* The module is called, and its calls are run, into buffers of that much room at the end of pages. */
static void use(text bytes, uint32_t status, const gate_verdict *verdict, uint8_t *end, play *by) {
    gate_verdict other;
    gate_module module;
    gate_report kept;
    gate_call ended;
    size_t length = 0, room = below(by, 300), values = below(by, 4);
    const gate_value args[] = { { 32, random_of(by) & UINT32_MAX }, { 64, random_of(by) } };
    HOLDS(by, gate_module_new(bytes.at, bytes.length, &other, &module) == status && is_same(verdict, &other));
    const uint32_t ran =
        gate_run(bytes.at, bytes.length, (const uint8_t *)CALLS, sizeof CALLS - 1, &FEW, end - room, room, &length, &kept);
    HOLDS(by, ran == (length > room ? (uint32_t)GATE_SHORT_BUFFER : status));
    if (ran == GATE_SHORT_BUFFER) {
        HOLDS(by, length < ROOM && gate_report_read(kept, end - length, length, &length) == status);
        gate_report_free(kept);
    }
    if (status != GATE_OK) return;
    HOLDS(by, gate_module_call(module, (const uint8_t *)"f0", 2, args, below(by, 3), &FEW, (gate_value *)(void *)end - values, values,
                           &ended) == GATE_OK);
    gate_module_free(module);
}

static void guard_at(uint8_t *pages, uint8_t *at, text bytes, uint8_t *end, play *by) {
    gate_verdict verdict;
    gate_explanation explained;
    memcpy(at, bytes.at, bytes.length);
    if (mprotect(pages, ROOM, PROT_READ)) fail("no pages");
    const uint32_t status = gate_check(at, bytes.length, &verdict);
    HOLDS(by, status == (verdict.kind == GATE_ACCEPTED ? GATE_OK : GATE_MODULE_REFUSED));
    HOLDS(by, gate_explain(at, bytes.length, &explained) == status && is_same(&verdict, &explained.verdict));
    use((text){ at, bytes.length }, status, &verdict, end, by);
    if (mprotect(pages, ROOM, PROT_READ | PROT_WRITE)) fail("no pages");
}

void part_guard(play *by, long count) {
    static uint8_t bytes[ROOM];
    uint8_t *pages = fence_of(ROOM).at, *out = fence_of(ROOM).at;
    for (long i = 0; i < count && !by->failed; i++) {
        const text *from = &modules[below(by, module_count)];
        size_t length = from->length;
        memcpy(bytes, from->at, length);
        for (size_t k = below(by, 4); k > 0; k--) length = changed(bytes, length, by);
        guard_at(pages, pages + ROOM - length, (text){ bytes, length }, out + ROOM, by);
        guard_at(pages, pages, (text){ bytes, length }, out + ROOM, by);
    }
}

/* An instance of a module, and each call that takes one. */
static void live(gate_module module, uint8_t *end, play *by) {
    gate_instance it;
    gate_call ended;
    gate_value value;
    uint64_t size = 0;
    const uint32_t made = gate_instance_new(module, &FEW, &it, &ended);
    if (made != GATE_OK) {
        HOLDS(by, made == GATE_NO_INSTANCE);
        return;
    }
    HOLDS(by, gate_instance_call(it, (const uint8_t *)"f", 1, NULL, 0, &FEW, &value, 1, &ended) == GATE_OK);
    HOLDS(by, gate_instance_memory_size(it, &size) == GATE_OK);
    HOLDS(by, gate_instance_read(it, 0, end - 16, 16) == (size ? GATE_OK : GATE_OUTSIDE));
    HOLDS(by, gate_instance_write(it, size, end - 16, 16) == GATE_OUTSIDE);
    if (size) HOLDS(by, gate_instance_write(it, size - 16, end - 16, 16) == GATE_OK);
    if (gate_instance_global(it, (const uint8_t *)"g", 1, &value) == GATE_OK) HOLDS(by, value.width == 32 || value.width == 64);
    HOLDS(by, gate_instance_reset(it, &ended) == GATE_OK);
    gate_instance_free(it);
}

/* All that takes memory. */
static void round_of(text bytes, uint8_t *end, play *by) {
    gate_verdict verdict;
    gate_explanation explained;
    gate_module module, other;
    gate_call ended;
    size_t length = 0;
    const uint32_t status = gate_check(bytes.at, bytes.length, &verdict);
    HOLDS(by, gate_explain(bytes.at, bytes.length, &explained) == status);
    HOLDS(by, gate_explain_text(bytes.at, bytes.length, end - LONGEST, LONGEST, &length) == status);
    use(bytes, status, &verdict, end, by);
    if (gate_module_new(bytes.at, bytes.length, &verdict, &module) != GATE_OK) return;
    HOLDS(by, gate_module_starts(module, &FEW, &ended) == GATE_OK);
    live(module, end, by);
    HOLDS(by, gate_module_share(module, &other) == GATE_OK);
    gate_module_free(module);
    gate_module_free(other);
}

void part_rounds(play *by, long count) {
    uint8_t *out = fence_of(ROOM).at;
    const long before = asks.blocks;
    for (long i = 0; i < count && !by->failed; i++) {
        round_of(modules[below(by, module_count)], out + ROOM, by);
        HOLDS(by, asks.blocks == before);
    }
}

void part_handles(play *by, long count) {
    static const uint8_t add[] = { 0, 'a', 's', 'm', 1, 0, 0, 0, 1, 7, 1, 0x60, 2, 0x7F, 0x7F, 1, 0x7F, 3, 2, 1, 0,
                                   7, 7,   1,   3,   'a', 'd', 'd', 0, 0, 0x0A, 9, 1, 7, 0, 0x20, 0, 0x20, 1, 0x6A, 0x0B };
    const gate_value args[] = { { 32, 40 }, { 32, 2 } };
    gate_module *all = malloc((size_t)count * sizeof *all);
    gate_verdict verdict;
    if (!all || count < 1 || gate_module_new(add, sizeof add, &verdict, all) != GATE_OK) fail("no module");
    for (long i = 1; i < count; i++) HOLDS(by, gate_module_share(all[below(by, (size_t)i)], &all[i]) == GATE_OK);
    for (long left = count; left > 0; left--) {
        const size_t at = below(by, (size_t)left);
        gate_value sum = { 0, 0 };
        gate_call ended;
        HOLDS(by, gate_module_call(all[at], (const uint8_t *)"add", 3, args, 2, &FEW, &sum, 1, &ended) == GATE_OK && sum.bits == 42);
        gate_module_free(all[at]);
        all[at] = all[left - 1];
    }
    free(all);
}

/* What a thread asks on a painted stack; an idle one has none. */
typedef struct asked {
    play *by;
    uint8_t *end;
} asked;

static void *on_stack(void *at) {
    const asked *of = at;
    for (size_t i = 0; of && i < module_count; i++) round_of(modules[i], of->end, of->by);
    return NULL;
}

/* How many bytes a thread writes of its stack. */
static size_t painted_over(uint8_t *stack, asked *of) {
    pthread_attr_t attributes;
    pthread_t thread;
    size_t clean = 0;
    memset(stack, PAINT, STACK);
    pthread_attr_init(&attributes);
    if (pthread_attr_setstack(&attributes, stack, STACK) || pthread_create(&thread, &attributes, on_stack, of)) fail("no thread");
    pthread_join(thread, NULL);
    while (clean < STACK && stack[clean] == PAINT) clean++;
    return STACK - clean;
}

void part_stack(play *by, long count) {
    (void)count;
    uint8_t *stack = fence_of(STACK).at;
    asked all = { by, fence_of(ROOM).at + ROOM };
    const size_t of_thread = painted_over(stack, NULL), of_all = painted_over(stack, &all);
    if (!HOLDS(by, of_all <= of_thread + MOST_STACK)) fprintf(stderr, "play: %zu bytes, and %zu of the thread\n", of_all, of_thread);
}

void part_size(play *by, long count) {
    (void)count;
    for (size_t i = 0; i < module_count; i++) {
        const size_t before = asks.given;
        gate_verdict verdict;
        gate_module module;
        if (gate_module_new(modules[i].at, modules[i].length, &verdict, &module) != GATE_OK) continue;
        const uint64_t size = gate_module_size(module), grew = asks.given - before;
        if (!HOLDS(by, size <= grew && grew <= 2 * size + MOST_FIXED))
            fprintf(stderr, "play: a module of %zu bytes: %lu, and the heap grew by %lu\n", modules[i].length, size, grew);
        gate_module_free(module);
        HOLDS(by, asks.given == before);
    }
}
