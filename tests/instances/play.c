/* See play.h. Linked with -Wl,--wrap=malloc,--wrap=realloc,--wrap=free. */
#define _GNU_SOURCE
#include "play.h"
#include <malloc.h>
#include <sys/mman.h>

enum { SHOWN = 20 };

void *__real_malloc(size_t size);
void *__real_realloc(void *block, size_t size);
void __real_free(void *block);
void *__wrap_malloc(size_t size);
void *__wrap_realloc(void *block, size_t size);
void __wrap_free(void *block);

_Thread_local heap asks;

static void *granted(void *block, const void *old, size_t before) {
    if (!block) {
        asks.was_refused = true;
        return NULL;
    }
    asks.blocks += !old;
    asks.given += malloc_usable_size(block) - before;
    return block;
}

static bool is_refused(void) {
    if (!asks.is_in_call) return false;
    asks.asked++;
    return asks.asked == asks.refused || (asks.refuses_on && asks.was_refused);
}

void *__wrap_malloc(size_t size) { return granted(is_refused() ? NULL : __real_malloc(size), NULL, 0); }

void *__wrap_realloc(void *old, size_t size) {
    const size_t before = malloc_usable_size(old);
    return granted(is_refused() ? NULL : __real_realloc(old, size), old, before);
}

void __wrap_free(void *block) {
    asks.blocks -= block != NULL;
    asks.given -= malloc_usable_size(block);
    __real_free(block);
}

void fail(const char *why) {
    fprintf(stderr, "play: %s\n", why);
    exit(2);
}

bool holds(play *it, bool is, const char *what, const char *file, int line) {
    it->held += is;
    it->failed += !is;
    if (!is && it->failed <= SHOWN) fprintf(stderr, "%s:%d: %s\n", file, line, what);
    return is;
}

fence fence_of(size_t length) {
    const size_t page = SYSTEM_PAGE, room = (length + page - 1) / page * page;
    uint8_t *at = mmap(NULL, room + 2 * page, PROT_NONE, MAP_PRIVATE | MAP_ANONYMOUS, -1, 0);
    if (at == MAP_FAILED || mprotect(at + page, room, PROT_READ | PROT_WRITE)) fail("no pages");
    return (fence){ at + page, room };
}

void begin_play(play *it, uint64_t seed, bool is_fenced) {
    memset(it, 0, sizeof *it);
    it->seed = seed;
    it->is_fenced = is_fenced;
    for (int i = 0; is_fenced && i < ROLES; i++) it->fences[i] = fence_of(i == IN || i == OUT ? (MOST_PAGES + 1) * PAGE : PAGE);
}

void end_play(play *it) {
    for (int i = 0; i < ROLES; i++) {
        __real_free(it->blocks[i]);
        if (it->fences[i].at) munmap(it->fences[i].at - SYSTEM_PAGE, it->fences[i].room + 2 * SYSTEM_PAGE);
    }
}

/* splitmix64 */
uint64_t random_of(play *it) {
    uint64_t z = it->seed += UINT64_C(0x9E3779B97F4A7C15);
    z = (z ^ z >> 30) * UINT64_C(0xBF58476D1CE4E5B9);
    z = (z ^ z >> 27) * UINT64_C(0x94D049BB133111EB);
    return z ^ z >> 31;
}

uint64_t below(play *it, uint64_t most) { return most ? random_of(it) % most : 0; }

bool seldom(play *it) { return below(it, 16) == 0; }

void *buffer(play *it, role of, size_t length) {
    if (!length && below(it, 2)) return NULL;
    uint8_t *at;
    if (it->is_fenced) {
        if (length > it->fences[of].room) fail("a fence is too small");
        at = it->fences[of].at + (below(it, 2) ? it->fences[of].room - length : 0);
    } else {
        __real_free(it->blocks[of]);
        it->blocks[of] = at = __real_malloc(length ? length : 1);
        if (!at) fail("no memory");
    }
    if (length) memset(at, UNTOUCHED, length);
    return at;
}

bool is_untouched(const void *at, size_t length) {
    const uint8_t *bytes = at;
    return !length || (bytes[0] == UNTOUCHED && !memcmp(bytes, bytes + 1, length - 1));
}

bool is_end(const gate_call *it, uint32_t end, uint32_t reason, uint32_t fuel, uint64_t results) {
    return it->end == end && it->reason == reason && it->place == 0 && it->fuel == fuel && it->results == results;
}

bool is_short(const gate_call *it) { return it->end == GATE_CALL_NO_MEMORY && !it->reason && !it->place && !it->results; }

text bytes_of(const char *folder, const char *name) {
    static uint8_t bytes[PAGE];
    char path[1024];
    snprintf(path, sizeof path, "%s/%s", folder, name);
    FILE *file = fopen(path, "rb");
    if (!file) fail(path);
    const text read = { bytes, fread(bytes, 1, sizeof bytes, file) };
    fclose(file);
    return read;
}
