// Preloaded into a program: the request for memory with the number in REFUSED, from 1, is refused, and no other. The file in
// ASKED has two words of 64 bits: how many bytes the largest request was for, and how many all were for together.
#define _GNU_SOURCE
#include <dlfcn.h>
#include <fcntl.h>
#include <stdatomic.h>
#include <stdlib.h>
#include <sys/mman.h>
#include <unistd.h>

struct sizes { atomic_ulong largest, together; };

static atomic_long asked;
static struct sizes *sizes;
static long refused = -1;
static void *(*real_malloc)(size_t);
static void *(*real_realloc)(void *, size_t);
static int (*real_memalign)(void **, size_t, size_t);

// The program may end by `_exit`, so what it asked for is counted in the file itself.
static struct sizes *opened(const char *path) {
    int file = open(path, O_RDWR | O_CREAT | O_TRUNC, 0600);
    if (file < 0 || ftruncate(file, sizeof *sizes)) abort();
    void *there = mmap(0, sizeof *sizes, PROT_READ | PROT_WRITE, MAP_SHARED, file, 0);
    if (there == MAP_FAILED) abort();
    close(file);
    return there;
}

__attribute__((constructor)) static void begin(void) {
    real_malloc = dlsym(RTLD_NEXT, "malloc");
    real_realloc = dlsym(RTLD_NEXT, "realloc");
    real_memalign = dlsym(RTLD_NEXT, "posix_memalign");
    const char *text = getenv("REFUSED"), *path = getenv("ASKED");
    refused = text ? atol(text) : -1;
    sizes = path ? opened(path) : 0;
}

static int is_refused(size_t size) {
    if (sizes) {
        unsigned long most = atomic_load(&sizes->largest);
        while (size > most && !atomic_compare_exchange_weak(&sizes->largest, &most, size)) {}
        atomic_fetch_add(&sizes->together, size);
    }
    return refused > 0 && atomic_fetch_add(&asked, 1) + 1 == refused;
}

void *malloc(size_t size) {
    if (!real_malloc) real_malloc = dlsym(RTLD_NEXT, "malloc");
    return is_refused(size) ? 0 : real_malloc(size);
}

void *realloc(void *block, size_t size) {
    if (!real_realloc) real_realloc = dlsym(RTLD_NEXT, "realloc");
    return is_refused(size) ? 0 : real_realloc(block, size);
}

int posix_memalign(void **block, size_t align, size_t size) {
    if (!real_memalign) real_memalign = dlsym(RTLD_NEXT, "posix_memalign");
    return is_refused(size) ? 12 : real_memalign(block, align, size);
}
