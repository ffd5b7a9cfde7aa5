/* Instances of all plug-ins, step by step: alone, on threads, and with memory refused. */
#include "guest.h"
#include "parts.h"
#include <pthread.h>

enum { THREADS = 8, SHARED = 4 };

void part_steps(play *it, long count) {
    static guest guests[PLUGINS];
    for (int i = 0; i < PLUGINS; i++) guests[i] = (guest){ .of = &plugins[i], .module = judged(it, &plugins[i]) };
    for (long i = 0; i < count && !it->failed; i++) step(it, &guests[below(it, PLUGINS + 2) % PLUGINS]);
    for (int i = 0; i < PLUGINS; i++) end_guest(&guests[i]);
}

/* Instances that any thread may take for one of its own. */
typedef struct market {
    pthread_mutex_t lock;
    guest stalls[SHARED * PLUGINS];
} market;

typedef struct worker {
    pthread_t thread;
    play play;
    guest guests[PLUGINS];
    long count;
    market *at;
    guest carried;
} worker;

/* The instance and its model change hands; the handle of the module goes with them. */
static void exchange(worker *it, guest *own) {
    guest *stall = &it->at->stalls[(own->of - plugins) * SHARED + (long)below(&it->play, SHARED)];
    pthread_mutex_lock(&it->at->lock);
    it->carried = *stall;
    *stall = *own;
    *own = it->carried;
    pthread_mutex_unlock(&it->at->lock);
}

static void *work(void *at) {
    worker *it = at;
    for (long i = 0; i < it->count && !it->play.failed; i++) {
        guest *on = &it->guests[below(&it->play, PLUGINS)];
        step(&it->play, on);
        if (seldom(&it->play)) exchange(it, on);
    }
    for (int i = 0; i < PLUGINS; i++) end_guest(&it->guests[i]);
    return NULL;
}

static guest shared_guest(play *it, gate_module module, const plugin *of) {
    guest on = { .of = of };
    HOLDS(it, gate_module_share(module, &on.module) == GATE_OK);
    return on;
}

static void begin_workers(play *it, market *all, worker *workers, long count) {
    for (int i = 0; i < PLUGINS; i++) {
        const gate_module module = judged(it, &plugins[i]);
        for (int k = 0; k < SHARED; k++) all->stalls[i * SHARED + k] = shared_guest(it, module, &plugins[i]);
        for (int k = 0; k < THREADS; k++) workers[k].guests[i] = shared_guest(it, module, &plugins[i]);
        gate_module_free(module);
    }
    for (int k = 0; k < THREADS; k++) {
        workers[k].count = count;
        workers[k].at = all;
        begin_play(&workers[k].play, it->seed + (uint64_t)k + 1, false);
        if (pthread_create(&workers[k].thread, NULL, work, &workers[k])) fail("no thread");
    }
}

void part_threads(play *it, long count) {
    static market all = { .lock = PTHREAD_MUTEX_INITIALIZER };
    static worker workers[THREADS];
    begin_workers(it, &all, workers, count);
    for (int k = 0; k < THREADS; k++) {
        pthread_join(workers[k].thread, NULL);
        it->held += workers[k].play.held;
        it->failed += workers[k].play.failed;
        end_play(&workers[k].play);
    }
    for (int i = 0; i < SHARED * PLUGINS; i++) end_guest(&all.stalls[i]);
}

enum { SEQUENCE = 30 };

/* Plays a sequence, which the seed makes, with this request refused, or none where it is 0. No block stays behind. */
static void play_sequence(play *it, const plugin *of, uint64_t seed, long refused, bool refuses_on) {
    static guest on;
    asks = (heap){ .refused = refused, .refuses_on = refuses_on };
    it->seed = seed;
    memset(&on, 0, sizeof on);
    on.of = of;
    on.module = judged(it, of);
    for (int i = 0; i < SEQUENCE; i++) step(it, &on);
    end_guest(&on);
    HOLDS(it, asks.blocks == 0);
}

static long refuse_each(play *it, const plugin *of, uint64_t seed) {
    play_sequence(it, of, seed, 0, false);
    const long requests = asks.asked;
    for (long k = 1; k <= requests && !it->failed; k++) {
        play_sequence(it, of, seed, k, false);
        play_sequence(it, of, seed, k, true);
    }
    return requests;
}

void part_refuse(play *it, long count) {
    const uint64_t seed = it->seed;
    long requests = 0;
    it->may_refuse = true;
    for (long i = 0; i < count && !it->failed; i++) requests += refuse_each(it, &plugins[i % PLUGINS], seed + (uint64_t)i);
    HOLDS(it, requests >= count);
}
