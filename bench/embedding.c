// What a call of the library costs a host, and what a process of the program does.
// usage: embedding library MODULE [NAME NUMBER..]    gate_check, gate_module_new and _free; of an export, with these numbers of 32 bits,
//                                                    gate_module_call, and gate_run with texts
//        embedding process PROGRAM WORD..            a process of the program, by posix_spawn, till its end
// Prints lines: a name, the least and the median of 31 turns, in nanoseconds, between tabs.
#define _GNU_SOURCE
#include "gate.h"
#include <fcntl.h>
#include <spawn.h>
#include <stdio.h>
#include <stdlib.h>
#include <string.h>
#include <sys/wait.h>
#include <time.h>

extern char **environ;

enum { TURNS = 31, TURN = 2000000, MOST_ARGS = 8, ROOM = 4096 };

typedef struct host {
    uint8_t bytes[1 << 16];
    size_t length;
    gate_module module;
    char **words, *name, calls[ROOM];
    gate_value args[MOST_ARGS];
    size_t count;
} host;

typedef int doing(host *);

static const gate_settings SETTINGS = { 1000000, 1024, 256 };

static void fail(const char *why) {
    fprintf(stderr, "embedding: %s\n", why);
    exit(2);
}

static double now(void) {
    struct timespec t;
    clock_gettime(CLOCK_MONOTONIC, &t);
    return t.tv_sec * 1e9 + t.tv_nsec;
}

static int by_size(const void *one, const void *other) {
    double left = *(const double *)one, right = *(const double *)other;
    return (left > right) - (left < right);
}

// The nanoseconds that it takes once, on average over the rounds.
static double turn(doing *once, host *it, long rounds) {
    double start = now();
    for (long i = 0; i < rounds; i++)
        if (once(it)) fail("another answer");
    return (now() - start) / rounds;
}

static void measure(const char *name, doing *once, host *it) {
    long rounds = 1;
    while (turn(once, it, rounds) * rounds < TURN) rounds *= 2;
    double took[TURNS];
    for (int i = 0; i < TURNS; i++) took[i] = turn(once, it, rounds);
    qsort(took, TURNS, sizeof *took, by_size);
    printf("%s\t%.1f\t%.1f\n", name, took[0], took[TURNS / 2]);
}

static int check(host *it) {
    gate_verdict verdict;
    return gate_check(it->bytes, it->length, &verdict) != GATE_OK;
}

static int new_and_free(host *it) {
    gate_verdict verdict;
    gate_module module;
    if (gate_module_new(it->bytes, it->length, &verdict, &module) != GATE_OK) return 1;
    gate_module_free(module);
    return 0;
}

static int share_and_free(host *it) {
    gate_module other;
    if (gate_module_share(it->module, &other) != GATE_OK) return 1;
    gate_module_free(other);
    return 0;
}

static int call(host *it) {
    gate_value result;
    gate_call ended;
    uint32_t status = gate_module_call(it->module, (const uint8_t *)it->name, strlen(it->name), it->args, it->count, &SETTINGS, &result, 1,
                                       &ended);
    return status != GATE_OK || ended.end != GATE_VALUES;
}

static int run_module(host *it) {
    uint8_t out[ROOM];
    size_t length;
    gate_report kept;
    return gate_module_run(it->module, (const uint8_t *)it->calls, strlen(it->calls), &SETTINGS, out, ROOM, &length, &kept) != GATE_OK;
}

static int run(host *it) {
    uint8_t out[ROOM];
    size_t length;
    gate_report kept;
    return gate_run(it->bytes, it->length, (const uint8_t *)it->calls, strlen(it->calls), &SETTINGS, out, ROOM, &length, &kept) != GATE_OK;
}

static int process(host *it) {
    pid_t child;
    int status;
    posix_spawn_file_actions_t actions;
    posix_spawn_file_actions_init(&actions);
    posix_spawn_file_actions_addopen(&actions, 1, "/dev/null", O_WRONLY, 0);
    int failed = posix_spawn(&child, it->words[0], &actions, NULL, it->words, environ);
    posix_spawn_file_actions_destroy(&actions);
    return failed || waitpid(child, &status, 0) != child || status;
}

static void read_module(host *it, const char *path) {
    FILE *file = fopen(path, "rb");
    if (!file) fail("the module cannot be read");
    it->length = fread(it->bytes, 1, sizeof it->bytes, file);
    fclose(file);
}

static void read_call(host *it, char **words, int count) {
    char *end = it->calls;
    it->name = words[0];
    end += sprintf(end, "%.99s", words[0]);
    for (; it->count + 1 < (size_t)count && it->count < MOST_ARGS; it->count++) {
        it->args[it->count] = (gate_value){ 32, (uint32_t)atol(words[it->count + 1]) };
        end += sprintf(end, "\ti32:%d", (int32_t)it->args[it->count].bits);
    }
    sprintf(end, "\n");
}

static void measure_calls(host *it) {
    gate_verdict verdict;
    if (gate_module_new(it->bytes, it->length, &verdict, &it->module) != GATE_OK) fail("the module is refused");
    measure("gate_module_call", call, it);
    measure("gate_module_share and _free", share_and_free, it);
    measure("gate_module_run", run_module, it);
    measure("gate_run", run, it);
    gate_module_free(it->module);
}

int main(int count, char **words) {
    static host it;
    if (count < 3) fail("three words are needed");
    if (!strcmp(words[1], "process")) {
        it.words = words + 2;
        measure("process", process, &it);
        return 0;
    }
    read_module(&it, words[2]);
    measure("gate_check", check, &it);
    measure("gate_module_new and _free", new_and_free, &it);
    if (count > 3) {
        read_call(&it, words + 3, count - 3);
        measure_calls(&it);
    }
    return 0;
}
