/* Judges many modules on threads of its own.
 * usage: judge_folder FOLDER [THREADS]    each file of the folder, by its name: `NAME: ` and the line of its verdict
 *        judge_folder - [THREADS]         each file that standard input names, one a line: the line of its verdict alone
 * Ends with 0 where all files are judged; 74 where one cannot be read, and 70 without memory: then what is wrong stands in the place of
 * the line. */
#define _POSIX_C_SOURCE 200809L
#include "files.h"
#include "gate.h"
#include <dirent.h>
#include <pthread.h>
#include <stdatomic.h>
#include <stdio.h>
#include <stdlib.h>
#include <string.h>
#include <sys/stat.h>

enum { THREADS = 4, MOST_THREADS = 64, LONGEST_LINE = 64 };

typedef struct job {
    char *path;
    const char *name; /* in `path`, or "" where only the verdict is asked for */
    gate_verdict verdict;
    uint32_t status; /* what gate_check answered, or NO_FILE */
} job;

typedef struct work {
    job *jobs;
    size_t count, most;
    atomic_size_t next; /* the first job that no thread has taken */
} work;

static void add(work *all, char *path, const char *name) {
    if (all->count == all->most) {
        all->most = all->most ? 2 * all->most : 64;
        all->jobs = room(all->jobs, all->most, sizeof *all->jobs);
    }
    all->jobs[all->count++] = (job){ .path = path, .name = name };
}

static void add_names(work *all, FILE *names) {
    char *line = NULL;
    size_t size = 0;
    ssize_t length;
    while ((length = getline(&line, &size, names)) >= 0) {
        if (length && line[length - 1] == '\n') line[--length] = 0;
        char *path = room(NULL, (size_t)length + 1, 1);
        add(all, memcpy(path, line, (size_t)length + 1), "");
    }
    free(line);
    if (ferror(names)) end(NO_FILE, "cannot read ", "standard input");
}

static char *joined(const char *folder, const char *name) {
    size_t size = strlen(folder) + strlen(name) + 2;
    char *path = room(NULL, size, 1);
    snprintf(path, size, "%s/%s", folder, name);
    return path;
}

static void add_folder(work *all, const char *folder) {
    DIR *entries = opendir(folder);
    if (!entries) end(NO_FILE, "cannot read ", folder);
    for (struct dirent *entry; (entry = readdir(entries));) {
        struct stat found;
        char *path = joined(folder, entry->d_name);
        if (stat(path, &found) || S_ISREG(found.st_mode))
            add(all, path, path + strlen(folder) + 1);
        else
            free(path);
    }
    closedir(entries);
}

static int by_path(const void *one, const void *other) {
    return strcmp(((const job *)one)->path, ((const job *)other)->path);
}

static void judge(job *it) {
    bytes file;
    if (!read_file(it->path, &file)) {
        it->status = NO_FILE;
        return;
    }
    it->status = gate_check(file.at, file.length, &it->verdict);
    free(file.at);
}

/* What each thread does: it takes a job for as long as there is one. */
static void *judge_jobs(void *at) {
    work *all = at;
    for (size_t i; (i = atomic_fetch_add(&all->next, 1)) < all->count;) judge(&all->jobs[i]);
    return NULL;
}

/* This thread is one of them; where no other can be started, it does all by itself. */
static void judge_all(work *all, size_t threads) {
    pthread_t others[MOST_THREADS];
    size_t started = 0;
    while (started + 1 < threads && !pthread_create(&others[started], NULL, judge_jobs, all)) started++;
    judge_jobs(all);
    while (started) pthread_join(others[--started], NULL);
}

static int print_line(const job *it) {
    uint8_t line[LONGEST_LINE];
    size_t length = 0;
    uint32_t status = it->status;
    if (status == GATE_OK || status == GATE_MODULE_REFUSED) status = gate_verdict_line(&it->verdict, line, sizeof line, &length);
    if (*it->name) printf("%s: ", it->name);
    if (status == GATE_OK)
        print(line, length);
    else
        puts(status == NO_FILE ? "cannot be read" : "no memory");
    return (int)status;
}

static int print_all(const work *all) {
    int worst = GATE_OK;
    for (size_t i = 0; i < all->count; i++) {
        int status = print_line(&all->jobs[i]);
        if (status > worst) worst = status;
    }
    flush();
    return worst;
}

static void free_all(work *all) {
    for (size_t i = 0; i < all->count; i++) free(all->jobs[i].path);
    free(all->jobs);
}

int main(int count, char **words) {
    if (count < 2 || count > 3) end(WRONG_WORDS, "usage: judge_folder FOLDER|- [THREADS]", "");
    size_t threads = count == 3 ? number_of(words[2], MOST_THREADS) : THREADS;
    work all = { 0 };
    if (strcmp(words[1], "-")) {
        add_folder(&all, words[1]);
        if (all.count) qsort(all.jobs, all.count, sizeof *all.jobs, by_path);
    } else {
        add_names(&all, stdin);
    }
    judge_all(&all, threads);
    int worst = print_all(&all);
    free_all(&all);
    return worst;
}
