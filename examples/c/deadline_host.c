/* deadline_host WORKER MODULE MILLISECONDS TEXT..    hands texts to a plug-in in a process of its own, a `worker`, which it ends where an
 * answer takes longer. Prints each answer, or why there is none: the worker's line, `deadline`, or `ended` of a worker that ended. */
#define _GNU_SOURCE
#include "files.h"
#include <poll.h>
#include <signal.h>
#include <stdio.h>
#include <stdlib.h>
#include <string.h>
#include <sys/socket.h>
#include <sys/wait.h>
#include <time.h>
#include <unistd.h>

enum { LONGEST_LINE = 64, MOST_MILLISECONDS = 86400000 };

typedef struct worker {
    pid_t process;
    int line;      /* a socket: its standard input and output */
    int64_t until; /* when the time is over, in milliseconds */
} worker;

static int64_t now(void) {
    struct timespec it;
    clock_gettime(CLOCK_MONOTONIC, &it);
    return (int64_t)it.tv_sec * 1000 + it.tv_nsec / 1000000;
}

static worker start(char **words) {
    int ends[2];
    if (socketpair(AF_UNIX, SOCK_STREAM | SOCK_CLOEXEC, 0, ends)) end(NO_FILE, "no socket", "");
    worker it = { fork(), ends[0], 0 };
    if (it.process < 0) end(NO_FILE, "no process", "");
    if (it.process == 0 && dup2(ends[1], 0) == 0 && dup2(ends[1], 1) == 1) execv(words[0], words);
    if (it.process == 0) _exit(127);
    close(ends[1]);
    return it;
}

static void stop(worker it) {
    kill(it.process, SIGKILL);
    waitpid(it.process, NULL, 0);
    close(it.line);
}

/* Sends bytes (POLLOUT) or receives them (POLLIN); whether all of them, before the time is over. */
static bool moves(worker it, short event, void *at, size_t length) {
    struct pollfd ready = { it.line, event, 0 };
    for (ssize_t moved; length; at = (char *)at + moved, length -= (size_t)moved) {
        int64_t left = it.until - now();
        if (left <= 0 || poll(&ready, 1, (int)left) <= 0) return false;
        moved = event == POLLIN ? recv(it.line, at, length, MSG_DONTWAIT) : send(it.line, at, length, MSG_DONTWAIT | MSG_NOSIGNAL);
        if (moved <= 0) return false;
    }
    return true;
}

/* Asks for an answer, which has bytes after a line of `values` alone; whether it came whole. */
static bool ask(worker it, char *text, char *line, bytes *answer) {
    int digits = snprintf(line, LONGEST_LINE, "%zu\n", strlen(text)), length = 0;
    if (!moves(it, POLLOUT, line, (size_t)digits) || !moves(it, POLLOUT, text, strlen(text))) return false;
    do {
        if (length == LONGEST_LINE - 1 || !moves(it, POLLIN, line + length, 1)) return false;
    } while (line[length++] != '\n');
    line[length - 1] = 0;
    if (sscanf(line, "values %zu", &answer->length) == 1) answer->at = room(NULL, answer->length, 1);
    return moves(it, POLLIN, answer->at, answer->length);
}

int main(int count, char **words) {
    if (count < 4) end(WRONG_WORDS, "usage: deadline_host WORKER MODULE MILLISECONDS TEXT..", "");
    char *of_worker[] = { words[1], words[2], "--fuel", "1000000000", NULL }, line[LONGEST_LINE];
    int64_t milliseconds = number_of(words[3], MOST_MILLISECONDS);
    worker it = start(of_worker);
    for (int i = 4; i < count; i++) {
        bytes answer = { NULL, 0 };
        it.until = now() + milliseconds;
        bool is_whole = ask(it, words[i], line, &answer), is_over = now() >= it.until;
        if (is_whole && answer.at) print(answer.at, answer.length), line[0] = 0;
        puts(is_whole ? line : is_over ? "deadline" : "ended");
        free(answer.at);
        if (!is_whole) stop(it), it = start(of_worker);
    }
    stop(it);
    flush();
    return 0;
}
