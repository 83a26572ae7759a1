/* A program, run on an input through pipes. */
#define _GNU_SOURCE
#include "fuzz.h"

#include <errno.h>
#include <fcntl.h>
#include <poll.h>
#include <signal.h>
#include <spawn.h>
#include <sys/wait.h>
#include <unistd.h>

extern char **environ;

enum { MILLISECONDS = 20000 };

static pid_t start(char **words, int in, int out) {
    posix_spawn_file_actions_t actions;
    posix_spawnattr_t attributes;
    sigset_t pipe_signal;
    pid_t pid;
    int failed;
    sigemptyset(&pipe_signal), sigaddset(&pipe_signal, SIGPIPE);
    posix_spawn_file_actions_init(&actions);
    posix_spawn_file_actions_adddup2(&actions, in, 0);
    posix_spawn_file_actions_adddup2(&actions, out, 1);
    posix_spawnattr_init(&attributes);
    posix_spawnattr_setsigdefault(&attributes, &pipe_signal);
    posix_spawnattr_setflags(&attributes, POSIX_SPAWN_SETSIGDEF);
    failed = posix_spawn(&pid, words[0], &actions, &attributes, words, environ);
    posix_spawn_file_actions_destroy(&actions);
    posix_spawnattr_destroy(&attributes);
    return failed ? -1 : pid;
}

/* Writes a piece; gives 0 once there is nothing more to write, or nobody to read it. */
static int write_piece(int to, Random *r, const Input *input, size_t *at) {
    size_t left = input->size - *at, piece = chance(r, 50) ? left : 1 + below(r, (uint32_t)left + 1);
    ssize_t n = write(to, input->bytes + *at, piece < left ? piece : left);
    if (n < 0) return errno == EAGAIN || errno == EINTR;
    *at += (size_t)n;
    return *at < input->size;
}

static int read_piece(int from, Text *text) {
    ssize_t n = read(from, text->bytes + text->size, TEXT_MOST - text->size);
    if (n < 0) return errno == EAGAIN || errno == EINTR;
    text->size += (size_t)n;
    return n > 0;
}

/* Gives 0 if the time ran out. */
static int exchange(int to, int from, Random *r, const Input *input, Text *text) {
    size_t at = 0;
    int writing = input->size > 0, reading = 1;
    if (!writing) close(to);
    while (reading) {
        struct pollfd ends[2] = {{from, POLLIN, 0}, {writing ? to : -1, POLLOUT, 0}};
        if (poll(ends, 2, MILLISECONDS) <= 0) break;
        if (ends[0].revents) reading = read_piece(from, text);
        if (writing && ends[1].revents && !(writing = write_piece(to, r, input, &at))) close(to);
    }
    if (writing) close(to);
    close(from);
    return !reading;
}

const char *run_program(char **words, Random *r, const Input *input, Text *text) {
    int in[2], out[2], status, ended;
    pid_t pid;
    text->size = 0;
    if (pipe2(in, O_CLOEXEC) || pipe2(out, O_CLOEXEC)) return "no pipe";
    fcntl(in[1], F_SETFL, O_NONBLOCK), fcntl(out[0], F_SETFL, O_NONBLOCK);
    pid = start(words, in[0], out[1]);
    close(in[0]), close(out[1]);
    if (pid < 0) return close(in[1]), close(out[0]), "not started";
    ended = exchange(in[1], out[0], r, input, text);
    if (!ended) kill(pid, SIGKILL);
    waitpid(pid, &status, 0);
    if (!ended) return "did not end in time";
    return status ? "crashed, or ended with a status" : 0;
}
