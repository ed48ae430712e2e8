#define _GNU_SOURCE
#include "program.h"

#include "clock.h"
#include "log.h"

#include <errno.h>
#include <fcntl.h>
#include <poll.h>
#include <signal.h>
#include <spawn.h>
#include <stdio.h>
#include <string.h>
#include <sys/wait.h>
#include <unistd.h>

extern char **environ;

enum {
    PATIENCE = 2000, /* milliseconds that it has for its end */
    WORDS = 20,
    DIGITS = 24,
};

/* The command that starts the program. */
struct command {
    char *words[WORDS];
    char numbers[WORDS][DIGITS];
    int count;
};

static void adds(struct command *command, const char *option, uint64_t number)
{
    char *text = command->numbers[command->count];
    snprintf(text, DIGITS, "%llu", (unsigned long long)number);
    command->words[command->count++] = (char *)option;
    command->words[command->count++] = text;
}

static void makes_command(struct command *command, const struct options *options, uint64_t epoch, uint64_t connections)
{
    *command = (struct command){.words = {(char *)options->program, "locks"}, .count = 2};
    if (IS_GIVEN(options, transactions))
        adds(command, "--transactions", options->transactions);
    if (IS_GIVEN(options, names))
        adds(command, "--names", options->names);
    if (IS_GIVEN(options, name_bytes))
        adds(command, "--name-bytes", options->name_bytes);
    if (IS_GIVEN(options, names_each))
        adds(command, "--names-each", options->names_each);
    adds(command, "--connections", connections);
    adds(command, "--epoch", epoch);
    if (IS_GIVEN(options, each))
        adds(command, "--each", options->each);
}

/* Starts a command between the ends of two pipes, in a session of its own: a Ctrl-C ends it by the end of its input. */
static int starts(struct program *program, struct command *command, int in, int out)
{
    posix_spawn_file_actions_t files;
    posix_spawnattr_t how;
    sigset_t none, all;
    sigemptyset(&none);
    sigfillset(&all);
    posix_spawn_file_actions_init(&files);
    posix_spawn_file_actions_adddup2(&files, in, STDIN_FILENO);
    posix_spawn_file_actions_adddup2(&files, out, STDOUT_FILENO);
    posix_spawnattr_init(&how);
    posix_spawnattr_setsigmask(&how, &none);
    posix_spawnattr_setsigdefault(&how, &all);
    posix_spawnattr_setflags(&how, POSIX_SPAWN_SETSID | POSIX_SPAWN_SETSIGMASK | POSIX_SPAWN_SETSIGDEF);
    int error = posix_spawnp(&program->pid, program->name, &files, &how, command->words, environ);
    posix_spawn_file_actions_destroy(&files);
    posix_spawnattr_destroy(&how);
    return error;
}

/* Makes a pipe, of which the end that the front keeps never waits. */
static bool makes_pipe(int ends[2], int kept)
{
    return pipe2(ends, O_CLOEXEC) == 0 && fcntl(ends[kept], F_SETFL, O_NONBLOCK) == 0;
}

bool program_start(struct program *program, const struct options *options, uint64_t epoch, uint64_t connections)
{
    struct command command;
    int to[2], from[2];
    *program = (struct program){.name = options->program};
    makes_command(&command, options, epoch, connections);
    if (!makes_pipe(to, 1) || !makes_pipe(from, 0)) {
        says("%s: %s", program->name, strerror(errno));
        return false;
    }
    int error = starts(program, &command, to[0], from[1]);
    close(to[0]);
    close(from[1]);
    program->in = to[1];
    program->out = from[0];
    if (error != 0) {
        program->pid = 0;
        says("%s: %s", program->name, strerror(error));
        return false;
    }
    if (clock_getcpuclockid(program->pid, &program->clock) != 0)
        program->clock = CLOCK_MONOTONIC;
    return true;
}

int64_t program_work(const struct program *program)
{
    return clock_microseconds(program->clock);
}

bool program_flush(struct program *program)
{
    program->is_full = false;
    while (buffer_length(&program->waiting) > 0) {
        ssize_t count = write(program->in, buffer_bytes(&program->waiting), buffer_length(&program->waiting));
        if (count < 0 && errno == EAGAIN) {
            program->is_full = true;
            return true;
        }
        if (count < 0 && errno != EINTR)
            return false;
        buffer_drop(&program->waiting, count < 0 ? 0 : (size_t)count);
    }
    return true;
}

/* Reads up to the end of what the program writes, so that it reports no write fault, or until the deadline. */
static void drops_all(int out, int64_t deadline)
{
    char bytes[65536];
    for (;;) {
        int64_t left = deadline - clock_milliseconds(CLOCK_MONOTONIC);
        struct pollfd file = {.fd = out, .events = POLLIN};
        if (poll(&file, 1, left > 0 ? (int)left : 0) == 0)
            return;
        ssize_t count = read(out, bytes, sizeof bytes);
        if (count == 0 || (count < 0 && errno != EINTR && errno != EAGAIN))
            return;
    }
}

int program_end(struct program *program)
{
    int64_t deadline = clock_milliseconds(CLOCK_MONOTONIC) + PATIENCE;
    int status = 0;
    if (program->pid == 0)
        return 0;
    close(program->in);
    drops_all(program->out, deadline);
    close(program->out);
    while (waitpid(program->pid, &status, WNOHANG) == 0) {
        if (clock_milliseconds(CLOCK_MONOTONIC) >= deadline)
            kill(-program->pid, SIGKILL);
        nanosleep(&(struct timespec){.tv_nsec = 1000000}, NULL);
    }
    program->pid = 0;
    buffer_clear(&program->waiting);
    buffer_clear(&program->line);
    return WIFSIGNALED(status) ? -WTERMSIG(status) : WEXITSTATUS(status);
}
