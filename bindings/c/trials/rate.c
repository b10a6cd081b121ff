/* rate N PROGRAM: how many calls a second, and how many starts of the program, which is given the same script. */
#define _GNU_SOURCE
#include "runs.h"
#include <fcntl.h>
#include <spawn.h>
#include <sys/wait.h>
#include <unistd.h>

enum { ROOM = 1 << 20 };

static double rate_of_calls(struct script script, long calls) {
    uint8_t *out = room(ROOM);
    size_t written;
    double begun = now();
    for (long k = 0; k < calls; k++) {
        if (run_plain(script, false, out, ROOM, &written) != CEPAGE_DONE) {
            exit(1);
        }
    }
    free(out);
    return (double)calls / (now() - begun);
}

/* Starts the program with two pipes, as a test would, and reads what it writes. */
static void start(struct script script, char *program, uint8_t *out) {
    int to[2], from[2], status;
    if (pipe2(to, O_CLOEXEC) != 0 || pipe2(from, O_CLOEXEC) != 0) {
        exit(1);
    }
    posix_spawn_file_actions_t files;
    posix_spawn_file_actions_init(&files);
    posix_spawn_file_actions_adddup2(&files, to[0], 0);
    posix_spawn_file_actions_adddup2(&files, from[1], 1);
    char *words[] = {program, NULL}, *environment[] = {NULL};
    pid_t child;
    if (posix_spawnp(&child, program, &files, NULL, words, environment) != 0) {
        exit(1);
    }
    posix_spawn_file_actions_destroy(&files);
    close(to[0]);
    close(from[1]);
    if (write(to[1], script.text, script.length) != (ssize_t)script.length) {
        exit(1);
    }
    close(to[1]);
    while (read(from[0], out, ROOM) > 0) {
    }
    close(from[0]);
    if (waitpid(child, &status, 0) != child || !WIFEXITED(status) || WEXITSTATUS(status) != CEPAGE_DONE) {
        exit(1);
    }
}

int main(int count, char **word) {
    if (count != 3) {
        return CEPAGE_USAGE;
    }
    struct script script = read_script();
    long calls = atol(word[1]), starts = calls / 20;
    rate_of_calls(script, calls / 10);
    double of_calls = rate_of_calls(script, calls);
    uint8_t *out = room(ROOM);
    double begun = now();
    for (long k = 0; k < starts; k++) {
        start(script, word[2], out);
    }
    double of_starts = (double)starts / (now() - begun);
    printf("rate from C: %.0f calls a second (%.1f microseconds each), %.0f starts (%.0f microseconds), %.0f times\n", of_calls,
           1e6 / of_calls, of_starts, 1e6 / of_starts, of_calls / of_starts);
    free(out);
    free(script.text);
    return 0;
}
