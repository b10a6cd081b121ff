/* What the trials share: a script that is read from standard input, and a clock. */
#ifndef RUNS_H
#define RUNS_H

#include "../cepage.h"
#include <stdio.h>
#include <stdlib.h>
#include <string.h>
#include <time.h>

struct script {
    uint8_t *text;
    size_t length;
};

static inline void *room(size_t length) {
    void *at = malloc(length > 0 ? length : 1);
    if (at == NULL) {
        fputs("no memory\n", stderr);
        exit(6);
    }
    return at;
}

static inline struct script read_script(void) {
    enum { MOST = CEPAGE_MOST_SCRIPT + 4096 };
    struct script script = {room(MOST), 0};
    script.length = fread(script.text, 1, MOST, stdin);
    return script;
}

/* Runs a script with the plain words. */
static inline uint8_t run_plain(struct script script, bool trace, uint8_t *out, size_t cap, size_t *written) {
    return cepage_run(script.text, script.length, CEPAGE_PLAIN_FUEL, trace, out, 0, out, 0, out, cap, written);
}

static inline double now(void) {
    struct timespec at;
    clock_gettime(CLOCK_MONOTONIC, &at);
    return (double)at.tv_sec + (double)at.tv_nsec * 1e-9;
}

#endif
