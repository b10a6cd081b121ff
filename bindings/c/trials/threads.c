/* threads N: eight threads at once, each with N calls. Each answer is held against that of one thread alone. */
#include "runs.h"
#include <pthread.h>

enum { THREADS = 8, ROOM = 1 << 18 };

static struct script script;
static uint8_t *wanted[2], status[2];
static size_t length[2];
static long calls = 1000;

static void *call(void *unused) {
    (void)unused;
    uint8_t *out = room(ROOM);
    long wrong = 0;
    for (long k = 0; k < calls; k++) {
        bool trace = k & 1;
        size_t written;
        uint8_t came = run_plain(script, trace, out, ROOM, &written);
        wrong += came != status[trace] || written != length[trace] || memcmp(out, wanted[trace], written) != 0;
    }
    free(out);
    return (void *)wrong;
}

int main(int count, char **word) {
    calls = count > 1 ? atol(word[1]) : calls;
    script = read_script();
    for (int trace = 0; trace < 2; trace++) {
        wanted[trace] = room(ROOM);
        status[trace] = run_plain(script, trace, wanted[trace], ROOM, &length[trace]);
    }
    pthread_t thread[THREADS];
    double begun = now();
    for (int k = 0; k < THREADS; k++) {
        if (pthread_create(&thread[k], NULL, call, NULL) != 0) {
            return 6;
        }
    }
    long wrong = 0;
    for (int k = 0; k < THREADS; k++) {
        void *of_it;
        pthread_join(thread[k], &of_it);
        wrong += (long)of_it;
    }
    printf("threads: %d at once, %ld calls, %ld differ, %.0f calls a second\n", THREADS, THREADS * calls, wrong,
           (double)(THREADS * calls) / (now() - begun));
    free(wanted[0]);
    free(wanted[1]);
    free(script.text);
    return wrong != 0;
}
