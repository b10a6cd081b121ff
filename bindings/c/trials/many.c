/* many N: N calls, for valgrind. Each has a front of the script of standard input, in a block of its very length, and room of
 * some length, in one too; every second one has the trace, and some have little fuel. Each answer is held against a call with
 * all the room: the status, the bytes, and that nothing stands behind them.
 */
#include "runs.h"

enum { UNTOUCHED = 0xA5 };

struct row {
    struct script script;
    uint32_t fuel;
    bool trace;
};

static uint8_t run_row(struct row row, uint8_t *out, size_t cap, size_t *written) {
    static const uint8_t url[] = "https://shop.test/a?b", boundary[] = "XX";
    memset(out, UNTOUCHED, cap);
    return cepage_run(row.script.text, row.script.length, row.fuel, row.trace, url, sizeof url - 1, boundary,
                      sizeof boundary - 1, out, cap, written);
}

/* Whether a call with this room answers what the one with all the room did. */
static bool is_front(struct row row, size_t cap, const uint8_t *whole, size_t length, uint8_t status) {
    uint8_t *out = room(cap);
    size_t written;
    uint8_t came = run_row(row, out, cap, &written);
    size_t wanted = length > cap ? cap : length;
    bool is_so = came == (length > cap ? CEPAGE_MORE_ROOM : status) && written == wanted && memcmp(out, whole, wanted) == 0;
    for (size_t k = written; k < cap; k++) {
        is_so = is_so && out[k] == UNTOUCHED;
    }
    free(out);
    return is_so;
}

int main(int count, char **word) {
    enum { ALL = 1 << 20 };
    struct script given = read_script();
    uint8_t *whole = room(ALL);
    long calls = count > 1 ? atol(word[1]) : 1000, wrong = 0, bounded = 0;
    for (long k = 0; k < calls; k += 2) {
        struct script script = {NULL, (size_t)(k * 37) % (given.length + 1)};
        script.text = room(script.length);
        memcpy(script.text, given.text, script.length);
        struct row row = {script, k % 7 ? CEPAGE_PLAIN_FUEL : (uint32_t)(k % 50), k % 4 == 0};
        size_t length, cap = (size_t)(k * 53) % 700;
        uint8_t status = run_row(row, whole, ALL, &length);
        wrong += !is_front(row, cap, whole, length, status);
        bounded += length > cap;
        free(script.text);
    }
    printf("many: %ld calls, of %ld transcripts longer than their room, %ld wrong\n", calls, bounded, wrong);
    free(whole);
    free(given.text);
    return wrong != 0;
}
