/* Refuses each request of a call for memory in turn: alone, and with all behind it. The library that it is linked with has the
 * heap of this file in place of the kit's. Each answer has to be 6 with a front of the transcript, or the whole answer; all
 * memory has to be given back.
 */
#include "runs.h"

/* The heap that cepage_c wants, in the form of the kit's: whether it was given, and where. */
struct given {
    uint64_t is_there;
    void *at;
};

static long asked, first, last, held;

static bool is_refused(void) {
    asked++;
    return asked >= first && asked <= last;
}

struct given rattle_alloc(size_t size, size_t align) {
    struct given given = {0, (void *)16};
    void *at = is_refused() ? NULL : malloc(size > 0 ? size : align);
    if (at != NULL) {
        held++;
        given = (struct given){1, at};
    }
    return given;
}

struct given rattle_realloc(void *old, size_t was, size_t size, size_t align) {
    struct given given = {0, (void *)16};
    (void)was;
    void *at = is_refused() ? NULL : realloc(old, size > 0 ? size : align);
    if (at != NULL) {
        given = (struct given){1, at};
    }
    return given;
}

void rattle_dealloc(void *at) {
    held--;
    free(at);
}

enum { ROOM = 1 << 20 };

struct answer {
    uint8_t status, *out;
    size_t written;
};

static struct answer run_refusing(struct script script, long from, long to, uint8_t *out) {
    struct answer answer = {0, out, 0};
    asked = 0;
    first = from;
    last = to;
    answer.status = run_plain(script, true, out, ROOM, &answer.written);
    return answer;
}

static bool is_right(struct answer answer, struct answer whole) {
    bool is_front = answer.written <= whole.written && memcmp(answer.out, whole.out, answer.written) == 0;
    bool is_whole = answer.status == whole.status && answer.written == whole.written;
    return held == 0 && is_front && (answer.status == CEPAGE_NO_MEMORY || is_whole);
}

int main(void) {
    enum { NONE = -1, EACH = 2 };
    struct script script = read_script();
    struct answer whole = run_refusing(script, NONE, NONE, room(ROOM));
    uint8_t *out = room(ROOM);
    long requests = asked, wrong = held != 0 || asked == 0, refused = 0, fronts = 0;
    for (long k = 1; k <= requests; k++) {
        for (int way = 0; way < EACH; way++) {
            struct answer answer = run_refusing(script, k, way ? requests * 9 : k, out);
            wrong += !is_right(answer, whole);
            refused += answer.status == CEPAGE_NO_MEMORY;
            fronts += answer.status == CEPAGE_NO_MEMORY && answer.written > 0;
        }
    }
    printf("refuse: %ld requests, each refused alone and with all behind it: %ld answers 6, %ld of them with a front; %ld wrong\n",
           requests, refused, fronts, wrong);
    free(out);
    free(whole.out);
    free(script.text);
    return wrong != 0;
}
