/* The program once more, over the library: for the words of the gate's cases the same bytes and the same status. It reads
 * words less strictly than the program, and takes none of the form --fuel=N. Where one says nothing it ends with status 2.
 */
#include "runs.h"

struct words {
    uint32_t fuel;
    bool trace;
    const char *url, *boundary;
};

static bool read_words(int count, char **word, struct words *said) {
    for (int k = 1; k < count; k++) {
        if (strcmp(word[k], "--trace") == 0) {
            said->trace = true;
        } else if (k + 1 == count) {
            return false;
        } else if (strcmp(word[k], "--fuel") == 0) {
            said->fuel = (uint32_t)strtoul(word[++k], NULL, 10);
        } else if (strcmp(word[k], "--url") == 0) {
            said->url = word[++k];
        } else if (strcmp(word[k], "--boundary") == 0) {
            said->boundary = word[++k];
        } else {
            return false;
        }
    }
    return true;
}

int main(int count, char **word) {
    struct words said = {CEPAGE_PLAIN_FUEL, false, "", ""};
    if (!read_words(count, word, &said)) {
        return CEPAGE_USAGE;
    }
    struct script script = read_script();
    for (size_t cap = 1;; cap *= 8) {
        uint8_t *out = room(cap);
        size_t written;
        uint8_t status = cepage_run(script.text, script.length, said.fuel, said.trace, (const uint8_t *)said.url,
                                    strlen(said.url), (const uint8_t *)said.boundary, strlen(said.boundary), out, cap, &written);
        if (status != CEPAGE_MORE_ROOM) {
            fwrite(out, 1, written, stdout);
            free(out);
            free(script.text);
            return fflush(stdout) == 0 ? status : 5;
        }
        if (written != cap) {
            fprintf(stderr, "more room is wanted with %zu of %zu bytes written\n", written, cap);
            return 9;
        }
        free(out);
    }
}
