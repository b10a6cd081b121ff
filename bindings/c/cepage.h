/* SPDX-License-Identifier: MIT OR Apache-2.0
 *
 * cepage in another program: a script is run in memory.
 *
 * bindings/c/build.sh makes libcepage.so, with which a program links alone, from the archive of the crate cepage_c, and
 * libcepage.a, which a program links beside the C library. Linux alone.
 *
 * No proof covers this header: that it says what the archive has, and what the linker makes of both, is tested.
 */
#ifndef CEPAGE_H
#define CEPAGE_H

#include <stdbool.h>
#include <stddef.h>
#include <stdint.h>

#ifdef __cplusplus
extern "C" {
#endif

/* What a call answers: the exit status that the program has for the same script, but for two. */
enum cepage_status {
    CEPAGE_DONE = 0,      /* the script was run to its end, and no line was refused */
    CEPAGE_BAD_LINES = 1, /* the same, and some line was refused */
    CEPAGE_USAGE = 2,     /* the fuel, the URL or the boundary is refused: nothing was run, and *written is 0 */
    CEPAGE_FUEL = 3,      /* the fuel was spent: the transcript ends with the line `fuel` */
    CEPAGE_MORE_ROOM = 5, /* the transcript is longer than cap: out has its first cap bytes. Call again with more room */
    CEPAGE_NO_MEMORY = 6, /* memory was refused: out has a front of the transcript, which may be empty */
    CEPAGE_TOO_LONG = 7   /* the script has more than CEPAGE_MOST_SCRIPT bytes: the whole lines within these were run */
};

/* The version of cepage that this header is of. */
#define CEPAGE_VERSION "0.9.0"

#define CEPAGE_PLAIN_FUEL 20000u
#define CEPAGE_MOST_FUEL 200000u
#define CEPAGE_MOST_SCRIPT 16777216u

/* Runs the script of script_len bytes, as the program does with the words
 *
 *     cepage --fuel FUEL [--trace] [--url URL] [--boundary BOUNDARY] < script
 *
 * and gives its status. fuel is from 1 to CEPAGE_MOST_FUEL. With url_len 0 the page's URL is http://page.test/, and with
 * boundary_len 0 the boundary of multipart bodies is cepageboundary.
 *
 * The transcript goes to out, and *written is set to the number of its bytes there: all of it, but with CEPAGE_MORE_ROOM
 * and CEPAGE_NO_MEMORY. *written is at most cap; what stands behind it in out stays as it was. The memory of a call does
 * not grow with a transcript that is longer than cap. Nothing is kept between calls.
 *
 * What the caller owes:
 *
 * Pointers. None is null, not even with length 0: give any valid address then. out[0 .. cap] and *written overlap nothing
 * else that is given. trace is 0 or 1. Each length is at most PTRDIFF_MAX.
 *
 * Threads. Any thread may call, and several at once, each with its own out and written. While a call runs nobody writes to
 * its script, url and boundary. There is no state, no lock, no thread-local variable, no file and no signal in it.
 *
 * Allocator. malloc, realloc and free of the process are used, and are one allocator, whose blocks are aligned to 16. All
 * that a call takes it gives back.
 *
 * Signals. Not from a signal handler, since malloc may be under way.
 *
 * Forks. Not in the child of a fork of a process with several threads, before its exec: malloc may be under way there.
 *
 * Processor. It has the instructions of x86-64-v2, which no call tests.
 */
uint8_t cepage_run(const uint8_t *script, size_t script_len,
                   uint32_t fuel, bool trace,
                   const uint8_t *url, size_t url_len,
                   const uint8_t *boundary, size_t boundary_len,
                   uint8_t *out, size_t cap, size_t *written);

#ifdef __cplusplus
}
#endif

#endif
