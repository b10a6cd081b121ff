#!/usr/bin/env python3
"""tools/refuse_memory.py PROGRAM [SCRIPT..]: refuses each request for memory in turn, and sees how the program ends.

PROGRAM is the built program, crates/cepage/out/cepage behind `rt run` or the gate. Without scripts it is run over three
worked scripts of crates/engine_tests (callbacks within each other, a trace, a submission), over `--make 50` and over a
word that is refused. A SCRIPT is one as those of examples/, with its words in the file NAME.words, one a line, where that
is there, its status in NAME.status and its transcript in NAME.transcript.

A script is given in one piece, and then again a line at a time, so that answers are written before the next line is read.
Each is run as it is, and then twice for each k, from 1 to the number of its requests: the k-th request is refused alone,
and all from the k-th on are refused. Each run has to end with the status of NoMemory and a front of the transcript on
standard output, or with the status that the script has anyway and the whole transcript. One that does not, that a signal
ends or that takes more than 60 seconds is told with its case and its k; then the status is 1.

The requests are those that reach the C library's malloc, calloc, realloc, memalign, aligned_alloc and posix_memalign. A
small library takes their place (LD_PRELOAD); `cc` builds it, for glibc.
"""
import collections
import contextlib
import os
import pathlib
import re
import socket
import subprocess
import sys
import tempfile
import threading

TOP = pathlib.Path(__file__).resolve().parent.parent
WORKED = TOP / "crates" / "engine_tests" / "src" / "worked"
NO_MEMORY = 6
SECONDS = 60

LIBRARY = r"""
#include <errno.h>
#include <stdatomic.h>
#include <stddef.h>
#include <stdlib.h>
#include <unistd.h>

void *__libc_malloc(size_t), *__libc_calloc(size_t, size_t), *__libc_realloc(void *, size_t), *__libc_memalign(size_t, size_t);

static atomic_ulong asked;
static unsigned long first, last;

__attribute__((constructor)) static void read_limits(void)
{
    const char *from = getenv("REFUSE_FROM"), *to = getenv("REFUSE_TO");
    first = from ? strtoul(from, NULL, 10) : 0;
    last = to ? strtoul(to, NULL, 10) : 0;
    atomic_store(&asked, 0);
}

static int is_refused(void)
{
    unsigned long number = atomic_fetch_add(&asked, 1) + 1;
    if (number < first || number > last)
        return 0;
    errno = ENOMEM;
    return 1;
}

void *malloc(size_t n) { return is_refused() ? NULL : __libc_malloc(n); }
void *calloc(size_t n, size_t of) { return is_refused() ? NULL : __libc_calloc(n, of); }
void *realloc(void *p, size_t n) { return is_refused() ? NULL : __libc_realloc(p, n); }
void *memalign(size_t a, size_t n) { return is_refused() ? NULL : __libc_memalign(a, n); }
void *aligned_alloc(size_t a, size_t n) { return memalign(a, n); }

int posix_memalign(void **p, size_t a, size_t n)
{
    void *given = memalign(a, n);
    if (given == NULL)
        return ENOMEM;
    *p = given;
    return 0;
}

__attribute__((destructor)) static void tell_requests(void)
{
    const char *to = getenv("REFUSE_COUNT");
    if (to == NULL)
        return;
    char digits[24], *at = digits + sizeof digits;
    unsigned long n = atomic_load(&asked);
    do *--at = '0' + n % 10; while (n /= 10);
    (void)!write(atoi(to), at, digits + sizeof digits - at);
}
"""

Case = collections.namedtuple("Case", "name script words status transcript")


def worked(file, constant, words=()):
    """A worked script: the rows of a text that begin with `> ` are its lines, those with `< ` the transcript's."""
    found = re.search(rf'const {constant}: &str = r#"(.*?)"#;', (WORKED / file).read_text(encoding="utf-8"), re.S)
    if not found:
        sys.exit(f"refuse_memory: {WORKED / file} has no text {constant}")
    rows = found[1].split("\n")
    script, transcript = ("".join(row[2:] + "\n" for row in rows if row.startswith(sign)).encode() for sign in ("> ", "< "))
    return Case(f"{file[:-3]} {constant}", script, list(words), 0, transcript)


def example(path):
    """A script of a file, with its words, its status and its transcript beside it."""
    beside = {it: pathlib.Path(path).with_suffix("." + it) for it in ("words", "status", "transcript")}
    words = beside["words"].read_text(encoding="utf-8").split("\n")[:-1] if beside["words"].exists() else []
    status = int(beside["status"].read_text()) if beside["status"].exists() else 0
    transcript = beside["transcript"].read_bytes() if beside["transcript"].exists() else None
    return Case(path, pathlib.Path(path).read_bytes(), words, status, transcript)


CASES = [
    ("callbacks.rt", "REENTERED"),
    ("reactions.rt", "TRACED", ["--trace"]),
    ("forms.rt", "SUBMITTED"),
]


def cases_of(scripts):
    if scripts:
        return [example(it) for it in scripts]
    made = [Case("--make 50", b"", ["--make", "50"], 0, None), Case("--help", b"", ["--help"], 2, b"")]
    return [worked(*it) for it in CASES] + made


def give(lines, to):
    """Sends each line as a packet of its own, which a read takes alone, until the program has ended."""
    with to, contextlib.suppress(OSError):
        for line in lines:
            to.send(line)


class Runs:
    """Runs of one program over the library that refuses."""

    def __init__(self, program, room):
        self.program, self.library = os.path.abspath(program), f"{room}/refuse.so"
        self.script, self.count = f"{room}/script", f"{room}/count"
        source = pathlib.Path(room) / "refuse.c"
        source.write_text(LIBRARY)
        built = subprocess.run(["cc", "-O1", "-fno-builtin", "-shared", "-fPIC", "-o", self.library, source], check=False)
        if built.returncode:
            sys.exit("refuse_memory: cc did not build the library that refuses")

    @contextlib.contextmanager
    def given(self, script, by_lines):
        """What the program reads: the script as a file, or as packets."""
        if not by_lines:
            pathlib.Path(self.script).write_bytes(script)
            with open(self.script, "rb") as file:
                yield file
            return
        ours, theirs = socket.socketpair(socket.AF_UNIX, socket.SOCK_SEQPACKET)
        giver = threading.Thread(target=give, args=(re.findall(rb"[^\n]*\n|[^\n]+", script), ours))
        giver.start()
        with theirs:
            yield theirs
        giver.join()

    def run(self, case, by_lines, first=0, last=0):
        """The status, what was written, and how many requests there were (None where the run did not get to tell)."""
        with self.given(case.script, by_lines) as script, open(self.count, "wb") as count:
            limits = {"REFUSE_FROM": str(first), "REFUSE_TO": str(last), "REFUSE_COUNT": str(count.fileno())}
            with subprocess.Popen(
                [self.program, *case.words],
                stdin=script,
                stdout=subprocess.PIPE,
                stderr=subprocess.DEVNULL,
                env={**os.environ, **limits, "LD_PRELOAD": self.library},
                pass_fds=[count.fileno()],
            ) as started:
                try:
                    wrote, status = started.communicate(timeout=SECONDS)[0], started.returncode
                except subprocess.TimeoutExpired:
                    started.kill()
                    wrote, status = started.communicate()[0], "endless"
        told = pathlib.Path(self.count).read_text()
        return status, wrote, int(told) if told else None


def wrong(case, whole, status, wrote):
    """What is wrong with a run in which memory was refused, or None."""
    if status == "endless":
        return f"it did not end within {SECONDS} seconds"
    if status < 0:
        return f"signal {-status} ended it"
    if status not in (NO_MEMORY, case.status):
        return f"the status is {status}"
    if not whole.startswith(wrote):
        return f"the {len(wrote)} bytes written are no front of the transcript"
    if status == case.status and wrote != whole:
        return f"the status is {status}, but {len(wrote)} of {len(whole)} bytes were written"
    return None


def lengths_of(fronts):
    """How long the fronts were that were written with the status of NoMemory."""
    if not fronts:
        return ""
    least, most = min(fronts), max(fronts)
    return f"; with {NO_MEMORY}, {least} bytes" if least == most else f"; with {NO_MEMORY}, {len(fronts)} fronts of {least} to {most} bytes"


def refuse_in(case, by_lines, runs):
    """Tries a case, and returns how many of its runs went wrong."""
    name = case.name + (", a line at a time" if by_lines else "")
    status, whole, requests = runs.run(case, by_lines)
    if status != case.status or case.transcript not in (None, whole):
        print(f"{name}: with all its memory it ends with status {status} and {len(whole)} bytes, and not as it should")
        return 1
    if not requests:
        print(f"{name}: no request for memory reaches the C library's calls, so none can be refused")
        return 1
    failed = 0
    print(f"{name}: {requests} requests, status {status}, {len(whole)} bytes", flush=True)
    for way, last_of in (("alone", lambda k: k), ("with all behind it", lambda k: 2**62)):
        seen, fronts = collections.Counter(), set()
        for k in range(1, requests + 1):
            status, wrote, _ = runs.run(case, by_lines, k, last_of(k))
            seen[status] += 1
            if status == NO_MEMORY:
                fronts.add(len(wrote))
            why = wrong(case, whole, status, wrote)
            if why:
                failed += 1
                print(f"{name}: request {k} refused {way}: {why}")
        told = ", ".join(f"{n} runs with status {status}" for status, n in sorted(seen.items(), key=str))
        print(f"    refused {way}: {told}{lengths_of(fronts)}", flush=True)
    return failed


def main():
    if len(sys.argv) < 2 or not os.access(sys.argv[1], os.X_OK):
        sys.exit(__doc__ if len(sys.argv) < 2 else f"refuse_memory: the program {sys.argv[1]} is missing")
    failed = 0
    with tempfile.TemporaryDirectory() as room:
        runs = Runs(sys.argv[1], room)
        for case in cases_of(sys.argv[2:]):
            for by_lines in (False, True) if case.script else (False,):
                failed += refuse_in(case, by_lines, runs)
    print("refuse_memory: " + (f"{failed} went wrong" if failed else "each ended as it should"))
    sys.exit(failed > 0)


main()
