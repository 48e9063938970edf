"""Each allocation of a run fails in turn: the answer must be the same, or want of memory with a prefix of the text.

The program is the one that is shipped. A small library, which is compiled here and loaded before the C library,
counts what the program asks for and refuses one request, or that one and all after it.
"""

import subprocess
import sys
from collections.abc import Iterator
from dataclasses import dataclass
from functools import partial
from pathlib import Path
from random import Random

from dossier.wording import Words

from .harness import EXAMPLES, scratch, until_told
from .modes import MODES, NO_CHAIN, Mode, chain_of, known_modes, mode_named, words_of
from .runs import Files, Job, Watched, all_jobs, binary, file_of, put, watch

NO_MEMORY = 5
LONGEST = 60.0
MOST_FOUND = 20
DATED = ("--start", "2025-06-02", "--term", "1")
CASES = {
    "the greatest bar": "edges of bars: no bed, ceiling 0, the greatest ceiling, a ceilings row on day 2",
    "a chain of falls": "a cascade of falls over two schools",
}
SHIM = r"""
#define _GNU_SOURCE
#include <dlfcn.h>
#include <errno.h>
#include <stdio.h>
#include <stdlib.h>
#include <unistd.h>
static unsigned long asked, refused_at, refused_until;
static int ready;
__attribute__((constructor)) static void begin(void) {
    const char *at = getenv("REFUSED_AT");
    refused_at = at ? strtoul(at, 0, 10) : 0;
    refused_until = getenv("AND_ALL_AFTER") ? -1UL : refused_at;
    ready = 1;
}
static int refuses(void) {
    if (!ready) return 0;
    ++asked;
    if (!refused_at || asked < refused_at || asked > refused_until) return 0;
    errno = ENOMEM;
    return 1;
}
__attribute__((destructor)) static void end(void) {
    const char *file = getenv("ASKED_FILE");
    ready = 0;
    if (file) {
        FILE *to = fopen(file, "w");
        if (to) { fprintf(to, "%lu\n", asked); fclose(to); }
    }
}
void *malloc(size_t size) {
    static void *(*real)(size_t);
    if (!real) real = (void *(*)(size_t))dlsym(RTLD_NEXT, "malloc");
    return refuses() ? 0 : real(size);
}
void *realloc(void *old, size_t size) {
    static void *(*real)(void *, size_t);
    if (!real) real = (void *(*)(void *, size_t))dlsym(RTLD_NEXT, "realloc");
    return refuses() ? 0 : real(old, size);
}
int posix_memalign(void **to, size_t step, size_t size) {
    static int (*real)(void **, size_t, size_t);
    if (!real) real = (int (*)(void **, size_t, size_t))dlsym(RTLD_NEXT, "posix_memalign");
    return refuses() ? ENOMEM : real(to, step, size);
}
void *aligned_alloc(size_t step, size_t size) {
    static void *(*real)(size_t, size_t);
    if (!real) real = (void *(*)(size_t, size_t))dlsym(RTLD_NEXT, "aligned_alloc");
    return refuses() ? 0 : real(step, size);
}
"""


def slots(folder: str) -> Files:
    """The slots of an example, its chain among them."""
    here = EXAMPLES / folder
    return {path.name: path.read_bytes() for path in sorted([*here.glob("*.csv"), *here.glob("chain.txt")])}


def replays() -> Iterator[tuple[str, Job]]:
    """The dossiers that are run, each with the words of `replay` and a name for its lines."""
    two_days = slots("two-days")
    for options in (("--days", "2"), ("--days", "2", *DATED), ("--days", "2", "--picker", "each")):
        yield "two days", Job("two days", two_days, ("replay", *options))
    worked = all_jobs()
    for name, title in CASES.items():
        yield name, next(job for job in worked if job.mode == "replay" and job.title.startswith(title))


def jobs(mode: Mode) -> list[Job]:
    """The runs of a mode; those that come to the same words on the same slots once."""
    found: dict[tuple[str, tuple[str, ...]], Job] = {}
    by = Random(mode.name)
    for name, replay in replays():
        files = {**replay.files, file_of("chain"): chain_of(replay) if mode.name == "check" else NO_CHAIN}
        options = () if mode.name == "order" else replay.words[1:]
        words = words_of(mode, files, options, by)
        found.setdefault((name, words), Job(name, files, words))
    return list(found.values())


def shim(folder: Path) -> str:
    """The library that refuses requests."""
    source, library = folder / "refuse.c", folder / "refuse.so"
    source.write_text(SHIM)
    subprocess.run(["cc", "-O1", "-shared", "-fPIC", "-o", library, source, "-ldl"], check=True)
    return str(library)


def fault(whole: Watched, ended: Watched) -> str | None:
    """What is wrong with a run of which requests were refused."""
    if (ended.status, ended.text) == (whole.status, whole.text):
        return None
    if ended.status == NO_MEMORY and whole.text.startswith(ended.text):
        return None
    return f"status {ended.status}, {len(ended.text)} bytes, of {len(whole.text)} with status {whole.status}"


@dataclass
class Round:
    """The runs of one mode: how many requests they made, how many were refused in turn, and what came of that."""

    mode: Mode
    library: str
    folder: Path
    every: int
    asked: int = 0
    tried: int = 0
    same: int = 0
    found: int = 0

    def watch(self, job: Job, **environment: str) -> Watched:
        return watch(job.words, self.folder, LONGEST, binary(), environment={"LD_PRELOAD": self.library, **environment})

    def requests(self, job: Job) -> tuple[Watched, int]:
        """A run of which nothing is refused, and how many requests it makes."""
        count = self.folder.parent / "asked"
        count.unlink(missing_ok=True)
        whole = self.watch(job, ASKED_FILE=str(count))
        if not count.exists():
            sys.exit(f"{binary()} does not load a library before the C library; is it linked statically?")
        return whole, int(count.read_text())

    def attempt(self, job: Job) -> None:
        put(job.files, self.folder)
        whole, asked = self.requests(job)
        self.asked += asked
        for at in range(1, asked + 1, self.every):
            for more in ({}, {"AND_ALL_AFTER": "1"}):
                self.judge(job, whole, at, self.watch(job, REFUSED_AT=str(at), **more))
                if self.found == MOST_FOUND:
                    return

    def judge(self, job: Job, whole: Watched, at: int, ended: Watched) -> None:
        self.tried += 1
        self.same += (ended.status, ended.text) == (whole.status, whole.text)
        wrong = fault(whole, ended)
        if wrong is not None:
            self.found += 1
            print(f"FOUND {' '.join(job.words)} on {job.title}: request {at} refused: {wrong}", flush=True)

    def run(self) -> int:
        """Tries all runs of the mode, prints its line, and answers how many showed something."""
        all_runs = jobs(self.mode)
        for job in all_runs:
            if self.found < MOST_FOUND:
                self.attempt(job)
        ran_out = self.tried - self.same - self.found
        print(f"{self.mode.name}: {len(all_runs)} runs with {self.asked} requests for memory, {self.tried} tried: "
              f"{ran_out} ran out of memory, {self.same} gave the same; {self.found} found", flush=True)
        return self.found


def arguments() -> Words:
    words = Words(
        "fail_allocations.sh",
        "Refuses each request for memory in turn, alone and with all after it, in runs of "
        "examples/two-days and of worked dossiers with the greatest bar and with falls. The answer must be the same, "
        f"or status 5 with a prefix of the text. A mode that shows something {MOST_FOUND} times is left.",
        "Status: 0 nothing found, 1 something found, 2 bad words.")
    words.add_argument("modes", nargs="*", type=mode_named, metavar="MODE",
                       help=f"{', '.join(MODES)}; all where none is named")
    words.add_argument("--every", type=int, default=1, metavar="N", help="tries one request of N")
    return words


def attempts(given: list[str]) -> int:
    parser = arguments()
    asked = parser.of(given)
    if asked.every < 1:
        parser.bad("--every is a number from 1 on")
    with scratch() as place:
        library = shim(place)
        found = sum(Round(mode, library, place / "slots", asked.every).run() for mode in known_modes(asked.modes))
    print(f"{found} found")
    return 0 if found == 0 else 1


def main(given: list[str]) -> int:
    return until_told(partial(attempts, given))
