#!/usr/bin/env python3
"""prove.py CRATE: proves the libraries that a program stands on, and then proves and builds the program, all as
the gate does but for one search: each crate from nothing, over the statements alone of those below it. They go
side by side, in the order of their ways up to the program, and a line is printed as each is proved. There is a
lane for each processor that has memory for a check, and all that runs has no more lanes than there are: checks
that take turns on a processor cost half as much again. Lanes that one check shares cost more than lanes with a
check each, so the first of those that run has two, and more only where there is little beside it. What is built
and unchanged is kept."""
import functools
import os
import queue
import shutil
import signal
import sys
import textwrap
import threading
import time
import traceback

sys.dont_write_bytecode = True
if set(sys.argv[1:]) & {"--help", "-h", "help"}:
    # Where the reader of a pipe has gone, as head does, this ends as other programs do.
    signal.signal(signal.SIGPIPE, signal.SIG_DFL)
    print(textwrap.fill(" ".join(__doc__.split()), 80))
    sys.exit(0)
BAD_WORDS, NO_KIT, ENDED_BY_ERROR = 2, 3, 4
if sys.version_info < (3, 10):
    print("parcours: to build it needs Python 3.10 or later, and this is %d.%d" % sys.version_info[:2], file=sys.stderr)
    sys.exit(ENDED_BY_ERROR)
if len(sys.argv) != 2 or not os.path.isdir(os.path.join(sys.argv[1], "src")):
    print("usage: prove.py CRATE, which is the folder of one, as crates/next_slot; prove.py --help says more",
          file=sys.stderr)
    sys.exit(BAD_WORDS)
RT = shutil.which("rt") or "/opt/rattle/bin/rt"
# What this uses of the kit's own library, which lies beside its command rt. Other programs are called rt too.
USED = ("Crate", "KIT", "crates_below", "files_of", "guarded", "help_of", "lock", "text_of")
sys.path.insert(0, os.path.dirname(os.path.realpath(RT)))
try:
    import rtlib
    if not all(hasattr(rtlib, it) for it in USED):
        raise ImportError("another kit")
except ImportError:
    print(f"parcours: {RT} is not of a kit that this knows; docs/AUDIT.md names two that it does", file=sys.stderr)
    sys.exit(NO_KIT)

A_CHECK = 3_000_000_000  # bytes that a check may take
A_LOAD = 150  # what it costs to load what a crate stands on, in lines of code
A_PROOF = 0.1  # what a line of proofs costs, in lines of code
LINES_A_MINUTE = 550  # of code, proved on one processor: between 430 and 930, as the machine is
TARGET = "x86_64-unknown-linux-gnu"


def lanes():
    """How many checks may run at once."""
    with open("/proc/meminfo") as file:
        free = next(1024 * int(line.split()[1]) for line in file if line.startswith("MemAvailable"))
    return max(1, min(len(os.sched_getaffinity(0)), free // A_CHECK))


def lines_of(files):
    return sum(rtlib.text_of(file).count("\n") for file in files)


@functools.cache
def cost(crate):
    """About what a crate costs, in lines of code."""
    files = list(rtlib.files_of(crate.folder))
    code = lines_of(it for it in files if it.endswith(".rt") and "tests" not in os.path.basename(it))
    return A_LOAD + code + A_PROOF * lines_of(it for it in files if "/proofs/" in it)


def way_up(crate, crates):
    """The cost of the most expensive chain from a crate to the top."""
    return cost(crate) + max((way_up(it, crates) for it in crates if crate in it.deps), default=0)


def stamp_of(crate):
    """Where it stands when a library was proved, and what from."""
    return f"{os.path.dirname(crate.rlib)}/stamp"


def made_from(crate):
    """What a library is made from: its text, and just these builds of those that it uses."""
    return " ".join([crate.stamp(), *(rtlib.text_of(stamp_of(it)).split()[0] for it in crate.deps)])


def is_kept(crate):
    """Whether a library, and all that it uses, are proved and have not changed since."""
    if not (os.path.isdir(crate.rlib) and os.path.isfile(stamp_of(crate)) and all(map(is_kept, crate.deps))):
        return False
    return rtlib.text_of(stamp_of(crate)).partition(" ")[2] == made_from(crate)


def prove_library(crate, jobs):
    """Proves a library and keeps its statements; what the check said stands in its out/."""
    shutil.rmtree(os.path.dirname(crate.rlib), ignore_errors=True)
    os.makedirs(os.path.dirname(crate.rlib))
    with open(f"{crate.folder}/out/proved.log", "w") as crate.out:
        words = crate.words(["--jobs", str(jobs)], keeps=False)
        if crate.prove(["build", *words, "--statements", "-o", crate.rlib]):
            return False
    with open(stamp_of(crate), "w") as file:
        file.write(f"{time.time_ns()} {made_from(crate)}")
    return True


def build(crate, jobs, ended):
    """Proves a library in so many lanes. Puts the crate and whether it is proved into a queue."""
    is_proved = False
    try:
        is_proved = prove_library(crate, jobs)
    finally:
        ended.put((crate, is_proved))


def share(crate, others, width, is_first):
    """How many lanes a crate is proved in, beside others that wait: by what they cost, and one, or two where none
    that runs has a longer way up."""
    by_cost = round(width * cost(crate) / (cost(crate) + sum(map(cost, others))))
    return max(by_cost, 2 if is_first else 1)


def say(text):
    print(f"parcours: {text}", file=sys.stderr, flush=True)


def prove(crates, width):
    """Proves the libraries and returns those that failed."""
    up = {it: way_up(it, crates) for it in crates}
    left = sorted((it for it in crates if not is_kept(it)), key=lambda it: -up[it])
    count, running, failed, ended = len(crates), {}, [], queue.SimpleQueue()
    proved = {it for it in crates if it not in left}
    while (left and not failed) or running:
        ready = [it for it in left if not failed and proved.issuperset(it.deps)]
        while ready and sum(running.values()) < width:
            crate = ready.pop(0)
            is_first = all(up[it] <= up[crate] for it in running)
            jobs = min(share(crate, ready, width, is_first), width - sum(running.values()))
            threading.Thread(target=build, args=(crate, jobs, ended)).start()
            left.remove(crate)
            running[crate] = jobs
        crate, is_proved = ended.get()
        del running[crate]
        if is_proved:
            proved.add(crate)
            say(f"proved {len(proved)} of {count}: {crate.name}")
        else:
            failed.append(crate)
    return failed


def build_program(crate, width):
    """Proves a program, compiles it in the same step, and links it; what was said stands in its out/."""
    program = f"out/{crate.name}"
    toolchain = ["--toolchain", f"{rtlib.KIT}/toolchain"]
    os.makedirs(f"{crate.folder}/out", exist_ok=True)
    with open(f"{crate.folder}/{program}.log", "w") as crate.out:
        words = [*crate.words(["--jobs", str(width)], keeps=False), *toolchain]
        if crate.prove(["build", *words, "--backend", "llvm", "-o", f"{program}.o"]):
            return False
        libraries = [f"{rtlib.KIT}/c/{it}.a" for it in ("libos_c", "liblibc_c")]
        linked = ["--target", TARGET, *toolchain, "-o", program, f"{program}.o", *libraries]
        return crate.call(f"{rtlib.KIT}/bin/rattle-link", *linked) == 0


def without_search(verb, says=rtlib.help_of):
    """What rattle says of a command, but for the flag by which rt has it look for contracts that no call can
    meet. The gate looks for them; here each call is proved to meet the contract of what it calls."""
    return says(verb).replace("--empty-contracts", "")


def main(folder):
    rtlib.guarded()
    rtlib.help_of = without_search
    rtlib.Crate.cuts_libraries = True
    rtlib.Crate.stamp = functools.cache(rtlib.Crate.stamp)
    *libraries, program = rtlib.crates_below(os.path.realpath(folder))
    for it in libraries:
        it.rlib = f"{it.folder}/out/proved/{it.name}.rlib"
    rtlib.lock([*libraries, program])
    width = lanes()
    new = [it for it in libraries if not is_kept(it)]
    chain = max((way_up(it, new) for it in new), default=0)
    minutes = 2 + max(chain / 2, sum(map(cost, new)) / width) / LINES_A_MINUTE
    say(f"libraries to be proved: {len(new)} of {len(libraries)}, which takes about {minutes:.0f} minutes")
    failed = prove(libraries, width)
    for crate in failed:
        say(f"{crate.name} is not proved: {crate.folder}/out/proved.log says why")
    if failed:
        return 1
    say("building the program")
    if build_program(program, width):
        return 0
    say(f"{program.name} is not proved or built: {program.folder}/out/{program.name}.log says why")
    return 1


if __name__ == "__main__":
    try:
        sys.exit(main(sys.argv[1]))
    except Exception:
        traceback.print_exc()
        sys.exit(ENDED_BY_ERROR)
