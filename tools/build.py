#!/usr/bin/env python3
"""Proves and builds natgw: first the crates that it stands on, side by side where none of them stands on another.

usage: tools/build.py [CRATE]

A line tells of each crate as it is done. What is done stays done: after Ctrl-C, or a fault, the next call goes on from
there, and where nothing is left to do a call takes half a minute. With CRATE, the name of a library, that one is built in
the place of natgw.

As many crates are proved at once as there are processors, and fewer where memory is short: one of each four of them by
four jobs, the one that has the longest chain of crates above it when it begins, and the others by one. Two jobs or more of
one crate do a sixth to a half of its work twice, so they are for the crate that others wait for. These are more jobs than
there are processors, since a part of each proof is one job's alone. A crate gives way to those with longer chains above
them. Each is proved as the gate proves it: over what the crates below state, without their proofs, which takes about half
of the time that `rt lib` takes. It is rtlib.py of the kit that does it; others are kept out of all the crates until the
libraries are done. The program itself is built by `rt run`.
"""
import importlib.util
import os
import shutil
import signal
import subprocess
import sys
import tempfile
import time
from concurrent.futures import FIRST_COMPLETED, ThreadPoolExecutor, wait

TOP = os.path.dirname(os.path.dirname(os.path.realpath(__file__)))
PROGRAM = "natgw"
# What a crate may take of memory with all its jobs, in bytes.
MEMORY = 4_000_000_000
# More jobs than these don't make the check of one crate faster.
MOST = 4
# So many steps of nice a crate stands behind each one that has a longer chain above it.
STEP = 2
# The processor seconds of each proof by one job, some of them reckoned from those of former crates. Only the proportions
# count. `.ci/run tools/gate-costs` tells what they are elsewhere.
SECONDS = {
    "buckets": 72, "checking": 33, "command_line": 60, "commands": 70, "diagnosis": 61, "digraph": 32, "disk_model": 22,
    "durable": 120, "entries": 7, "file_disk": 44, "frames": 60, "gateway": 163, "hairpin": 54, "journal": 45,
    "machine": 164, "mappings": 21, "options": 4, "packet": 58, "portpick": 45, "refusals": 22, "rows": 50,
    "rulesets": 168, "rulesyntax": 165, "ruletext": 12, "ruletokens": 34, "ruletree": 29, "session_lines": 23,
    "sessions": 109, "sets": 35, "snapshot": 60, "socket_edge": 110, "text_marks": 63, "timers": 39, "verdict": 140,
}
# Those of a crate that isn't among them, for each of its lines.
SECONDS_A_LINE = 0.07


def load_rtlib():
    """Returns the kit's rtlib.py, which lies beside the command rt."""
    rt = shutil.which("rt")
    if not rt:
        sys.exit("build: there is no command rt: the kit that README.md names has it")
    file = os.path.join(os.path.dirname(os.path.realpath(rt)), "rtlib.py")
    spec = importlib.util.spec_from_file_location("rtlib", file)
    sys.dont_write_bytecode = True
    rtlib = importlib.util.module_from_spec(spec)
    spec.loader.exec_module(rtlib)
    return rtlib


def say(text):
    print(text, flush=True)


def most_crates(rtlib):
    """Returns how many crates there are processors and memory for at once, at least one."""
    crates = 1
    while rtlib.fits(*[MEMORY] * (crates + 1)):
        crates += 1
    return crates


def jobs_of(rank):
    """Returns the jobs of a crate that so many with longer chains above them are proved beside."""
    processors = len(os.sched_getaffinity(0))
    several = processors > 2 and rank < max(processors // MOST, 1)
    return min(processors, MOST) if several else 1


def seconds_behind(crates):
    """Returns for each crate the seconds of the longest chain of crates that begins with it and goes up."""
    behind = {}
    for crate in reversed(crates):
        own = SECONDS.get(crate.name) or crate.count(rb"\n") * SECONDS_A_LINE
        behind[crate] = own + max((behind[it] for it in behind if crate in it.below()), default=0)
    return behind


def prove(rtlib, crate, rank):
    """Proves a library and writes what it states, and beside it the sum of what that was made from. Returns the status."""
    stamp, made = crate.stamp(), os.path.dirname(crate.rlib)
    shutil.rmtree(made, ignore_errors=True)
    os.makedirs(made)
    words = [*crate.words(["--jobs", str(jobs_of(rank))], keeps=False), "--statements", "-o", crate.rlib]
    status = crate.call("nice", "-n", str(STEP * rank), rtlib.RATTLE, "build", *words)
    if status == 0 and stamp == crate.stamp():
        with open(f"{made}/stamp", "w", encoding="utf-8") as it:
            it.write(stamp)
    return status


def build(rtlib, crate, rank):
    """Builds a library. Returns whether it is proved, what was said, and the seconds that it took."""
    began = time.monotonic()
    with tempfile.TemporaryFile("w+", errors="replace") as crate.out:
        try:
            status = prove(rtlib, crate, rank)
        except SystemExit:
            status = 2
        crate.out.seek(0)
        return status == 0, crate.out.read(), time.monotonic() - began


def build_libraries(rtlib, left, most, tell):
    """Builds libraries, at most so many at once, each once those below it are there. Returns whether all are proved."""
    behind = seconds_behind(left)
    left = sorted(left, key=lambda it: -behind[it])
    running, failed = {}, False
    with ThreadPoolExecutor(most) as pool:
        while running or (left and not failed):
            waited_for = {*left, *running.values()}
            ready = [it for it in left if waited_for.isdisjoint(it.below())]
            for crate in ready[: 0 if failed else most - len(running)]:
                left.remove(crate)
                rank = sum(behind[it] > behind[crate] for it in running.values())
                running[pool.submit(build, rtlib, crate, rank)] = crate
            for it in wait(running, return_when=FIRST_COMPLETED).done:
                crate = running.pop(it)
                is_proved, said, seconds = it.result()
                tell(crate.name, is_proved, said, seconds)
                failed = failed or not is_proved
    return not failed


def build_program(rtlib, folder):
    """Proves and builds the program, and asks it for its help. Returns as build does."""
    began = time.monotonic()
    how = {"stdin": subprocess.DEVNULL, "stdout": subprocess.PIPE, "stderr": subprocess.STDOUT}
    words = [*rtlib.guarded(), "rt", "run", "--", "--help"]
    ran = subprocess.run(words, cwd=folder, errors="replace", **how)
    return ran.returncode == 0, ran.stdout, time.monotonic() - began


def main(name=PROGRAM, *more):
    if name == "--help":
        print(__doc__.strip())
        return 0
    if more or name.startswith("-"):
        sys.exit(__doc__.strip())
    folder = f"{TOP}/crates/{name}"
    if not os.path.isdir(f"{folder}/src"):
        sys.exit(f"build: there is no crate {name}")
    rtlib = load_rtlib()
    # Its first call starts what ends all checks when this program ends, however that ends.
    rtlib.guarded()
    crate = rtlib.Crate(folder, TOP, {})
    libraries = crate.below() if crate.is_program else [*crate.below(), crate]
    held = rtlib.lock([*crate.below(), crate])
    left = [it for it in libraries if not it.is_built()]
    done, most = len(libraries) - len(left), len(libraries) + crate.is_program

    def stop(*_):
        say(f"build: stopped. {done} of {most} crates are done, and stay so: call it again to go on")
        os._exit(130)

    def tell(name, is_proved, said, seconds):
        nonlocal done
        done += is_proved
        if is_proved:
            say(f"{done} of {most}: {name}, {seconds:.0f} s")
        else:
            say(f"{said}build: {name} is not proved; {done} of {most} crates are done, and stay so")

    signal.signal(signal.SIGINT, stop)
    signal.signal(signal.SIGTERM, stop)
    at_once = most_crates(rtlib)
    say(f"build: {done} of {most} crates are done; at most {at_once} at a time")
    if not build_libraries(rtlib, left, at_once, tell):
        return 1
    for it in held:
        os.close(it)
    if not crate.is_program:
        return 0
    is_proved, said, seconds = build_program(rtlib, folder)
    tell(name, is_proved, said, seconds)
    if is_proved:
        say(f"build: the program is {folder}/out/{name}")
    return 0 if is_proved else 1


if __name__ == "__main__":
    sys.exit(main(*sys.argv[1:]))
