#!/usr/bin/env python3
"""Proves and builds the program `gillian`, as many crates at once as processors and memory allow.

    tools/prove.py [--jobs N]

A check of a crate locks the crates below it in its copy of the repository, and nearly all crates stand on a few. So each worker has
a copy of its own of the sources, in ~/.cache/gillian (or $XDG_CACHE_HOME/gillian); a library that one copy proved is taken over by the
others. What was proved stays there when this is interrupted, and the next call goes on from it. How far it is, is told on standard
error: on a terminal in one line that is written over, and else in a line for each crate. From nothing it takes about an hour and a half on four
slow threads; docs/GATE.md has the figures.
"""
import argparse
import os
import shutil
import signal
import subprocess
import sys
import time
from pathlib import Path

TOP = Path(__file__).resolve().parent.parent
PROGRAM = TOP / "crates" / "gillian_cli" / "out" / "gillian_cli"
SOURCES = ("src", "specs", "proofs")
# What one check may take, in bytes.
NEED = 3 * 2**30
FAILED = 70


def crates_below(last):
    """The crates of the repository that a crate stands on, and itself, each with those that it uses, lowest first."""
    uses = {}
    for line in (TOP / "crates.txt").read_text().splitlines():
        if ":" in line and not line.startswith("#"):
            name, used = line.split(":", 1)
            uses[name.split()[0]] = used.split()
    wanted = {last}
    for name in reversed(uses):
        if name in wanted:
            wanted.update(uses[name])
    return {name: [it for it in used if it in uses] for name, used in uses.items() if name in wanted}


def heights(uses):
    """For each crate how many crates stand above it in the longest chain."""
    height = dict.fromkeys(uses, 0)
    for name in reversed(uses):
        for used in uses[name]:
            height[used] = max(height[used], height[name] + 1)
    return height


def workers():
    """How many checks may run at once."""
    said = [line.split() for line in Path("/proc/meminfo").read_text().splitlines()]
    free = next(int(words[1]) * 1024 for words in said if words[0] == "MemAvailable:")
    return max(1, min(len(os.sched_getaffinity(0)), free // NEED))


def refresh(copy, uses):
    """Brings a copy's sources up to those of the repository, and leaves the files that are the same alone."""
    copy.mkdir(parents=True, exist_ok=True)
    take(TOP / "crates.txt", copy / "crates.txt")
    take(TOP / "HANDLES", copy / "HANDLES")
    for name in uses:
        for part in SOURCES:
            here, there = TOP / "crates" / name / part, copy / "crates" / name / part
            files = {it.relative_to(here) for it in here.rglob("*") if it.is_file()} if here.is_dir() else set()
            for stale in [it for it in there.rglob("*") if it.is_file() and it.relative_to(there) not in files]:
                stale.unlink()
            for file in files:
                take(here / file, there / file)


def take(here, there):
    """Copies a file where the copy differs."""
    if not there.is_file() or there.read_bytes() != here.read_bytes():
        there.parent.mkdir(parents=True, exist_ok=True)
        shutil.copyfile(here, there)


class Progress:
    """Tells how far the work is."""

    def __init__(self, count):
        self.count, self.finished, self.start = count, 0, time.monotonic()

    def tell(self, running, ended=None):
        seconds = int(time.monotonic() - self.start)
        head = f"gillian: {self.finished} of {self.count} crates, {seconds // 60}:{seconds % 60:02d}"
        if sys.stderr.isatty():
            print(f"\r\033[K{head}, at {' '.join(running)}", end="", file=sys.stderr, flush=True)
        elif ended:
            print(f"{head}, {ended}", file=sys.stderr, flush=True)


class Run:
    """A crate that is being proved in a copy."""

    def __init__(self, name, copy):
        self.name, self.copy = name, copy
        self.log = copy / f"{name}.log"
        with open(self.log, "wb") as log:
            self.process = subprocess.Popen(["rt", "lib", "--jobs", "1"], cwd=copy / "crates" / name, stdin=subprocess.DEVNULL,
                                            stdout=log, stderr=subprocess.STDOUT, start_new_session=True)

    def end(self):
        if self.process.poll() is None:
            os.killpg(self.process.pid, signal.SIGTERM)
            self.process.wait()


def prove_libraries(uses, copies, progress):
    """Proves all crates, each as soon as those that it uses are done; the one with the most crates above it first. Returns the run that failed, or None."""
    height, waiting, done, running = heights(uses), list(uses), set(), []
    try:
        while waiting or running:
            free = [copy for copy in copies if all(copy != run.copy for run in running)]
            ready = sorted((it for it in waiting if done.issuperset(uses[it])), key=lambda it: -height[it])
            for name, copy in zip(ready, free):
                waiting.remove(name)
                running.append(Run(name, copy))
            progress.tell([run.name for run in running])
            time.sleep(0.5)
            for run in [it for it in running if it.process.poll() is not None]:
                running.remove(run)
                if run.process.returncode:
                    return run
                done.add(run.name)
                progress.finished += 1
                progress.tell([it.name for it in running], run.name)
        return None
    finally:
        for run in running:
            run.end()


def build_program(log):
    """Builds the program over the proved libraries, and returns whether it did. The word asks for nothing: the program answers its usage line."""
    with open(log, "wb") as it:
        subprocess.run(["rt", "run", "--", "build"], cwd=TOP / "crates" / "gillian_cli", stdin=subprocess.DEVNULL, stdout=it, stderr=subprocess.STDOUT)
    return PROGRAM.is_file() and b"usage: gillian" in log.read_bytes()


def fail(name, log):
    print(file=sys.stderr)
    sys.stderr.write("".join(log.read_text(errors="replace").splitlines(keepends=True)[-20:]))
    print(f"gillian: {name} failed; the whole log is {log}", file=sys.stderr)
    return FAILED


def main():
    parser = argparse.ArgumentParser(description="Proves and builds the program.")
    parser.add_argument("--jobs", type=int, default=workers(), help="how many crates at once")
    jobs = max(1, parser.parse_args().jobs)
    if not shutil.which("rt"):
        print("gillian: there is no rt on the PATH; the toolchain's folder has it", file=sys.stderr)
        return FAILED
    uses = crates_below("gillian_cli")
    libraries = {name: used for name, used in uses.items() if name != "gillian_cli"}
    cache = Path(os.environ.get("XDG_CACHE_HOME") or Path.home() / ".cache") / "gillian"
    copies = [cache / f"copy-{number}" for number in range(jobs)]
    print(f"gillian: proving {len(uses)} crates, {jobs} at once, in {cache}", file=sys.stderr)
    for copy in copies:
        refresh(copy, uses)
    signal.signal(signal.SIGTERM, lambda *_: sys.exit(143))
    progress = Progress(len(uses))
    failed = prove_libraries(libraries, copies, progress)
    if failed:
        return fail(failed.name, failed.log)
    log = cache / "gillian_cli.log"
    progress.tell(["gillian_cli"])
    if not build_program(log):
        return fail("gillian_cli", log)
    progress.finished += 1
    progress.tell([], "gillian_cli")
    if sys.stderr.isatty():
        print(file=sys.stderr)
    print(f"gillian: the proved program is {PROGRAM}", file=sys.stderr)
    return 0


if __name__ == "__main__":
    try:
        sys.exit(main())
    except KeyboardInterrupt:
        sys.exit(130)
