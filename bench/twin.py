#!/usr/bin/env python3
"""Processor time per request of `hnc run` against its twin, a Rust program with serde_json and a hash map that answers the same.

Usage: bench/twin.py PROGRAM
PROGRAM is the built program, which bin/hnc leaves as crates/hnc/out/hnc. The twin is bench/twin, which keeps the texts that it answers and makes
no checks. It is built in a temporary folder by the cargo that is installed, with the crates of Debian's package librust-serde-json-dev where
they are there, and else with those that it finds by itself.
Prints one line per kind of request and size of the bodies: the time per request of both, and their ratio. There are 20,000 ConfigMaps in 4
namespaces, each created and then read once, in parts of 1,000, in turns in both programs. Everything runs on one processor. All GETs are
answered alike.
"""
import os
import shutil
import subprocess
import sys
import tempfile

from maps import SPACES, creates, reads, settings, switch
from program import Run, compare

OBJECTS = 20_000
PART = 1_000
SOURCES = f"{os.path.dirname(os.path.abspath(__file__))}/twin"
# Where Debian's packages leave the sources of crates.
REGISTRY = "/usr/share/cargo/registry"


def build(folder):
    """The twin, built in a folder."""
    if not shutil.which("cargo"):
        sys.exit("twin.py: cargo isn't installed, so that the twin can't be built")
    words = ["cargo", "build", "--release", "--quiet", "--target-dir", f"{folder}/target"]
    if os.path.isdir(REGISTRY):
        words += ["--offline", "--config", "source.crates-io.replace-with='debian'", "--config", f"source.debian.directory='{REGISTRY}'"]
    shutil.copytree(SOURCES, f"{folder}/twin")
    ran = subprocess.run(words, cwd=f"{folder}/twin", capture_output=True, text=True)
    if ran.returncode:
        sys.exit(f"twin.py: cargo doesn't build the twin, for want of serde_json perhaps, which Debian has as librust-serde-json-dev:\n{ran.stderr}")
    return f"{folder}/target/release/twin"


def measure(runs, size, data):
    """Creates and reads objects in runs that are new."""
    names = ("the twin", "the program")
    for run in runs:
        run.ask(SPACES)
    for kind, lines in (("POST", creates(OBJECTS, data)), ("GET", reads(OBJECTS))):
        compare(f"{kind} of {size}", names, runs, lambda _: lines, PART, OBJECTS // PART)
    first, second = (run.ask(reads(OBJECTS)) for run in runs)
    assert first == second
    for run in runs:
        run.close()


def main():
    program = sys.argv[1]
    with tempfile.TemporaryDirectory() as folder:
        programs = (build(folder), program)
        os.sched_setaffinity(0, {max(os.sched_getaffinity(0))})
        for size, data in (("1 KiB", settings), ("130 bytes", switch)):
            measure([Run(each) for each in programs], size, data)


if __name__ == "__main__":
    main()
