#!/usr/bin/env python3
"""Commits per second of `hnc run --db FILE` against the same statements in C over the installed SQLite.

Usage: bench/commits.py PROGRAM [FOLDER [SYNC_US]]
PROGRAM is the built program, which bin/hnc leaves as crates/hnc/out/hnc. The databases lie in a new folder within FOLDER, the current one where
none is given: it is that folder's disk whose syncs are measured. Where SYNC_US is given, each sync of both programs takes at least so many
microseconds, as on a slower disk (bench/slow_sync.c). The program in C is bench/commits.c, with statements that are prepared once,
`journal_mode=WAL` and `synchronous=FULL`. It is built by cc in a temporary folder, and takes the rows that the program made, as lines.
Prints how long a sync of the disk takes, and then a line per kind of row: the commits per second of both, and the ratio of the program's to the
other's. The program reads requests, reviews them and answers objects, which go to memory and not to the disk; the other one is given its rows.
Times are those of the wall clock over all commits of a run on a new file, with the checkpoints that come among them. Runs of the two take turns,
and the least time of each counts. At the end of each turn both files have the same rows.
"""
import contextlib
import json
import os
import shutil
import sqlite3
import subprocess
import sys
import tempfile
import time
from typing import NamedTuple

from program import Run, create, namespace, replace

TURNS = 5
NAMES = 500
SPACE = "n"
HERE = os.path.dirname(os.path.abspath(__file__))


class Case(NamedTuple):
    """Rows of a kind: how many bytes each has at most, how many commits are measured, and whether they overwrite."""

    name: str
    size: int
    commits: int
    overwrites: bool

    def before(self):
        """The requests that come before the measured ones."""
        return [namespace(SPACE)] + [create(SPACE, *self.object(i)) for i in range(NAMES if self.overwrites else 0)]

    def requests(self):
        if self.overwrites:
            return [replace(SPACE, *self.object(i)) for i in range(NAMES, NAMES + self.commits)]
        return [create(SPACE, *self.object(i)) for i in range(self.commits)]

    def object(self, number):
        """A name, and data that differ with the number and fill a row."""
        name = f"c{number % NAMES if self.overwrites else number}"
        rest = {"apiVersion": "v1", "data": {"on": ""}, "kind": "ConfigMap", "metadata": {"name": name, "namespace": SPACE, "resourceVersion": "99999"}}
        return name, {"on": str(number).rjust(self.size - len(json.dumps(rest, separators=(",", ":"))), "x")}


CASES = (
    Case("overwrites of rows of 1 KiB", 1_024, 5_000, True),
    Case("new rows of 64 KiB", 65_536, 700, False),
    Case("new rows of 1 KiB", 1_024, 5_000, False),
)


def build(folder, source, *words):
    """What cc makes of a source beside this file, in a folder."""
    if not shutil.which("cc"):
        sys.exit(f"commits.py: cc isn't installed, so that {source} can't be built")
    built = f"{folder}/{source.removesuffix('.c')}"
    ran = subprocess.run(["cc", "-O2", "-Wall", "-o", built, f"{HERE}/{source}", *words], capture_output=True, text=True)
    if ran.returncode:
        sys.exit(f"commits.py: cc doesn't build {source}, for want of sqlite3.h perhaps, which Debian has as libsqlite3-dev:\n{ran.stderr}")
    return built


def slow_down(folder, microseconds):
    """Lets each sync of the programs that are run from now on take at least so long."""
    library = build(folder, "slow_sync.c", "-shared", "-fPIC", "-ldl")
    os.environ.update(LD_PRELOAD=library, SYNC_US=microseconds)
    print(f"syncs take at least {microseconds} us", flush=True)


def sync_time(folder):
    """The least time of a sync behind a write of 4 KiB."""
    times = []
    with open(f"{folder}/sync", "wb", buffering=0) as file:
        for _ in range(200):
            file.write(bytes(4_096))
            before = time.perf_counter()
            os.fdatasync(file.fileno())
            times.append(time.perf_counter() - before)
    return min(times)


def key_of(answer):
    """The key of the row that an answer tells of."""
    value = json.loads(answer)
    metadata = value["metadata"]
    return f"01//{metadata['name']}" if value["kind"] == "Namespace" else f"08/{metadata['namespace']}/{metadata['name']}"


def lines_of(answers):
    """The rows of answers, as lines for the program in C."""
    return [f"{key_of(answer[4:])} {answer[4:].decode()}\n" for answer in answers]


def run(program, path, before, lines):
    """The seconds that lines take behind others, and the answers of all."""
    child = Run(program, "--db", path, answers=os.fdopen(os.memfd_create("answers"), "rb+"))
    answers = child.ask(before)
    start = time.perf_counter()
    measured = child.ask(lines)
    seconds = time.perf_counter() - start
    child.close()
    return seconds, answers, measured


def rows(path):
    with contextlib.closing(sqlite3.connect(path)) as database:
        return database.execute("SELECT * FROM meta").fetchall(), database.execute("SELECT * FROM objects ORDER BY key").fetchall()


def turn(programs, case):
    """The seconds of both on new files."""
    with tempfile.TemporaryDirectory(dir=os.getcwd()) as folder:
        seconds, before, measured = run(programs[0], f"{folder}/program", case.before(), case.requests())
        other, *_ = run(programs[1], f"{folder}/c", lines_of(before), lines_of(measured))
        assert rows(f"{folder}/program") == rows(f"{folder}/c")
    return seconds, other


def measure(programs, case):
    first, second = (case.commits / min(column) for column in zip(*(turn(programs, case) for _ in range(TURNS))))
    print(f"{case.name}: {first:.0f} commits per second in the program, {second:.0f} in C, ratio {first / second:.2f}", flush=True)


def main():
    program, folder, wanted, *_ = *sys.argv[1:], None, None
    program = os.path.abspath(program)
    with tempfile.TemporaryDirectory(dir=os.path.abspath(folder or ".")) as place:
        os.chdir(place)
        print(f"a sync of 4 KiB: {sync_time(place) * 1e6:.0f} us")
        programs = (program, build(place, "commits.c", "-lsqlite3"))
        if wanted:
            slow_down(place, wanted)
        for case in CASES:
            measure(programs, case)


if __name__ == "__main__":
    main()
