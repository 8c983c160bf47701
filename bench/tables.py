#!/usr/bin/env python3
"""What the commands that print tables take, against a start on the same rows.

Usage: bench/tables.py PROGRAM [FOLDER]
PROGRAM is the built program, which bin/hnc leaves as crates/hnc/out/hnc. The database lies in FOLDER, or in a temporary one.
Makes 4,096 namespaces in columns of eight, with a Role in the root, settles them, and adds 57,000 ConfigMaps of 1 KiB and a quota in each of 128
namespaces. Prints a line for each command: the processor's time and the most resident bytes, and the ratio of both to those of a run with an
empty script on the same rows, the middle of three turns.
"""
import os
import statistics
import subprocess
import sys
import tempfile

from conflicts import make
from program import create, numbered
from quotas import quota
from trees import Columns

NAMESPACES, DEPTH = 4_096, 8
OBJECTS, QUOTAS = 57_000, 128
TURNS = 3
COMMANDS = (["tree"], ["describe", numbered(8)], ["quota"], ["audit"])


def used(words, statuses):
    """The processor's time of a command, and its most resident bytes."""
    child = subprocess.Popen(words, stdin=subprocess.DEVNULL, stdout=subprocess.DEVNULL, stderr=subprocess.DEVNULL)
    _, status, usage = os.wait4(child.pid, 0)
    assert os.waitstatus_to_exitcode(status) in statuses, words
    return usage.ru_utime + usage.ru_stime, usage.ru_maxrss * 1024


def fill(program, path):
    tree = Columns(program, (NAMESPACES - 1) // DEPTH, DEPTH, NAMESPACES, "--db", path)
    tree.ask([make(numbered(0), "r")])
    tree.ask([create(numbered(i % NAMESPACES), f"c{i:05}", {"k": "x" * 900}) for i in range(OBJECTS)])
    tree.ask([quota(numbered(i * DEPTH)) for i in range(QUOTAS)])
    tree.settle()
    tree.close()


def main():
    program, *folder = sys.argv[1:]
    os.sched_setaffinity(0, {max(os.sched_getaffinity(0))})
    with tempfile.TemporaryDirectory(dir=folder[0] if folder else None) as where:
        path = f"{where}/rows.db"
        fill(program, path)
        rows = [[used([program, *words, "--db", path], (0,)) for words in (["run"], *COMMANDS)] for _ in range(TURNS)]
    start, *others = ([statistics.median(column) for column in zip(*turns)] for turns in zip(*rows))
    print(f"run with an empty script: {start[0]:.2f} s, {start[1] / 1e6:.0f} MB")
    for words, (seconds, memory) in zip(COMMANDS, others):
        print(f"{words[0]}: {seconds:.2f} s, {memory / 1e6:.0f} MB; ratio {seconds / start[0]:.2f}, {memory / start[1]:.2f}", flush=True)


if __name__ == "__main__":
    main()
