#!/usr/bin/env python3
"""Resident bytes that `hnc run` takes for a list of 65,000 ConfigMaps of about 1 KiB against the bytes of its answer.

Usage: bench/list_memory.py PROGRAM
PROGRAM is the built program, which bin/hnc leaves as crates/hnc/out/hnc.
Prints the bytes of the answer, the most bytes that were resident beside those before the list, and how many stay after it, each with its ratio
to the answer. The list is of all namespaces, and is asked once and then again, since the second finds what the first left.
"""
import sys

from maps import SPACES, creates, settings
from program import Run

OBJECTS = 65_000
PART = 5_000


def main():
    run = Run(sys.argv[1])
    run.ask(SPACES)
    lines = creates(OBJECTS, settings)
    for at in range(0, OBJECTS, PART):
        run.ask(lines[at : at + PART])
    for turn in ("first", "second"):
        run.forget_peak()
        before = run.resident()
        answer = len(run.ask(["GET /api/v1/configmaps\n"])[0])
        peak, after = run.peak() - before, run.resident() - before
        print(f"{turn} list of {answer:,} bytes: peak {peak:,} resident, ratio {peak / answer:.2f}; {after:,} stay, ratio {after / answer:.2f}")
    run.close()


if __name__ == "__main__":
    main()
