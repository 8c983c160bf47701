#!/usr/bin/env python3
"""Resident bytes per ConfigMap in `hnc run` against the bytes of its JSON text.

Usage: bench/memory.py PROGRAM
PROGRAM is the built program, which bin/hnc leaves as crates/hnc/out/hnc.
Prints one line for ConfigMaps of about 1 KiB and one for those of about 100 bytes: the bytes of the text as GET prints it, the resident
bytes, and their ratio. The resident bytes are the peak of a run with 64,000 ConfigMaps less that of one with 4,000, per ConfigMap between.
They have all that is kept of an object: the object and its identity in the store, and its row's key and text in the keeper in memory.
"""
import sys

from maps import SPACES, creates, settings, switch
from program import Run

SIZES = (4_000, 64_000)


def measure(program, objects, data):
    """The peak of a run that creates so many objects, and the bytes of their texts."""
    run = Run(program)
    run.ask(SPACES)
    answers = run.ask(creates(objects, data))
    peak = run.peak()
    run.close()
    return peak, sum(len(answer) - len("201 ") for answer in answers)


def main():
    program = sys.argv[1]
    for data in (settings, switch):
        small, large = (measure(program, objects, data) for objects in SIZES)
        resident, text = ((more - less) / (SIZES[1] - SIZES[0]) for less, more in zip(small, large))
        print(f"text of {text:,.0f} bytes: {resident:,.0f} resident, ratio {resident / text:.2f}")


if __name__ == "__main__":
    main()
