#!/usr/bin/env python3
"""Calls of `hnc run` for memory per request on ConfigMaps of about 1 KiB.

Usage: bench/allocations.py PROGRAM
PROGRAM is the built program, which bin/hnc leaves as crates/hnc/out/hnc.
Prints one line per kind of request: how often it makes, enlarges or moves a block of memory. They are counted by valgrind in runs with so many
requests of a kind and with twice as many, whose difference is shared out: so what a run takes anyway isn't counted, and the growth of what is
kept is. A PUT changes its object.
"""
import re
import subprocess
import sys

from maps import SPACES, creates, places, reads, settings
from program import remove, replace

COUNT = 500


def blocks(program, lines):
    """How many blocks of memory a run of the lines makes."""
    ran = subprocess.run(["valgrind", "--leak-check=no", program, "run"], input="".join(lines), capture_output=True, text=True, check=True)
    assert ran.stdout.count("\n") == len(lines)
    return int(re.search(r"total heap usage: ([\d,]+) allocs", ran.stderr)[1].replace(",", ""))


def main():
    program = sys.argv[1]
    made = SPACES + creates(2 * COUNT, settings)
    kinds = {
        "POST": (SPACES, creates(2 * COUNT, settings)),
        "GET": (made, reads(2 * COUNT)),
        "PUT": (made, [replace(*place, settings(i + 1)) for i, place in enumerate(places(2 * COUNT))]),
        "DELETE": (made, [remove(*place) for place in places(2 * COUNT)]),
    }
    for kind, (before, lines) in kinds.items():
        few, many = (blocks(program, before + lines[:count]) for count in (COUNT, 2 * COUNT))
        print(f"{kind}: {(many - few) / COUNT:.2f} blocks", flush=True)


if __name__ == "__main__":
    main()
