#!/usr/bin/env python3
"""Instructions of the feed of events, beside a list of as many objects and beside a GET.

Usage: bench/feed.py crates/hnc/out/hnc
Prints one line for each: the instructions of an answer with 8,192 events of ConfigMaps of 1 KiB and of the list of these, of an answer without events and of the
GET of a small object, and of a PUT with as many events in the window and with few; and what the two make of one another. They are counted by
`valgrind --tool=callgrind`, as what each further line takes of a run in memory.
"""
import re
import subprocess
import sys
import tempfile

from program import create, listing, namespace, read, replace

EVENTS = 8_192
FEW = 16


def instructions(program, lines):
    with tempfile.NamedTemporaryFile() as out:
        words = ["valgrind", "--tool=callgrind", f"--callgrind-out-file={out.name}", program, "run"]
        subprocess.run(words, input="".join(lines).encode(), stdout=subprocess.DEVNULL, stderr=subprocess.DEVNULL, check=True)
        return int(re.search(rb"^(?:summary|totals): (\d+)", out.read(), re.M)[1])


def of_each(program, opening, lines, times):
    """The instructions of each of these lines, behind the same that came once before."""
    return (instructions(program, [*opening, *lines * (times + 1)]) - instructions(program, [*opening, *lines])) / (times * len(lines))


def since(version):
    return f"GET /hnc/v1/events?since={version}\n"


def says(what, one, other):
    print(f"{what}: {one / other:.2f} ({one:,.0f} : {other:,.0f})")


def main(program):
    opening = [namespace("a"), *(create("a", f"c{number}", {"k": "v" * 1_024}) for number in range(EVENTS))]
    last = len(opening)
    small = [*opening, create("a", "small", {"k": "v"})]
    says("8,192 events : a list of as many objects", of_each(program, opening, [since(last - EVENTS)], 8), of_each(program, opening, [listing("a")], 8))
    says("no events : a GET", of_each(program, small, [since(last + 1)], 512), of_each(program, small, [read("a", "small")], 512))
    few = [namespace("a"), *(create("a", f"c{number}", {"k": "v"}) for number in range(FEW))]
    changes = [replace("a", "c0", {"k": str(number % 2)}) for number in range(2)]
    says("a PUT behind 8,192 events : behind few", of_each(program, [*few, *changes * (EVENTS // 2)], changes, 256), of_each(program, few, changes, 256))


if __name__ == "__main__":
    main(*sys.argv[1:])
