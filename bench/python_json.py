#!/usr/bin/env python3
"""Requests per second of `hnc run` against reading and writing the same bodies by Python's json, and by orjson where it is installed.

Usage: bench/python_json.py PROGRAM
PROGRAM is the built program, which bin/hnc leaves as crates/hnc/out/hnc. orjson is looked for in the Python that runs this script.
Prints one line per kind of request and library: the requests per second of the processor's time, those of a loop that reads and writes each
body with sorted members, and their ratio. There are 20,000 ConfigMaps in 4 namespaces, each created and then read once, with bodies of about
1 KiB that have 16 members in their data. They come in parts of 1,000, in turns with the loops on one processor. The best of the parts counts.
"""
import json
import os
import sys
import time

from maps import SPACES, creates, reads, settings
from program import Run, parts

try:
    import orjson
except ImportError:
    orjson = None

OBJECTS = 20_000
PART = 1_000


def by_json(bodies):
    for text in bodies:
        json.dumps(json.loads(text), sort_keys=True, separators=(",", ":"))


def by_orjson(bodies):
    for text in bodies:
        orjson.dumps(orjson.loads(text), option=orjson.OPT_SORT_KEYS)


def loop_seconds(loop, lines):
    """The processor's time of a loop over the bodies of the lines."""
    bodies = [line.split(" ", 2)[2].encode() for line in lines]
    start = time.process_time()
    loop(bodies)
    return time.process_time() - start


def main():
    program = sys.argv[1]
    os.sched_setaffinity(0, {max(os.sched_getaffinity(0))})
    libraries = {"json": by_json} | ({"orjson": by_orjson} if orjson else {})
    run = Run(program)
    run.ask(SPACES)
    bodies = creates(OBJECTS, settings)
    for kind, lines in (("POST", bodies), ("GET", reads(OBJECTS))):
        times = []
        for asked, looped in zip(parts(lines, PART), parts(bodies, PART)):
            times.append([run.seconds(asked), *(loop_seconds(loop, looped) for loop in libraries.values())])
        rate, *rates = (PART / min(column) for column in zip(*times))
        for library, other in zip(libraries, rates):
            print(f"{kind}: {rate:,.0f} per second, {library} {other:,.0f}, ratio {rate / other:.2f}", flush=True)
    run.close()


if __name__ == "__main__":
    main()
