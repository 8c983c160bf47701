#!/usr/bin/env python3
"""The start of `hnc run --db FILE` on many rows against Python's reading of the same rows, and the memory after it.

Usage: bench/start.py PROGRAM [FOLDER]
PROGRAM is the built program, which bin/hnc leaves as crates/hnc/out/hnc. The database lies in a new folder within FOLDER, the current one where
none is given. A run makes 65,000 ConfigMaps of about 1 KiB, and its resident bytes are noted. Then runs of an empty script start on the file, and in
turn with them a process of Python reads the same rows by sqlite3 and json, once in the order of keys. Times are the processor's, in the process
and in the system, the least of each counts; what the interpreter takes by itself is left out.
Prints both times with their ratio, and the resident bytes after a start with their ratio to those of the run that made the objects.
"""
import os
import resource
import shutil
import subprocess
import sys
import tempfile

from maps import SPACES, creates, settings
from program import Run

OBJECTS = 65_000
TURNS = 5

READER = """
import json, sqlite3, sys
database = sqlite3.connect(sys.argv[1])
objects = {key: (version, json.loads(body)) for key, version, body in database.execute("SELECT key, version, body FROM objects ORDER BY key")}
assert len(objects) == int(sys.argv[2]), len(objects)
"""
NOTHING = "import json, sqlite3"


def seconds(command, **options):
    """The processor's time of a process."""
    before = resource.getrusage(resource.RUSAGE_CHILDREN)
    subprocess.run(command, check=True, stdin=subprocess.DEVNULL, **options)
    after = resource.getrusage(resource.RUSAGE_CHILDREN)
    return after.ru_utime + after.ru_stime - before.ru_utime - before.ru_stime


def made(program, file):
    """The resident bytes of a run that makes the objects, and how many there are with their namespaces."""
    run = Run(program, "--db", file)
    run.ask(SPACES)
    for _ in run.ask(creates(OBJECTS, settings)):
        pass
    resident = run.resident()
    run.close()
    return resident, OBJECTS + len(SPACES)


def started(program, file):
    """The resident bytes of a run that has started and answered one request."""
    run = Run(program, "--db", file)
    run.ask([SPACES[0].replace("POST", "GET").split(" {")[0] + "/" + SPACES[0].split('"name":"')[1].split('"')[0] + "\n"])
    resident = run.resident()
    run.close()
    return resident


def main():
    program, folder = sys.argv[1], tempfile.mkdtemp(dir=sys.argv[2] if len(sys.argv) > 2 else ".")
    try:
        file = os.path.join(folder, "rows.db")
        before, rows = made(program, file)
        times = [(seconds([program, "run", "--db", file]), seconds([sys.executable, "-c", READER, file, str(rows)]) - seconds([sys.executable, "-c", NOTHING])) for _ in range(TURNS)]
        ours, python = (min(column) for column in zip(*times))
        print(f"start on {rows:,} rows of 1 KiB: {ours:.2f} s, Python's reading {python:.2f} s, ratio {ours / python:.2f}")
        after = started(program, file)
        print(f"resident after it: {after / 1e6:.0f} MB, after making the objects {before / 1e6:.0f} MB, ratio {after / before:.2f}")
    finally:
        shutil.rmtree(folder)


if __name__ == "__main__":
    main()
