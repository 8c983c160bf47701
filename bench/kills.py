#!/usr/bin/env python3
"""Kills `hnc run --db FILE` at random places, and looks at what the file has.

Usage: bench/kills.py PROGRAM [COUNT [FOLDER]]
PROGRAM is the built program, which bin/hnc leaves as crates/hnc/out/hnc. COUNT kills are made, 200 where none is given; the database lies in a
new folder within FOLDER, the current one where none is given. Each run goes on over the same file with POSTs, PUTs and DELETEs of ConfigMaps, and
is killed by SIGKILL after a random time. Then sqlite3 finds the file whole, the program starts on it, and each write that was answered is there,
with at most one more, which is the next one of the script. Ends with status 1, and says why, where that doesn't hold.
"""
import json
import os
import random
import shutil
import sqlite3
import subprocess
import sys
import tempfile
import time

from program import create, namespace, remove, replace

SPACE = "n"


def script(rng, objects, count):
    """Lines that change the objects, with the objects after each: names with their data."""
    lines, states = [], []
    for number in range(count):
        name = f"c{rng.randrange(40)}"
        data = {"on": "x" * rng.choice((3, 300, 30_000)), "number": str(number)}
        if name not in objects:
            lines.append(create(SPACE, name, data))
            objects = {**objects, name: data}
        elif rng.random() < 0.3:
            lines.append(remove(SPACE, name))
            objects = {other: its for other, its in objects.items() if other != name}
        else:
            lines.append(replace(SPACE, name, data))
            objects = {**objects, name: data}
        states.append(objects)
    return lines, states


def killed(program, file, lines, after):
    """How many lines a run answered before it was killed."""
    with tempfile.TemporaryFile() as given, tempfile.TemporaryFile() as answers:
        given.write("".join(lines).encode())
        given.seek(0)
        child = subprocess.Popen([program, "run", "--db", file], stdin=given, stdout=answers)
        time.sleep(after)
        child.kill()
        child.wait()
        answers.seek(0)
        text = answers.read().splitlines()
    assert all(answer.startswith((b"200 ", b"201 ")) for answer in text), text[-1]
    return len(text)


def stored(program, file):
    """The ConfigMaps that a start on the file gives."""
    ran = subprocess.run([program, "run", "--db", file], input=f"GET /api/v1/namespaces/{SPACE}/configmaps\n".encode(), capture_output=True, check=True)
    listed = json.loads(ran.stdout.split(b" ", 1)[1])
    return {item["metadata"]["name"]: item["data"] for item in listed["items"]}


def whole(file):
    """Whether sqlite3 finds a copy of the file, with its log, whole."""
    copy = f"{file}.copy"
    for end in ("", "-wal"):
        if os.path.exists(file + end):
            shutil.copy(file + end, copy + end)
    database = sqlite3.connect(copy)
    found = database.execute("PRAGMA integrity_check").fetchone()[0]
    database.close()
    for end in ("", "-wal", "-shm"):
        if os.path.exists(copy + end):
            os.remove(copy + end)
    return found == "ok"


def main():
    program, count = sys.argv[1], int(sys.argv[2]) if len(sys.argv) > 2 else 200
    folder = tempfile.mkdtemp(dir=sys.argv[3] if len(sys.argv) > 3 else ".")
    rng = random.Random(1)
    file = os.path.join(folder, "rows.db")
    objects, answered_in_all, more = {}, 0, 0
    try:
        subprocess.run([program, "run", "--db", file], input=namespace(SPACE).encode(), stdout=subprocess.DEVNULL, check=True)
        for number in range(count):
            lines, states = script(rng, objects, 3_000)
            answered = killed(program, file, lines, rng.uniform(0.005, 0.25))
            if not whole(file):
                sys.exit(f"kill {number}: the file isn't whole")
            found = stored(program, file)
            front = [objects, *states]
            if found != front[answered] and (answered == len(lines) or found != front[answered + 1]):
                sys.exit(f"kill {number}: after {answered} answers the file has other objects")
            more += found != front[answered]
            answered_in_all += answered
            objects = found
        print(f"{count} kills: each of {answered_in_all:,} answered writes is there, and {more} times the one that was under way; each file is whole")
    finally:
        shutil.rmtree(folder)


if __name__ == "__main__":
    main()
