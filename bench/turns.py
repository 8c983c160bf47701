#!/usr/bin/env python3
"""What reconcilers' turns cost in `hnc run`, and what it costs requests and starts to find the keys that turns are for.

Usage: bench/turns.py PROGRAM [OTHER]
PROGRAM is the built program, which bin/hnc leaves as crates/hnc/out/hnc. A tree is a root and columns of eight namespaces, each the parent of the
next one. Sizes are 4,096 namespaces with 60,000 Roles, whose names differ, and a sixteenth of both; those above the leaves go nowhere, by an
exception. A tree has settled before it is measured, and settles behind each part. Prints, a line for each:
- a PUT that changes the contents of a Role in a leaf, at both sizes, and the ratio;
- a POST of a namespace that no other one names as its parent, at both sizes, and the ratio;
- a PUT that moves the fourth of a column with the four below it under the third of another one, at both sizes, and the ratio. Here each namespace of
  a column has three Roles, which are copied to those below it: 12,000 Roles and 43,000 copies at 4,096 namespaces. So a move marks 90 keys of copies;
- at each size a turn that writes a new copy : a POST of the same Role at the same place, and a turn that writes nothing : the same. Eight Roles
  above the leaf of each of 31 columns are copied to it, and are removed again; then they are posted there;
- how many turns write, and how many don't, the time and the peak of memory, where 4,096 namespaces with 16 Roles in their root settle at once;
- the start on the rows of that tree in a database file : the start of OTHER, a program that looks for no keys, or without one Python's reading.
Parts take 32 turns at the two sizes; of starts the least of five counts. Times are the processor's. Everything runs on one.
"""
import os
import shutil
import sys
import tempfile

from conflicts import ROLE, change, make, remove, role, rules
from program import namespace, numbered, parts, report
from start import NOTHING, READER, seconds
from trees import Columns

DEPTH = 8
SIZES = (256, 4_096)
# In so many namespaces of each tree.
FILLED = (250, 4_000)
OBJECTS = 15
COUNT = 32
PART = 248
# So many Roles are copied in each of so many columns, and so many namespaces are posted in a part.
COPIED = 8
COLUMNS = PART // COPIED
NEW = 16
SOURCES = 16
STARTS = 5
# So many Roles of each namespace are copied down its column, and so many moves are a part.
SPREAD = 3
MOVES = 124


def sized(numbers):
    return [f"{number:,} namespaces" for number in numbers]


def kept(ns, name):
    """The line that makes a Role that goes nowhere."""
    metadata = {"name": name, "annotations": {"propagate.hnc.x-k8s.io/none": "true"}}
    return f"POST {ROLE.path(ns)} {ROLE.body(name, metadata=metadata, rules=rules('get'))}\n"


class Settled(Columns):
    """A settled tree with Roles in so many of its namespaces."""

    def __init__(self, program, namespaces, filled):
        super().__init__(program, (namespaces - 1) // DEPTH, DEPTH, namespaces)
        self.filled = filled
        self.ask([(make if i and i % DEPTH == 0 else kept)(numbered(i), role(numbered(i), at)) for i in range(filled) for at in range(OBJECTS)])
        self.settle()
        self.changes = parts(self.contents(), PART)

    def contents(self):
        """PUTs that change a Role of a leaf."""
        for number, (column, _) in enumerate(self.shuffled()):
            leaf = numbered(column % (self.filled // DEPTH - 1) * DEPTH + DEPTH)
            yield change(leaf, role(leaf, number % OBJECTS), f"verb{number}")

    def after(self, lines):
        """The time of lines, before it settles again."""
        took = self.seconds(lines)
        self.settle()
        return took

    def settling(self):
        """The time in which it settles, and how many turns write and how many don't."""
        before = self.used()
        ends = self.settle()
        return self.used() - before, ends.count(b"written"), ends.count(b"nothing")

    def round(self, number):
        """The time of a POST, of a turn that writes a copy of the same Role, and of one that writes nothing, each the mean of a part."""
        columns = self.chance.sample(self.columns, COLUMNS)
        tops, leaves = ([(self.at(column, level), f"s{number}-{at}") for column in columns for at in range(COPIED)] for level in (DEPTH - 1, DEPTH))
        self.ask([make(*place) for place in tops])
        copying, written, beside = self.settling()
        assert written == len(leaves)
        self.after([remove(*place) for place in tops])
        posting = self.seconds([make(*place) for place in leaves])
        looking, none, turns = self.settling()
        assert none == 0 and turns >= len(leaves)
        self.after([remove(*place) for place in leaves])
        nothing = looking / turns
        return posting / len(leaves), (copying - beside * nothing) / written, nothing


class Copied(Columns):
    """A settled tree in which the Roles of each namespace of a column are copied to those below it."""

    def __init__(self, program, namespaces):
        super().__init__(program, (namespaces - 1) // DEPTH, DEPTH, namespaces)
        places = [self.at(column, level) for column in self.columns for level in range(1, DEPTH + 1)]
        self.ask([make(ns, role(ns, at)) for ns in places for at in range(SPREAD)])
        self.settle()
        self.moved = parts(self.moves(DEPTH // 2), MOVES)

    def after_moves(self):
        """The time of a part of moves, before it settles again."""
        took = self.seconds(next(self.moved))
        self.settle()
        return took


def measure_moves(program):
    trees = [Copied(program, namespaces) for namespaces in SIZES]
    report("PUT that moves an inner subtree", sized(SIZES), [[tree.after_moves() for tree in trees] for _ in range(COUNT)], MOVES)
    for tree in trees:
        tree.close()


def measure_requests(program, trees):
    report("PUT of a Role's contents in a leaf", sized(SIZES), [[tree.after(next(tree.changes)) for tree in trees] for _ in range(COUNT)], PART)
    large = Settled(program, SIZES[1] - COUNT * NEW, FILLED[1] - COUNT * NEW)
    times = []
    for number in range(COUNT):
        small = Settled(program, SIZES[0] - NEW, FILLED[0] - NEW)
        times.append([tree.after([namespace(f"new{number}-{at}") for at in range(NEW)]) for tree in (small, large)])
        small.close()
    large.close()
    report("POST of a namespace that nobody names", sized(SIZES), times, NEW)


def measure_turns(trees):
    rounds = [[tree.round(number) for tree in trees] for number in range(COUNT)]
    for at, name in enumerate(sized(SIZES)):
        posting, copy, nothing = (min(times) * 1e6 for times in zip(*(each[at] for each in rounds)))
        print(f"at {name}: a turn that writes a copy {copy:.1f} us, a POST {posting:.1f} us, ratio {copy / posting:.2f}; a turn that writes nothing {nothing:.1f} us, ratio {nothing / posting:.2f}", flush=True)


def measure_settle(program, file):
    """Settles a tree over a file, and in memory, and gives the number of its rows."""
    for options in ((), ("--db", file)):
        run = Columns(program, (SIZES[1] - 1) // DEPTH, DEPTH, SIZES[1], *options)
        run.ask([make(numbered(0), f"r{at:02}") for at in range(SOURCES)])
        before = run.used(), run.resident()
        ends = run.settle()
        took = run.used() - before[0]
        written = ends.count(b"written")
        print(
            f"settle of {SIZES[1]:,} namespaces with {SOURCES} Roles in their root, {'over a file' if options else 'in memory'}: {len(ends):,} turns, {written:,} written, {ends.count(b'nothing'):,} nothing,"
            f" {took:.2f} s, {took / len(ends) * 1e6:.1f} us a turn, peak {run.peak() / 1e6:.0f} MB ({before[1] / 1e6:.0f} MB before)",
            flush=True,
        )
        run.close()
    # each namespace has a HierarchyConfiguration, the root one that tells its children
    return SIZES[1] * 2 + SOURCES * SIZES[1]


def measure_start(program, other, file, rows):
    read = (lambda: seconds([other, "run", "--db", file])) if other else (lambda: seconds([sys.executable, "-c", READER, file, str(rows)]) - seconds([sys.executable, "-c", NOTHING]))
    ours, beside = (min(column) for column in zip(*((seconds([program, "run", "--db", file]), read()) for _ in range(STARTS))))
    print(f"start on {rows:,} settled rows: {ours:.2f} s, {'the other program' if other else 'reading in Python'} {beside:.2f} s, ratio {ours / beside:.2f}")


def main():
    program, other = [*sys.argv[1:], None][:2]
    os.sched_setaffinity(0, {max(os.sched_getaffinity(0))})
    trees = [Settled(program, *size) for size in zip(SIZES, FILLED)]
    measure_requests(program, trees)
    measure_turns(trees)
    for tree in trees:
        tree.close()
    measure_moves(program)
    folder = tempfile.mkdtemp(dir=".")
    try:
        file = os.path.join(folder, "rows.db")
        measure_start(program, other, file, measure_settle(program, file))
    finally:
        shutil.rmtree(folder)


if __name__ == "__main__":
    main()
