#!/usr/bin/env python3
"""Processor time per request of `hnc run` at 4,096 namespaces and 65,024 ConfigMaps against a sixteenth of both, in trees of depth 8.

Usage: bench/tree.py PROGRAM
PROGRAM is the built program, which bin/hnc leaves as crates/hnc/out/hnc.
Prints one line per kind of request: the time per request at each size, and their ratio. A tree is a root and columns of eight namespaces, each
the parent of the next one, with 16 ConfigMaps in each. A list is of the ConfigMaps of one namespace. A PUT moves a leaf below the seventh of
another column, or the fourth with the four below it below the third of another one: so every PUT changes a parent, and the depth stays. GETs
read the leaves' HierarchyConfigurations. The PUTs come once more in as many columns of the large tree as the small one has: there the two differ
in what they hold, and not in how much of it is asked about. All come in shuffled order and in parts of 2,480 requests, in turns at the small and
the large size. There are 32 turns. Everything runs on one processor.
"""
import os
import sys

from program import compare, create, listing, numbered
from trees import Columns

DEPTH = 8
SIZES = (256, 4_096)
# In so many namespaces of each tree.
FILLED = (254, 4_064)
OBJECTS = 16


class Filled(Columns):
    """A tree with ConfigMaps in so many of its namespaces."""

    def __init__(self, program, namespaces, filled):
        super().__init__(program, (namespaces - 1) // DEPTH, DEPTH, namespaces)
        self.filled = filled
        self.ask([create(numbered(i), f"c{at:02}", {"on": "yes"}) for i in range(filled) for at in range(OBJECTS)])

    def lists(self):
        """Lists of the ConfigMaps of the leaves' namespaces."""
        for column, _ in self.shuffled():
            yield listing(numbered(column % (self.filled // DEPTH) * DEPTH + DEPTH))


def main():
    program = sys.argv[1]
    os.sched_setaffinity(0, {max(os.sched_getaffinity(0))})
    trees = [Filled(program, *size) for size in zip(SIZES, FILLED)]
    names = [f"{namespaces:,} namespaces" for namespaces in SIZES]
    compare(f"list of {OBJECTS}", names, trees, Filled.lists)
    moves = {"a leaf": lambda tree: tree.moves(DEPTH), "an inner subtree": lambda tree: tree.moves(DEPTH // 2)}
    for what, lines in moves.items():
        compare(f"PUT that moves {what}", names, trees, lines)
    compare("GET", names, trees, Columns.reads)
    few = len(trees[0].columns)
    for tree in trees:
        tree.ask_among(few)
    for what, lines in moves.items():
        compare(f"PUT that moves {what} of {few} columns", names, trees, lines)
    for tree in trees:
        tree.close()


if __name__ == "__main__":
    main()
