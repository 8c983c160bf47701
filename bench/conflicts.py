#!/usr/bin/env python3
"""Processor time per request of `hnc run` where sources may be overwritten: at 4,096 namespaces and 60,960 Roles against a sixteenth of both, in trees of depth 8.

Usage: bench/conflicts.py PROGRAM
PROGRAM is the built program, which bin/hnc leaves as crates/hnc/out/hnc.
Prints one line per kind of request: the time per request at each size, and their ratio. A tree is a root and columns of eight namespaces, each
the parent of the next one, with 15 Roles in each, whose names differ. Roles are always propagated, so each new one asks whether a source lies
below it under its name, or above it. A Role is made in a leaf, or in the root, and removed again: both requests count. In the root it marks a
copy in every namespace; what the review of it takes is seen where it has the name of a Role in a leaf, so that it is refused. A PUT changes the
contents of a Role in a leaf. A move takes the fourth of a column with the four below it, and their 75 Roles, below the third of another one. All
come in shuffled order and in parts of 2,480 requests, in turns at the small and the large size; moves in parts of 248, since each marks some 450
keys, which nobody takes here. The PUTs and the moves come once more in as many columns of the large tree as the small one has: there the two
differ in what they hold, and not in how much of it is asked about. There are 32 turns. Everything runs on one processor.
"""
import itertools
import os
import sys

from program import Kind, compare, numbered
from trees import Columns

DEPTH = 8
SIZES = (256, 4_096)
# In so many namespaces of each tree.
FILLED = (254, 4_064)
OBJECTS = 15
ROLE = Kind("rbac.authorization.k8s.io/v1", "Role", "roles")


def rules(verb):
    return [{"apiGroups": [""], "resources": ["pods"], "verbs": [verb]}]


def role(ns, number):
    """The name of one of a namespace's Roles, which no other namespace has."""
    return f"r{ns[1:]}-{number:02}"


def make(ns, name):
    return f"POST {ROLE.path(ns)} {ROLE.body(name, rules=rules('get'))}\n"


def change(ns, name, verb):
    return f"PUT {ROLE.path(ns)}/{name} {ROLE.body(name, rules=rules(verb))}\n"


def remove(ns, name):
    return f"DELETE {ROLE.path(ns)}/{name}\n"


class Filled(Columns):
    """A tree with Roles in so many of its namespaces."""

    def __init__(self, program, namespaces, filled):
        super().__init__(program, (namespaces - 1) // DEPTH, DEPTH, namespaces)
        self.filled = filled
        self.ask([make(numbered(i), role(numbered(i), at)) for i in range(filled) for at in range(OBJECTS)])

    def leaves(self):
        """The leaves' namespaces that have Roles."""
        for column, turn in self.shuffled():
            yield numbered(column % (self.filled // DEPTH - 1) * DEPTH + DEPTH), turn

    def comes_and_goes(self, place):
        """A Role that is made and removed, by turns, in the places that are given."""
        for number, ns in enumerate(place):
            yield make(ns, f"s{number}")
            yield remove(ns, f"s{number}")

    def at_leaves(self):
        return self.comes_and_goes(ns for ns, _ in self.leaves())

    def at_root(self):
        return self.comes_and_goes(itertools.repeat(numbered(0)))

    def refused(self):
        """POSTs of Roles in the root that would overwrite one of a leaf."""
        for number, (ns, _) in enumerate(self.leaves()):
            yield make(numbered(0), role(ns, number % OBJECTS))

    def contents(self):
        """PUTs that change a Role of a leaf."""
        for number, (ns, turn) in enumerate(self.leaves()):
            yield change(ns, role(ns, number % OBJECTS), f"verb{number}")


def main():
    program = sys.argv[1]
    os.sched_setaffinity(0, {max(os.sched_getaffinity(0))})
    trees = [Filled(program, *size) for size in zip(SIZES, FILLED)]
    names = [f"{namespaces:,} namespaces" for namespaces in SIZES]
    compare("POST and DELETE of a Role in a leaf", names, trees, Filled.at_leaves)
    compare("POST and DELETE of a Role in the root", names, trees, Filled.at_root)
    compare("POST of a Role in the root that is refused", names, trees, Filled.refused, statuses=b"403 ")
    compare("PUT of a Role's contents", names, trees, Filled.contents)
    compare("PUT that moves an inner subtree", names, trees, lambda tree: tree.moves(DEPTH // 2), part=248)
    few = len(trees[0].columns)
    for tree in trees:
        tree.ask_among(few)
    compare(f"PUT of a Role's contents in {few} columns", names, trees, Filled.contents)
    compare(f"PUT that moves an inner subtree of {few} columns", names, trees, lambda tree: tree.moves(DEPTH // 2), part=248)
    for tree in trees:
        tree.close()


if __name__ == "__main__":
    main()
