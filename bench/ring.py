#!/usr/bin/env python3
"""Processor time per request of `hnc run` beside a ring of 4,090 namespaces against beside as many without parents.

Usage: bench/ring.py PROGRAM [PART]
PROGRAM is the built program, which bin/hnc leaves as crates/hnc/out/hnc.
Prints the time per request in each run, and their ratio. In both there are 4,096 namespaces: four leaves that move between two roots, and the
others, which in the second run are each the parent of the next one, and the last of the first, by `admission=skip`. The PUTs that move the leaves
come in parts of PART, 2,480 where it isn't given, in 32 turns of both runs. Then a Pod is made in a leaf and removed again, under a quota in its
root: both requests count, in parts of two, in four turns. Everything runs on one processor.
"""
import itertools
import os
import sys

from program import Run, compare, namespace, remove
from quotas import POD, pod, quota
from trees import move, plant

RING = 4_090
LEAVES = ("a", "b", "c", "d")
ROOTS = ("r", "s")


class Beside(Run):
    """A run with leaves below two roots, and a ring or as many namespaces without parents."""

    def __init__(self, program, is_ring):
        super().__init__(program, "--allow-skip")
        self.ask([namespace(name) for name in (*ROOTS, *LEAVES, *(f"n{i}" for i in range(RING)))])
        self.ask([plant(leaf, ROOTS[0]) for leaf in LEAVES])
        if is_ring:
            # each is put below one that has its parent, so that nothing lies below it yet; the last one closes the ring
            self.ask([plant(f"n{i}", f"n{(i + 1) % RING}", "?admission=skip") for i in (*reversed(range(RING - 1)), RING - 1)])

    def moves(self):
        """PUTs that move the leaves below the other root, over and over."""
        for turn in itertools.count(1):
            for leaf in LEAVES:
                yield move(leaf, ROOTS[turn % len(ROOTS)])

    def pods(self):
        """Pods that are made in a leaf and removed again, by turns."""
        for number in itertools.count():
            yield pod(LEAVES[0], f"p{number}")
            yield remove(LEAVES[0], f"p{number}", POD)


def main():
    program, *part = sys.argv[1:]
    os.sched_setaffinity(0, {max(os.sched_getaffinity(0))})
    runs = [Beside(program, is_ring) for is_ring in (False, True)]
    names = ["no ring", f"a ring of {RING:,}"]
    compare("PUT that moves a leaf", names, runs, Beside.moves, *map(int, part))
    for run in runs:
        run.ask(list(map(quota, ROOTS)))
    compare("POST and DELETE of a Pod under a quota", names, runs, Beside.pods, 2, 4)
    for run in runs:
        run.close()


if __name__ == "__main__":
    main()
