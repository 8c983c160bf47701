#!/usr/bin/env python3
"""What it costs to delete namespaces in `hnc run`: the turns that empty one, by how many objects lie in it, and the request, by how many namespaces go along.

Usage: bench/deletion.py PROGRAM
PROGRAM is the built program, which bin/hnc leaves as crates/hnc/out/hnc. Beside what is measured stand 3,800 namespaces with 16 Roles in each.
Prints, a line for each:
- a turn that removes an object of a terminating namespace, where 4,000 Roles lie in it and where 40 do, and the ratio: the mean over all turns of
  the namespace;
- the DELETE of an anchor whose subnamespace has a reach of 256, per namespace of it, and where it has one of 16, and the ratio. All others of the
  reach lie below its first one;
- the same of reaches of 60 and of 8, in which each lies below the one before;
- the DELETE of a namespace that holds nothing, with the turns that remove it, beside 3,800 namespaces and beside 256, and the ratio: the mean of 200.
Rounds are turns of both. Times are the processor's. Everything runs on one.
"""
import os
import sys

from conflicts import ROLE, make
from program import Kind, Run, namespace, report
from trees import HIERARCHY

ANCHOR = Kind("hnc.x-k8s.io/v1alpha2", "SubnamespaceAnchor", "subnamespaceanchors")
BESIDE = 3_800
OBJECTS = 16
SIZES = (40, 4_000)
REACHES = (16, 256)
DEPTHS = (8, 60)
ROUNDS = 8
# Beside so many namespaces, so many that hold nothing are deleted.
FEW = 256
GONE = 200


def kept(ns, name):
    """The line that makes a Role that goes nowhere."""
    return f"POST {ROLE.path(ns)} {ROLE.body(name, metadata={'name': name, 'annotations': {'propagate.hnc.x-k8s.io/none': 'true'}})}\n"


def end(ns):
    return f"DELETE /api/v1/namespaces/{ns}\n"


class Beside(Run):
    """A settled run with so many namespaces and their Roles that nothing touches."""

    def __init__(self, program, beside):
        super().__init__(program)
        self.ask([namespace(f"n{i}") for i in range(beside)])
        self.ask([kept(f"n{i}", f"r{i}-{at}") for i in range(beside) for at in range(OBJECTS)])
        self.ask([namespace("top"), f"POST {HIERARCHY.path('top')} {HIERARCHY.body('hierarchy', spec={'allowCascadingDeletion': True})}\n"])
        self.settle()

    def turns(self, count):
        """The time of so many turns, each of which writes."""
        before = self.used()
        ends = self.settle(count)
        took = self.used() - before
        assert ends == [b"written"] * count
        return took

    def emptied(self, objects):
        """The time of a turn that empties a namespace of so many Roles."""
        self.ask([namespace("goes"), *(make("goes", f"r{at}") for at in range(objects))])
        self.settle()
        self.ask([end("goes")])
        # its tree labels and its report want nothing any more, and the first object goes between them
        assert sorted(self.settle(3)) == [b"nothing", b"nothing", b"written"]
        took = self.turns(objects - 1) / (objects - 1)
        # the last turn removes the namespace
        self.turns(1)
        return took

    def gone(self):
        """The time of the DELETE of a namespace that holds nothing, and of its turns."""
        names = [f"e{at}" for at in range(GONE)]
        self.ask([namespace(name) for name in names])
        self.settle()
        before = self.used()
        self.ask([end(name) for name in names])
        self.settle()
        return (self.used() - before) / GONE

    def cut(self, levels):
        """The time of a DELETE of the first of anchors that ask for these namespaces, level by level, for each namespace that goes along."""
        for above, names in zip(["top", *(names[0] for names in levels)], levels):
            self.ask([f"POST {ANCHOR.path(above)} {ANCHOR.body(name)}\n" for name in names])
            self.settle()
        took = self.seconds([f"DELETE {ANCHOR.path('top')}/s0\n"])
        self.settle()
        return took / sum(map(len, levels))


def flat(reach):
    """The names of a reach in two levels."""
    return [["s0"], [f"s{at}" for at in range(1, reach)]]


def deep(reach):
    """The names of a reach in which each lies below the one before."""
    return [[f"s{at}"] for at in range(reach)]


def main():
    os.sched_setaffinity(0, {max(os.sched_getaffinity(0))})
    run = Beside(sys.argv[1], BESIDE)
    rounds = [[run.emptied(objects) for objects in SIZES] for _ in range(ROUNDS)]
    names = [f"{size:,} Roles" for size in SIZES]
    report("a turn that removes an object", names, rounds, 1)
    report("DELETE of an anchor, for each namespace that goes along", [f"{reach} of them" for reach in REACHES], [[run.cut(flat(reach)) for reach in REACHES] for _ in range(ROUNDS)], 1)
    report("the same, each below the one before", [f"{reach} of them" for reach in DEPTHS], [[run.cut(deep(reach)) for reach in DEPTHS] for _ in range(ROUNDS)], 1)
    runs = [Beside(sys.argv[1], FEW), run]
    names = [f"{size:,} namespaces" for size in (FEW, BESIDE)]
    report("DELETE of a namespace that holds nothing", names, [[each.gone() for each in runs] for _ in range(ROUNDS)], 1)
    for each in runs:
        each.close()


if __name__ == "__main__":
    main()
