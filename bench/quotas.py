#!/usr/bin/env python3
"""Processor time per request of `hnc run` where quotas limit Pods.

Usage: bench/quotas.py PROGRAM
PROGRAM is the built program, which bin/hnc leaves as crates/hnc/out/hnc.
Prints one line per comparison: the time per request at each size, and their ratio. A tree is a root and columns of namespaces, each the parent
of the next one. A Pod is made in a leaf and removed again, and both requests count: under a quota in each namespace of its chain, in 1,025
namespaces of depth 8 and of depth 64; under a quota in the root and one in the leaf's column, beside Pods in all namespaces, at 4,096 namespaces
and 60,960 Pods against a sixteenth of both; and there without quotas. They come in shuffled order and in parts of 62 requests, in turns at the
small and the large size. There too a namespace at half the depth gets a parent in another column, with five namespaces and their Pods below it and
a quota above it before and after; and what quotas tell is settled behind each part, of which the time of a turn is printed. There are 16 turns
of both sizes. Everything runs on one processor.
"""
import os
import sys

from program import Kind, compare, numbered, parts, remove, report
from trees import Columns

POD = Kind("v1", "Pod", "pods")
QUOTA = Kind("hnc.x-k8s.io/v1alpha2", "HierarchicalResourceQuota", "hierarchicalresourcequotas")
CONTAINERS = {"containers": [{"name": "main", "resources": {"requests": {"cpu": "250m", "memory": "64Mi"}}}]}
LIMITS = {"pods": "1M", "requests.cpu": "1M", "requests.memory": "1Pi"}
DEPTHS = (8, 64)
DEPTH = 8
SIZES = (256, 4_096)
# In so many namespaces of each tree.
FILLED = (254, 4_064)
PODS = 15
PART, COUNT = 62, 16


def pod(ns, name):
    return f"POST {POD.path(ns)} {POD.body(name, spec=CONTAINERS)}\n"


def quota(ns):
    return f"POST {QUOTA.path(ns)} {QUOTA.body('limits', spec={'hard': LIMITS})}\n"


def comes_and_goes(tree):
    """Pods that are made and removed, by turns, in the leaves."""
    for column, turn in tree.shuffled():
        ns, name = tree.at(column, tree.depth), f"p{turn}"
        yield pod(ns, name)
        yield remove(ns, name, POD)


class Telling(Columns):
    """A run in which Pods come and go, whose quotas then tell what is used."""

    def __init__(self, *words):
        super().__init__(*words)
        self.steps = parts(comes_and_goes(self), PART)

    def turn(self):
        """The time of a turn, once Pods have come and gone."""
        self.ask(next(self.steps))
        before = self.used()
        turns = len(self.settle())
        return (self.used() - before) / turns * PART


def along_chains(program):
    trees = [Columns(program, 1_024 // depth, depth) for depth in DEPTHS]
    for tree in trees:
        tree.ask([quota(numbered(i)) for i in range(1_025)])
    compare("POST and DELETE of a Pod under a quota at each level", [f"depth {depth}" for depth in DEPTHS], trees, comes_and_goes, PART, COUNT)
    for tree in trees:
        tree.close()


def in_large_trees(program):
    trees = [Telling(program, (namespaces - 1) // DEPTH, DEPTH, namespaces) for namespaces in SIZES]
    names = [f"{namespaces:,} namespaces" for namespaces in SIZES]
    for tree, filled in zip(trees, FILLED):
        tree.ask([pod(numbered(i), f"q{at:02}") for i in range(filled) for at in range(PODS)])
    compare("POST and DELETE of a Pod without quotas", names, trees, comes_and_goes, PART, COUNT)
    for tree in trees:
        tree.ask([quota(numbered(0))] + [quota(numbered(i * DEPTH + 1)) for i in tree.columns])
    compare("POST and DELETE of a Pod under two quotas", names, trees, comes_and_goes, PART, COUNT)
    compare("PUT of a parent that moves an inner subtree of five with 75 Pods", names, trees, lambda tree: tree.moves(DEPTH // 2), PART, COUNT)
    for tree in trees:
        tree.settle()
    report("a turn that tells what is used", names, [[tree.turn() for tree in trees] for _ in range(COUNT)], PART)
    for tree in trees:
        tree.close()


def main():
    program = sys.argv[1]
    os.sched_setaffinity(0, {max(os.sched_getaffinity(0))})
    along_chains(program)
    in_large_trees(program)


if __name__ == "__main__":
    main()
