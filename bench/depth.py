#!/usr/bin/env python3
"""Processor time of `hnc run` per PUT that moves a leaf at depth 64 against one at depth 8, in trees of 4,033 namespaces.

Usage: bench/depth.py PROGRAM
PROGRAM is the built program, which bin/hnc leaves as crates/hnc/out/hnc.
Prints the time per PUT at each depth, and their ratio. A tree is a root and columns of namespaces, each the parent of the next one. A PUT moves
a leaf below the last but one of another column, so that the depth stays. They come in shuffled order and in parts of 2,480, in turns in the
shallow and the deep tree. There are 32 turns. Everything runs on one processor.
"""
import os
import sys

from program import compare
from trees import Columns

DEPTHS = (8, 64)
NAMESPACES = 4_032


def main():
    program = sys.argv[1]
    os.sched_setaffinity(0, {max(os.sched_getaffinity(0))})
    trees = [Columns(program, NAMESPACES // depth, depth) for depth in DEPTHS]
    compare("PUT that moves a leaf", [f"depth {depth}" for depth in DEPTHS], trees, lambda tree: tree.moves(tree.depth))
    for tree in trees:
        tree.close()


if __name__ == "__main__":
    main()
