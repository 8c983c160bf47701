#!/usr/bin/env python3
"""What it takes to give the first of many keys, and how often a place is written.

Usage: bench/ranked.py crates/hnc/out/hnc
It takes some ten minutes, most of them for a million keys.
Keys are made to wait by workers that take them by their names and drop them. Prints a line for each:
- the instructions of a key that is dropped and taken again by its turn, where 100,000 keys of copies wait, and a million : where 1,000 do. They are counted by
  `valgrind --tool=callgrind`, as what each further pair of lines takes of a run in memory;
- a ladder of 64 namespaces with a Role of one name in each, those below the first admitted by skipping rules: how many places are written, and
  how often the one that is written most;
- the same settled by as many turns as the bound says, and how many it makes;
- the seconds of `gen 7 512` and `gen 7 2048`, the middle of five, and the greatest memory of the latter.
"""
import re
import resource
import statistics
import subprocess
import sys
import time
from collections import Counter

from feed import of_each, says
from program import namespace

FEW = 1_000
MANY = (100_000, 1_000_000)
TIMES = 512
CLUSTERS = (512, 2_048)
DEPTH = 64
ROLE = '{{"apiVersion":"rbac.authorization.k8s.io/v1","kind":"Role","metadata":{{"name":"r"}},"rules":[{{"apiGroups":[""],"resources":["pods"],"verbs":["v{}"]}}]}}'


def waiting(count):
    """Lines behind which so many keys wait."""
    for number in range(count):
        yield f"take 1 copy n{number * 7919 % count} roles x\n"
        yield "drop 1\n"


def ladder():
    for level in range(DEPTH):
        yield namespace(f"n{level}")
        if level:
            body = f'{{"apiVersion":"hnc.x-k8s.io/v1alpha2","kind":"HierarchyConfiguration","metadata":{{"name":"hierarchy"}},"spec":{{"parent":"n{level - 1}"}}}}'
            yield f"POST /apis/hnc.x-k8s.io/v1alpha2/namespaces/n{level}/hierarchyconfigurations {body}\n"
    for level in range(DEPTH):
        yield f"POST /apis/rbac.authorization.k8s.io/v1/namespaces/n{level}/roles?admission=skip {ROLE.format(level)}\n"


def answers(program, lines):
    ran = subprocess.run([program, "run", "--allow-skip"], input="".join(lines).encode(), stdout=subprocess.PIPE, check=True)
    return ran.stdout.decode().splitlines()


def bound(waiting):
    """As many turns as suffice in the ladder: nothing leaves or is asked for, and each namespace has a key for the one kind and name, and three more."""
    keys = DEPTH + 3 * DEPTH
    return (keys + 1) * (keys + waiting + 1)


def seconds(program, count):
    begun = time.perf_counter()
    subprocess.run([program, "gen", "7", str(count)], stdout=subprocess.DEVNULL, check=True)
    return time.perf_counter() - begun


def main(program):
    for count in CLUSTERS:
        print(f"gen 7 {count}: {statistics.median(seconds(program, count) for _ in range(5)):.2f} s", flush=True)
    print(f"the greatest memory of them: {resource.getrusage(resource.RUSAGE_CHILDREN).ru_maxrss / 1024:.0f} MB")
    turn = ["take 1\n", "drop 1\n"]
    few = of_each(program, list(waiting(FEW)), turn, TIMES)
    for many in MANY:
        says(f"a key dropped and taken, {many:,} waiting : {FEW:,}", of_each(program, list(waiting(many)), turn, TIMES), few)
    lines = list(ladder())
    count = int(re.fullmatch(r"check: waiting (\d+) held 0", answers(program, [*lines, "check\n"])[-1])[1])
    *said, end = answers(program, [*lines, f"settle {bound(count)}\n"])[len(lines) :]
    written = Counter(take for take, finish in zip(said[::2], said[1::2]) if finish.startswith("finish 0: written"))
    print(f"a ladder of {DEPTH}: {len(written)} places are written, each at most {max(written.values())} times; {end}")
    print(f"{len(said) // 2} turns, and at most {bound(count):,} by the bound, where {count} keys wait")


if __name__ == "__main__":
    main(*sys.argv[1:])
