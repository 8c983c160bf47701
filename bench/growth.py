#!/usr/bin/env python3
"""Processor time per request of `hnc run` at 4,096 namespaces and 65,024 objects against a sixteenth of both.

Usage: bench/growth.py PROGRAM [BYTES..]
PROGRAM is the built program, which bin/hnc leaves as crates/hnc/out/hnc. BYTES are the lengths of the objects' values, 3, 33, 64 and 300
where none is given. The objects are of four kinds, four of each in a namespace.
Prints a line per kind of request and length: the time per request at each size, and their ratio; and at the end the greatest ratio of each
kind. The first POSTs are those of the second half of the objects. Then rounds of GETs, PUTs that change the object, lists of the objects of a
kind in one namespace, DELETEs, and POSTs of what was removed follow one another. All come in shuffled order and in parts of 1,016 requests, in
turns at the small and the large size: 32 with the first POSTs, and 64 with each other kind. Everything runs on one processor.
"""
import itertools
import os
import random
import sys

from program import CONFIG_MAP, Kind, Run, create, listing, namespace, numbered, parts, read, remove, replace, report

KINDS = (CONFIG_MAP, Kind("v1", "Secret", "secrets"), Kind("v1", "Service", "services"), Kind("rbac.authorization.k8s.io/v1", "Role", "roles"))
LENGTHS = (3, 33, 64, 300)
STEP = 16
PART = 1_016
SIZES = ((256, 4 * PART), (STEP * 256, STEP * 4 * PART))
NAMES = [f"{objects:,} objects" for _, objects in SIZES]
ROUNDS = 64


class Store(Run):
    """A run with half of so many objects, spread over so many namespaces, whose values have so many bytes."""

    def __init__(self, program, namespaces, objects, length):
        super().__init__(program)
        self.places = [(numbered(i % namespaces), f"c{i:05}", KINDS[i // namespaces % len(KINDS)]) for i in range(objects)]
        self.chance = random.Random(objects)
        self.length = length
        self.numbers = itertools.count()
        self.chance.shuffle(self.places)
        self.ask([namespace(numbered(i)) for i in range(namespaces)])
        self.ask(list(map(self.create, self.places[: objects // 2])))
        self.creates = parts(map(self.create, self.places[objects // 2 :]), PART)

    def data(self):
        """Data with a value that wasn't there before."""
        return {"on": str(next(self.numbers)).rjust(self.length, "x")[-self.length :]}

    def create(self, place):
        ns, name, kind = place
        return create(ns, name, self.data(), kind)

    def replace(self, place):
        ns, name, kind = place
        return replace(ns, name, self.data(), kind)

    def round(self):
        """The times of a part of each kind of request, on places that chance chooses."""
        places = self.chance.sample(self.places, PART)
        return {
            "GET": self.seconds([read(*place) for place in places]),
            "PUT": self.seconds(list(map(self.replace, places))),
            "list of a namespace": self.seconds([listing(ns, kind) for ns, _, kind in places]),
            "DELETE": self.seconds([remove(*place) for place in places]),
            "POST of what was removed": self.seconds(list(map(self.create, places))),
        }


def create_times(program, large, length):
    """The times of parts of the first POSTs, in stores of the small size and in the large one, and the last small store."""
    times, small = [], None
    for _ in range(STEP):
        if small:
            small.close()
        small = Store(program, *SIZES[0], length)
        times += [[store.seconds(next(store.creates)) for store in (small, large)] for _ in range(2)]
    return times, small


def measure(program, length):
    """The ratio of each kind of request at values of so many bytes."""
    large = Store(program, *SIZES[1], length)
    times, small = create_times(program, large, length)
    rounds = [[store.round() for store in (small, large)] for _ in range(ROUNDS)]
    for store in (small, large):
        store.close()
    times = {"POST": times, **{kind: [[one[kind], other[kind]] for one, other in rounds] for kind in rounds[0][0]}}
    return {kind: report(f"{kind}, values of {length} bytes", NAMES, columns, PART) for kind, columns in times.items()}


def main():
    program, *lengths = sys.argv[1:]
    os.sched_setaffinity(0, {max(os.sched_getaffinity(0))})
    ratios = [measure(program, length) for length in map(int, lengths or LENGTHS)]
    for kind in ratios[0]:
        print(f"{kind}: greatest ratio {max(each[kind] for each in ratios):.2f}")


if __name__ == "__main__":
    main()
