#!/usr/bin/env python3
"""What one request can cost others: the dearest requests that a tenant may make of `hnc run`, each at a size and at a larger one.

Usage: bench/hostile.py PROGRAM [--instructions] [NAME..]
PROGRAM is the built program, which bin/hnc leaves as crates/hnc/out/hnc. With NAME.. only cases with one of these words in their names are run.
Each case fills a store of its own at two sizes, and then makes its request, which counts alone, and has to be answered as the case says. Prints the cases from the dearest on: the
processor's time at both sizes and the ratio, beside the ratio of the sizes, and the bytes that were answered. A list with a selector and one
without stand side by side. What takes more than 100 ms, and doesn't answer or write as much, is marked with a star.
With --instructions the cases run under `valgrind --tool=callgrind`, at a sixteenth of both sizes, and instructions are printed in place of times.
Everything runs on one processor.
"""
import os
import re
import string
import subprocess
import sys
import tempfile
from typing import NamedTuple

from conflicts import ROLE, make
from deletion import ANCHOR
from program import CONFIG_MAP, Kind, Run, SUCCESS, compact, create, listing, namespace, numbered
from quotas import POD, QUOTA, pod
from trees import HIERARCHY, move, plant

CONFIG = Kind("hnc.x-k8s.io/v1alpha2", "HNCConfiguration", "hncconfigurations")
TURN = (b"take ", b"finish ")
REFUSED = (b"4",)


class Case(NamedTuple):
    """Lines that fill a store, the request that counts, and how the store grows between the two sizes."""

    name: str
    sizes: tuple
    fill: object
    request: object
    written: int = 0
    answers: tuple = SUCCESS


def labelled(ns, name, count):
    return f"POST {CONFIG_MAP.path(ns)} {CONFIG_MAP.body(name, metadata={'name': name, 'labels': {f'k{i:03}': '' for i in range(count)}})}\n"


def objects_with_labels(count, labels=250):
    return [namespace("n"), *(labelled("n", f"c{i:05}", labels) for i in range(count))]


DIGITS = string.digits + string.ascii_lowercase


def short(number):
    """A number in as few letters as a label's key may have."""
    return (short(number // 36) if number >= 36 else "") + DIGITS[number % 36]


def selecting(count):
    """A list whose selector has so many requirements, all of which hold."""
    return f"GET {CONFIG_MAP.path('n')}?labelSelector={','.join(f'!{short(i)}' for i in range(count))}\n"


def columns(namespaces, depth=8):
    """A root, and columns of namespaces below it, each the parent of the next one."""
    names = [numbered(i) for i in range(namespaces)]
    yield from map(namespace, names)
    for i in range(1, namespaces):
        yield plant(names[i], names[i - 1 if i % depth != 1 else 0])


def chained(namespaces, query=""):
    """Namespaces of which each is the parent of the one before it."""
    names = [numbered(i) for i in range(namespaces)]
    yield from map(namespace, names)
    for i in reversed(range(namespaces - 1)):
        yield plant(names[i], names[i + 1], query)


def ring(namespaces):
    """A ring with a quota, a Pod in each of its namespaces, and one namespace that hangs below it."""
    yield from chained(namespaces, "?admission=skip")
    yield plant(numbered(namespaces - 1), numbered(0), "?admission=skip")
    yield namespace("below")
    yield plant("below", numbered(0), "?admission=skip")
    yield f"POST {QUOTA.path(numbered(0))} {QUOTA.body('limits', spec={'hard': {'pods': '1M'}})}\n"
    yield from (pod(numbered(i), "p") for i in range(namespaces))


def excepting(ns, exception, text, name="r", verb="get"):
    metadata = {"name": name, "annotations": {f"propagate.hnc.x-k8s.io/{exception}": text}}
    return f"{ROLE.path(ns)}/{name} {ROLE.body(name, metadata=metadata, rules=[{'apiGroups': [''], 'resources': ['pods'], 'verbs': [verb]}])}\n"


def beside_roles(namespaces):
    """A root above namespaces, of which each has a Role of one name."""
    names = [numbered(i) for i in range(namespaces)]
    yield from map(namespace, names)
    yield from (plant(name, names[0]) for name in names[1:])
    yield from (make(name, "r") for name in names[1:])
    metadata = {"name": "r", "annotations": {"propagate.hnc.x-k8s.io/none": "true"}}
    yield f"POST {ROLE.path(names[0])} {ROLE.body('r', metadata=metadata)}\n"


def tree_select(count):
    return "PUT " + excepting(numbered(0), "treeSelect", ",".join(f"!m{i}" for i in range(count)) + "," + ",".join(f"!{numbered(i)}" for i in range(1, 4_097)))


def select(count):
    return "PUT " + excepting(numbered(0), "select", ",".join(f"!k{i}" for i in range(count)) + ",no")


def many_quotas(count):
    yield namespace("n")
    yield from (f"POST {QUOTA.path('n')} {QUOTA.body(f'q{i}', spec={'hard': {'pods': '1M', 'requests.cpu': '1M', 'requests.memory': '1Pi'}})}\n" for i in range(count))


def many_limits(count):
    yield namespace("n")
    names = ["pods", "requests.cpu", "requests.memory", "limits.cpu", "limits.memory", "count/pods"]
    yield from (f"POST {QUOTA.path('n')} {QUOTA.body(f'q{i}', spec={'hard': {name: '1P' for name in names}})}\n" for i in range(count))


def large_pod(containers):
    its = {"containers": [{"resources": {"requests": {"cpu": "1", "memory": "1"}, "limits": {"cpu": "1", "memory": "1"}}} for _ in range(containers)]}
    return f"POST {POD.path('n')} {POD.body('p', spec=its)}\n"


def config_maps(namespaces, each):
    yield from columns(namespaces)
    yield from (create(numbered(i), f"c{i:04}-{at:02}", {}) for i in range(namespaces) for at in range(each))


def configured(mode, verb="POST"):
    path = f"/apis/{CONFIG.version}/{CONFIG.plural}" + ("/config" if verb == "PUT" else "")
    entries = [{"group": "", "resource": "configmaps", "mode": mode}]
    return f"{verb} {path} {CONFIG.body('config', spec={'resources': entries})}\n"


def orphans(count):
    """Namespaces that name a parent which isn't there."""
    yield namespace("lost")
    for i in range(count):
        yield namespace(numbered(i))
        yield plant(numbered(i), "lost")
    yield "DELETE /api/v1/namespaces/lost\n"
    yield "settle 1000000000\n"


def subnamespaces(count):
    yield namespace("n")
    yield f"POST {HIERARCHY.path('n')} {HIERARCHY.body('hierarchy', spec={'allowCascadingDeletion': True})}\n"
    yield from (f"POST {ANCHOR.path('n')} {ANCHOR.body(numbered(i))}\n" for i in range(count))
    yield "settle 1000000000\n"


def with_roles(namespaces, roles):
    """A root with Roles beside a tree of as many namespaces, that is moved below it."""
    yield namespace("top")
    yield from (make("top", f"r{i}") for i in range(roles))
    yield from columns(namespaces)


def nested(depth):
    return f"POST {CONFIG_MAP.path('n')} " + '{"apiVersion":"v1","kind":"ConfigMap","metadata":{"name":"c"},"x":' + "[" * depth + "]" * depth + "}\n"


def wide(count):
    """A body of as many members as fit."""
    members = {f"{i:x}": 0 for i in range(count)}
    return f"POST {CONFIG_MAP.path('n')} {compact({'apiVersion': 'v1', 'kind': 'ConfigMap', 'metadata': {'name': 'c'}, **members})}\n"


def backwards(count):
    """Labels in falling order of their keys."""
    labels = {f"k{i:05}": "" for i in reversed(range(count))}
    return f"POST {CONFIG_MAP.path('n')} {CONFIG_MAP.body('c', metadata={'name': 'c', 'labels': labels})}\n"


ONE = [namespace("n")]
CASES = [
    Case("list of objects with 250 labels, no selector", (4_000, 64_000), objects_with_labels, lambda n: listing("n")),
    Case("list by a selector of 25,000 requirements", (4_000, 64_000), objects_with_labels, lambda n: selecting(25_000)),
    Case("the same objects, by requirements", (1_600, 25_000), lambda n: objects_with_labels(4_000), selecting),
    Case("PUT of a Role's treeSelect of 7,000 names above Roles of its name", (150, 2_400), beside_roles, lambda n: tree_select(4_000)),
    Case("PUT of a Role's select of 7,000 requirements above them", (150, 2_400), beside_roles, lambda n: select(7_000)),
    Case("PUT that opens a ring with a quota", (250, 4_000), ring, lambda n: move(numbered(0), "").replace("/hierarchy ", "/hierarchy?admission=skip ")),
    Case("settle of one turn below a ring", (250, 4_000), ring, lambda n: f"take 1 used {numbered(0)} limits\nfinish 1\n", answers=TURN),
    Case("POST of a Pod under quotas in one namespace", (256, 4_096), many_quotas, lambda n: pod("n", "p")),
    Case("POST of a Pod of containers under 64 quotas", (40, 640), lambda n: many_limits(64), large_pod),
    Case("PUT of a mode, with sources of the kind in all namespaces", (256, 4_064), lambda n: [*config_maps(n, 15), configured("Ignore")], lambda n: configured("Propagate", "PUT")),
    Case("POST of a namespace that others name as their parent", (250, 4_000), orphans, lambda n: namespace("lost")),
    Case("DELETE of an anchorless root of subnamespaces", (250, 4_000), subnamespaces, lambda n: "DELETE /api/v1/namespaces/n?admission=skip\n", 4_000),
    Case("PUT that moves a tree below a root with 16 Roles", (250, 4_000), lambda n: with_roles(n, 16), lambda n: plant(numbered(0), "top")),
    Case("POST of a Role in the root of a tree", (250, 4_000), columns, lambda n: make(numbered(0), "r")),
    Case("DELETE of the root of a tree of full namespaces", (250, 4_000), columns, lambda n: f"DELETE /api/v1/namespaces/{numbered(0)}\n"),
    Case("GET of all namespaces", (256, 4_096), lambda n: map(namespace, map(numbered, range(n))), lambda n: "GET /api/v1/namespaces\n"),
    Case("POST of nested lists", (8, 120), lambda n: ONE, nested),
    Case("POST of many members", (400, 6_400), lambda n: ONE, wide),
    Case("POST of labels in falling order", (16, 256), lambda n: ONE, backwards),
    Case("POST that isn't JSON, of the longest line", (8_000, 128_000), lambda n: ONE, lambda n: f"POST {CONFIG_MAP.path('n')} " + '"' + "\\u0041" * (n // 6) + "\n", answers=REFUSED),
    Case("GET of a target of escapes", (8_000, 128_000), lambda n: ONE, lambda n: "GET /api/v1/namespaces/" + "%41" * (n // 3) + "\n", answers=REFUSED),
    Case("GET with a query of many parts", (8_000, 128_000), lambda n: ONE, lambda n: f"GET {CONFIG_MAP.path('n')}?" + "a&" * (n // 2) + "\n"),
]


def fill(run, lines):
    """Sends the lines; those that order a settle are waited for."""
    waiting = []
    for line in lines:
        if line.startswith("settle"):
            run.ask(waiting)
            waiting = []
            run.settle()
        else:
            waiting.append(line)
    run.ask(waiting)


def measured(program, case, size):
    """The processor's time of the request, and the bytes that it was answered."""
    run = Run(program, "--allow-skip")
    fill(run, case.fill(size))
    lines = case.request(size).splitlines(keepends=True)
    before = run.used()
    answers = run.ask(lines, case.answers)
    seconds = run.used() - before
    run.close()
    return seconds, sum(map(len, answers))


def counted(program, case, size):
    """The instructions of the request: those of a run with it, less those of one without."""
    size = max(1, size // 16)
    filled = "".join(case.fill(size)).encode()
    return instructions(program, filled + case.request(size).encode()) - instructions(program, filled), 0


def instructions(program, script):
    with tempfile.NamedTemporaryFile() as out:
        words = ["valgrind", "--tool=callgrind", f"--callgrind-out-file={out.name}", program, "run", "--allow-skip"]
        said = subprocess.run(words, input=script, stdout=subprocess.DEVNULL, stderr=subprocess.PIPE, check=True).stderr
    return int(re.search(rb"Collected : (\d+)", said)[1])


def main():
    program, *words = sys.argv[1:]
    counts = "--instructions" in words
    words = [word for word in words if not word.startswith("--")]
    os.sched_setaffinity(0, {max(os.sched_getaffinity(0))})
    rows = []
    for case in CASES:
        if words and not any(word in case.name for word in words):
            continue
        (small, _), (large, bytes_out) = ((counted if counts else measured)(program, case, size) for size in case.sizes)
        rows.append((large, small, bytes_out, case))
        print(f"# {case.name}", file=sys.stderr, flush=True)
    for large, small, bytes_out, case in sorted(rows, key=lambda row: -row[0]):
        grown = case.sizes[1] / case.sizes[0]
        if counts:
            print(f"{large:,} instructions at {case.sizes[1] // 16:,}, {small:,} at {case.sizes[0] // 16:,}: {large / max(1, small):.1f} of {grown:.1f}: {case.name}")
        else:
            star = "* " if large > 0.1 and bytes_out < 1_000_000 and not case.written else "  "
            print(f"{star}{large * 1e3:9.2f} ms at {case.sizes[1]:,}, {small * 1e3:.2f} ms at {case.sizes[0]:,}: {large / max(1e-9, small):.1f} of {grown:.1f}; {bytes_out:,} bytes: {case.name}")


if __name__ == "__main__":
    main()
