"""The machine of reconcilers in plain Python, for namespaces, their parents, anchors, quotas of Pods, Roles and Pods; and scripts in which two workers take and finish at each place among a user's writes.

It is written from the words of docs/BEHAVIOUR.md. A user's requests on HierarchyConfigurations and Roles skip the rules that can be skipped; takes name
their keys. An object lies under its kind, its namespace and its name, with a value and a version: the value is its labels, its content (of a namespace
the parent that its annotation names, of a HierarchyConfiguration its parent and whether it lets deletion cascade, of a quota how many Pods it allows, of a
Role its verb), its exception as
`KEY=TEXT`, the namespace that a copy comes from, and its status (a namespace that is on its way out, what an anchor is told, the children and the
conditions that a HierarchyConfiguration tells, where there are any, or how many Pods a quota tells, and its limit). Lines are in the short form of turns.txt.
"""
import copy
from typing import NamedTuple, Optional

# in the order of their numbers
KINDS = ("namespace", "hierarchy", "anchor", "quota", "role", "pod")
# in the order of their turns, and in that of keys
RANKS = ("purge", "child", "tree", "copy", "report", "anchor", "used")
KEYS = ("copy", "tree", "report", "child", "anchor", "used", "purge")
DEPTH = ".tree.hnc.x-k8s.io/depth"
INCLUDED = "hnc.x-k8s.io/included-namespace"


class Value(NamedTuple):
    labels: frozenset = frozenset()
    content: Optional[str] = None
    rule: Optional[str] = None
    origin: Optional[str] = None
    status: object = None


ENDED = "Terminating"


def shown(kind, ns, name, labels, content, rule, origin, status):
    """An object without its version."""
    return (kind, ns, name), Value(frozenset(labels.items()), content, rule, origin, status)


class Hand(NamedTuple):
    key: str
    seen: int
    guards: list
    write: Optional[tuple]


class Machine:
    def __init__(self):
        self.objects, self.last, self.hands = {}, 0, {}

    # ---- the tree

    def home(self, ns):
        return self.value(("namespace", "", ns))

    def parent(self, ns):
        home, value = self.home(ns), self.value(("hierarchy", ns, "hierarchy"))
        return home and home.content or (value.content[0] if value and value.content[0] else None)

    def is_live(self, ns):
        return bool(self.home(ns)) and self.home(ns).status != ENDED

    def value(self, place):
        return self.objects[place][0] if place in self.objects else None

    def version(self, place):
        return self.objects[place][1] if place in self.objects else None

    def chain(self, ns):
        members = []
        while ("namespace", "", ns) in self.objects and ns not in members:
            members.append(ns)
            ns = self.parent(ns)
        return members

    def own_halt(self, ns):
        parent = self.parent(ns)
        return parent is not None and (ns in self.chain(parent) or not self.is_live(parent))

    def is_open(self, ns):
        return self.is_live(ns) and not any(map(self.own_halt, self.chain(ns)))

    def reach(self, ns):
        """A namespace, and those whose annotations lead to it."""
        members, more = set(), {ns}
        while more:
            members |= more
            more = {place[2] for place, (value, _) in self.objects.items() if place[0] == "namespace" and value.content in members} - members
        return members

    def cascades(self, ns):
        values = [self.value(("hierarchy", member, "hierarchy")) for member in self.chain(ns)]
        return any(value.content[1] for value in values if value)

    def least(self, ns):
        """The place of the first object that lies in a namespace, in the order of kinds and then of names; or of the namespace."""
        inner = [place for place in self.objects if place[1] == ns and place[0] != "namespace"]
        return min(inner, key=lambda place: (KINDS.index(place[0]), place[2]), default=("namespace", "", ns))

    # ---- what keys want

    def allows(self, rule, labels):
        if rule is None:
            return True
        key, text = rule.split("=", 1)
        plain, negated = text.lstrip("!"), text.startswith("!")
        return {"none": text == "false", "select": (plain in labels) != negated, "treeSelect": (plain + DEPTH in labels) != negated}[key]

    def wanted(self, key):
        """The place and the value that a key wants to be written, or nothing at the place; or that it wants no write."""
        what, ns, *rest = key.split(" ")
        if what == "purge":
            return (self.least(ns), None) if self.home(ns) and not self.is_live(ns) else None
        if what == "anchor":
            return self.wanted_status(ns, rest[0])
        if what == "report":
            return self.wanted_report(ns)
        if what == "used":
            return self.wanted_usage(ns, rest[0])
        if what not in ("copy", "tree", "child") or not self.is_open(ns):
            return None
        if what == "child":
            asked = ("anchor", ns, rest[0]) in self.objects and not self.home(rest[0])
            return (("namespace", "", rest[0]), Value(content=ns)) if asked else None
        home = ("namespace", "", ns)
        labels = dict(self.value(home).labels)
        if what == "tree":
            own = {name: value for name, value in labels.items() if not name.endswith(DEPTH)}
            tree = {f"{member}{DEPTH}": str(far) for far, member in enumerate(self.chain(ns))}
            value = self.value(home)._replace(labels=frozenset({**own, INCLUDED: "true", **tree}.items()))
            return None if value == self.value(home) else (home, value)
        place = ("role", ns, rest[1])
        there = self.value(place)
        for above in reversed(self.chain(ns)[1:]):
            top = self.value(("role", above, rest[1]))
            if top and not top.origin and self.allows(top.rule, labels):
                copy = Value(top.labels, top.content, None, above)
                return None if copy == there else (place, copy)
        return (place, None) if there and there.origin else None

    def wanted_status(self, ns, name):
        place, home = ("anchor", ns, name), self.home(name)
        there = self.value(place)
        if there is None or not self.is_live(ns):
            return None
        status = "Missing" if home is None else "Ok" if home.content == ns else "Conflict"
        return (place, there._replace(status=status)) if status != there.status else None

    def used(self, ns):
        """How many Pods lie in the subtree of a namespace."""
        return sum(place[0] == "pod" and ns in self.chain(place[1]) for place in self.objects)

    def wanted_usage(self, ns, name):
        there = self.value(("quota", ns, name))
        if there is None or not self.is_live(ns):
            return None
        status = str(self.used(ns)), there.content
        return (("quota", ns, name), there._replace(status=status)) if status != there.status else None

    def reason(self, ns):
        """Why a namespace is halted, or none."""
        parent = self.parent(ns)
        if parent is not None and ns in self.chain(parent):
            return "InCycle"
        if self.own_halt(ns):
            return "ParentMissing"
        return "AncestorHaltActivities" if any(map(self.own_halt, self.chain(ns))) else None

    def wanted_report(self, ns):
        place, home = ("hierarchy", ns, "hierarchy"), self.home(ns)
        if not self.is_live(ns):
            return None
        there = self.value(place)
        children = tuple(sorted(other[2] for other in self.objects if other[0] == "namespace" and self.parent(other[2]) == ns))
        misses = home.content and self.home(home.content) and ("anchor", home.content, ns) not in self.objects
        conditions = tuple(filter(None, (self.reason(ns), "SubnamespaceAnchorMissing" if misses else None)))
        status = (children, conditions) if children or conditions else None
        if there is None:
            return (place, Value(content=("", False), status=status)) if status else None
        return (place, there._replace(status=status)) if status != there.status else None

    def guards(self, key):
        what, ns, *rest = key.split(" ")
        name = rest[-1] if rest else ""
        inner = {
            "copy": [("role", ns, name)],
            "tree": [],
            "child": [("anchor", ns, name), ("namespace", "", name)],
            "anchor": [("anchor", ns, name)],
            "report": [("hierarchy", ns, "hierarchy")],
            "used": [("quota", ns, name)],
            "purge": [self.least(ns)],
        }
        return [(place, self.version(place)) for place in [*inner[what], ("namespace", "", ns)]]

    # ---- lines

    def write(self, *changes):
        self.last += 1
        for place, value in changes:
            if value is None:
                del self.objects[place]
            else:
                self.objects[place] = value, self.last

    def broken(self, method, place, skip):
        """The first rule that a request breaks."""
        kind, ns, name = place
        subject, there, home = name if kind == "namespace" else ns, self.value(place), self.home(name)
        if method != "DELETE" and self.home(subject) and not self.is_live(subject):
            return "N4"
        if method != "POST" and there.origin:
            return "O1"
        if kind == "anchor" and not skip:
            if method == "POST" and home and home.content != ns:
                return "A1"
            children = any(self.parent(other[2]) == name for other in self.objects if other[0] == "namespace")
            if method == "DELETE" and home and home.content == ns and children and not self.cascades(name):
                return "A3"
        if kind == "namespace" and method == "DELETE" and there.status != ENDED:
            if there.content and ("anchor", there.content, name) in self.objects:
                return "N1"
            if self.reach(name) != {name} and not self.cascades(name):
                return "N2"
        if kind == "pod" and not there and self.passes_limit(ns):
            return "Q1"
        return None

    def passes_limit(self, ns):
        """Whether one Pod more would pass a limit of a quota of a namespace, or of one above it."""
        quotas = [(place[1], value) for place, (value, _) in self.objects.items() if place[0] == "quota" and place[1] in self.chain(ns)]
        return any(self.used(home) + 1 > int(value.content) for home, value in quotas)

    def ending(self, ns):
        """What puts a namespace on its way out, and all that go with it."""
        return [(("namespace", "", member), self.home(member)._replace(status=ENDED)) for member in self.reach(ns) if self.is_live(member)]

    def changes(self, method, place, value, skip):
        """What a request changes that nothing refuses."""
        kind, ns, name = place
        there, home = self.value(place), self.home(name)
        if method == "DELETE" and kind == "namespace":
            return [] if there.status == ENDED else self.ending(name)
        if method == "DELETE":
            return [(place, None), *(self.ending(name) if kind == "anchor" and not skip and home and home.content == ns else [])]
        if there:
            value = value._replace(status=there.status, content=there.content if kind == "namespace" else value.content)
        return [(place, value)] if value != there else []

    def request(self, method, place, value, skip):
        """The code of a user's request."""
        there = self.value(place)
        if method == "POST" and place[1] and not self.home(place[1]):
            return "404"
        if method == "POST" and there:
            return "409"
        if method != "POST" and not there:
            return "404"
        rule = self.broken(method, place, skip)
        if rule:
            return f"403 {rule}"
        changes = self.changes(method, place, value, skip)
        if changes:
            self.write(*changes)
        return "201" if method == "POST" else "200"

    def take(self, worker, key):
        if worker in self.hands:
            return f"already {self.hands[worker].key}"
        for other, hand in self.hands.items():
            if hand.key == key:
                return f"held by {other}"
        self.hands[worker] = Hand(key, self.last, self.guards(key), self.wanted(key))
        return key

    def finish(self, worker):
        if worker not in self.hands:
            return "empty"
        hand = self.hands.pop(worker)
        if hand.write is None:
            return "nothing"
        there = self.value(hand.write[0])
        met = all(self.version(place) == version for place, version in hand.guards)
        overwrites = hand.write[0][0] == "role" and there and not there.origin
        if not met or overwrites and self.wanted(hand.key) != hand.write:
            return f"conflict seen {hand.seen} now {self.last}"
        self.write(hand.write)
        return f"written {self.last}"

    def drop(self, worker):
        return f"dropped {self.hands.pop(worker).key}" if worker in self.hands else "empty"

    def line(self, short):
        """The answer of a line in short."""
        word, *words = short.split(" ")
        if word in ("take", "finish", "drop"):
            worker = int(words[0])
            return self.take(worker, " ".join(words[1:])) if word == "take" else getattr(self, word)(worker)
        kind, at, *said = words
        place = {"namespace": ("namespace", "", at), "hierarchy": ("hierarchy", at, "hierarchy")}.get(kind) or (kind, *at.split("/"))
        told = dict(each.split("=", 1) for each in said)
        labels = frozenset((key[6:], text) for key, text in told.items() if key.startswith("label:"))
        content = {"hierarchy": (told.get("parent", ""), "cascade" in told), "quota": told.get("pods"), "role": told.get("verb")}.get(kind)
        rule = next((f"{key}={told[key]}" for key in ("none", "select", "treeSelect") if key in told), None)
        return self.request(word.rstrip("!"), place, None if word.startswith("DELETE") else Value(labels, content, rule), word.endswith("!"))

    # ---- settling

    def values(self):
        return frozenset((place, value) for place, (value, _) in self.objects.items())

    def keys(self):
        """The keys that there are."""
        names = {place[2] for place in self.objects if place[0] in ("namespace", "anchor")}
        roles = {place[2] for place in self.objects if place[0] == "role"}
        anchors = [place[1:] for place in self.objects if place[0] == "anchor"]
        keys = [f"{what} {ns}" for ns in names for what in ("tree", "report", "purge")] + [f"copy {ns} roles {role}" for ns in names for role in roles]
        keys += [f"{what} {ns} {name}" for ns, name in anchors for what in ("child", "anchor")]
        return keys + [f"used {ns} {name}" for kind, ns, name in self.objects if kind == "quota"]

    def turn(self, key):
        """Where a key comes among those that wait: by rank, of copies by how deep the namespace lies, and then by the order of keys."""
        what, ns, *rest = key.split(" ")
        return RANKS.index(what), max(len(self.chain(ns)) - 1, 0) if what == "copy" else 0, KEYS.index(what), ns, rest

    def bound(self, waiting):
        """As many turns as suffice, where so many keys wait and no worker holds one."""
        leaving = sum(self.home(ns or name) is not None and not self.is_live(ns or name) for _, ns, name in self.objects)
        left, all_keys = leaving + sum(place[0] == "anchor" for place in self.objects), len(self.keys())
        return (left + all_keys + 1) * (all_keys + waiting + 1)

    def misled(self, turns):
        """What is wrong with turns that settle, each a key and its end: one that isn't the first of the keys that want a write, or that ends otherwise."""
        for key, end in turns:
            first = min(filter(self.wanted, self.keys()), key=self.turn, default=key)
            if self.turn(first) < self.turn(key):
                return f"takes {key} before {first}"
            self.take(0, key)
            found = self.finish(0)
            if found != end:
                return f"finishes {key} with {end}, and not {found}"
        return None

    def settled(self):
        """The objects, without their versions, in which it may settle: keys may be taken in any order."""
        keys = self.keys()
        todo, seen, ends = [self.objects], set(), set()
        while todo:
            self.objects = todo.pop()
            if self.values() in seen:
                continue
            seen.add(self.values())
            writes = [write for write in map(self.wanted, keys) if write]
            if not writes:
                ends.add(self.values())
            for place, value in writes:
                rest = {other: its for other, its in self.objects.items() if other != place}
                todo.append({**rest, place: (value, 0)} if value else rest)
        return ends


# ---- scripts

TREE = ["POST! namespace a", "POST! namespace b", "POST! hierarchy b parent=a"]
SOURCE = ["POST! role a/r verb=get"]
LABELLED = ["take 1 tree a", "finish 1", "take 1 tree b", "finish 1"]
COPIED = ["take 1 copy b roles r", "finish 1"]
ASKED = ["POST! namespace a", "POST anchor a/b"]
COUNTED = [*TREE, "POST! quota a/q pods=2", "POST! pod b/x"]
SUBNAMESPACE = [*ASKED, "take 1 child a b", "finish 1", "take 1 anchor a b", "finish 1"]

# Of each story: its title, what stands before, the keys of the two workers, how the second one ends, and the user's writes.
STORIES = [
    ("a source changes", [*TREE, *SOURCE], ("copy b roles r", "tree b"), "finish", ["PUT! role a/r verb=list", "PUT! namespace b label:tier=x", "DELETE! role a/r"]),
    ("a copy's source changes", [*TREE, *SOURCE, *LABELLED, *COPIED], ("copy b roles r", "copy b roles r"), "finish", ["PUT! role a/r verb=list", "DELETE! role b/r", "DELETE! role a/r"]),
    ("a source of its own comes", [*TREE, *SOURCE], ("copy b roles r", "tree b"), "finish", ["POST! role b/r verb=own", "DELETE! role a/r", "PUT! role b/r verb=new"]),
    ("a source of its own goes", [*TREE, *SOURCE, "POST! role b/r verb=own"], ("copy b roles r", "copy b roles r"), "finish", ["DELETE! role a/r", "DELETE! role b/r", "POST! role a/r verb=list"]),
    ("a namespace moves", [*TREE, *SOURCE, *LABELLED, "POST! namespace c", "POST! role c/r verb=list"], ("copy b roles r", "tree b"), "finish", ["PUT! hierarchy b parent=c", "PUT! role c/r verb=watch", "PUT! hierarchy b"]),
    ("a namespace comes below", ["POST! namespace a", "POST! namespace b", *SOURCE, "POST! role b/r verb=own"], ("copy b roles r", "tree b"), "finish", ["POST! hierarchy b parent=a", "PUT! role b/r verb=new", "DELETE! hierarchy b"]),
    ("a plan is dropped", [*TREE, *SOURCE, *LABELLED], ("copy b roles r", "copy b roles r"), "drop", ["PUT! role a/r verb=list", "POST! role b/r verb=own", "DELETE! role a/r"]),
    ("labels select", [*TREE, "POST! role a/r verb=get select=tier"], ("copy b roles r", "tree b"), "finish", ["PUT! namespace b label:tier=x", "PUT! role a/r verb=get select=!tier", "PUT! namespace b"]),
    ("the tree selects", [*TREE, "POST! role a/r verb=get treeSelect=b", *LABELLED], ("copy b roles r", "tree b"), "finish", ["PUT! namespace b label:tier=x", "PUT! role a/r verb=get treeSelect=!a", "PUT! role a/r verb=get"]),
    ("an exception comes", [*TREE, *SOURCE, *LABELLED, *COPIED], ("copy b roles r", "tree b"), "finish", ["PUT! role a/r verb=get none=true", "PUT! namespace b", "PUT! role a/r verb=list none=false"]),
    ("a cycle comes and goes", [*TREE, *SOURCE, *LABELLED], ("copy b roles r", "tree a"), "finish", ["POST! hierarchy a parent=b", "PUT! role a/r verb=list", "DELETE! hierarchy a"]),
    ("a subnamespace is asked for", ASKED, ("child a b", "anchor a b"), "finish", ["DELETE! anchor a/b", "POST! namespace b", "POST anchor a/b"]),
    ("an anchor takes its subnamespace along", [*SUBNAMESPACE, *SOURCE], ("copy b roles r", "anchor a b"), "finish", ["DELETE anchor a/b", "PUT! role a/r verb=list", "POST anchor a/b"]),
    ("an anchor goes alone", [*SUBNAMESPACE, *SOURCE], ("copy b roles r", "child a b"), "finish", ["DELETE! anchor a/b", "DELETE namespace b", "POST anchor a/b"]),
    ("a subnamespace has a child", [*SUBNAMESPACE, "POST! namespace c", "POST! hierarchy c parent=b"], ("tree c", "anchor a b"), "finish", ["DELETE anchor a/b", "POST! hierarchy a cascade=true", "DELETE anchor a/b"]),
    ("a namespace begins to leave", [*TREE, *SOURCE], ("copy b roles r", "purge b"), "finish", ["DELETE namespace b", "POST! role b/s verb=own", "PUT! role a/r verb=list"]),
    ("a namespace is emptied", [*TREE, "POST! role b/r verb=own", "POST! role b/s verb=own", "DELETE namespace b"], ("purge b", "tree b"), "finish", ["DELETE! hierarchy b", "DELETE! role b/r", "DELETE namespace b"]),
    ("the last object goes", [*TREE, "DELETE namespace b", "take 1 purge b", "finish 1"], ("purge b", "purge b"), "finish", ["DELETE namespace b", "POST! namespace b", "POST! role b/r verb=get"]),
    ("the parent leaves", [*TREE, *SOURCE, *LABELLED], ("copy b roles r", "purge a"), "finish", ["DELETE namespace a", "PUT! hierarchy b", "POST! role b/s verb=own"]),
    ("the parent comes back", [*TREE, *SOURCE, *LABELLED, *COPIED, "DELETE namespace a", "take 1 purge a", "finish 1", "take 1 purge a", "finish 1"], ("copy b roles r", "tree b"), "finish", ["POST! namespace a", "POST! role a/r verb=list", "DELETE namespace a"]),
    ("a subnamespace leaves and is asked for again", [*SUBNAMESPACE, "DELETE anchor a/b"], ("purge b", "child a b"), "finish", ["POST anchor a/b", "POST! role a/r verb=get", "DELETE namespace b"]),
    ("a child comes, and moves", ["POST! namespace a", "POST! namespace b", "POST! namespace c"], ("report a", "report b"), "finish", ["POST! hierarchy b parent=a", "PUT! hierarchy b parent=c", "DELETE! hierarchy b"]),
    ("what is told goes with what is given", [*TREE, "take 1 report a", "finish 1"], ("report a", "tree b"), "finish", ["PUT! hierarchy a cascade=true", "DELETE! hierarchy a", "DELETE! hierarchy b"]),
    ("a cycle is told", [*TREE, "POST! namespace c", "POST! hierarchy c parent=b"], ("report b", "report c"), "finish", ["POST! hierarchy a parent=b", "PUT! hierarchy c parent=a", "DELETE! hierarchy a"]),
    ("a parent that leaves is told", [*TREE, "POST! namespace c", "POST! hierarchy c parent=b"], ("report b", "report c"), "finish", ["DELETE namespace a", "PUT! namespace c label:tier=x", "DELETE! hierarchy b"]),
    ("a missing anchor is told", SUBNAMESPACE, ("report b", "report a"), "finish", ["DELETE! anchor a/b", "POST anchor a/b", "DELETE namespace a"]),
    ("a parent that goes is told", [*TREE, "DELETE namespace a"], ("report b", "purge a"), "finish", ["POST! role b/r verb=get", "PUT! hierarchy b", "POST! namespace a"]),
    ("what tells of its children leaves", [*TREE, "POST! namespace c", "POST! hierarchy c parent=b", "DELETE namespace b"], ("report b", "purge b"), "finish", ["DELETE! hierarchy c", "DELETE! hierarchy b", "PUT! hierarchy b cascade=true"]),
    ("an anchor leaves with its namespace", [*TREE, "POST anchor b/c"], ("anchor b c", "purge b"), "finish", ["DELETE namespace b", "POST! namespace c", "DELETE anchor b/c"]),
    ("what is used changes", COUNTED, ("used a q", "used a q"), "finish", ["POST! pod b/y", "DELETE! pod b/x", "PUT! quota a/q pods=1"]),
    ("what is used is passed", [*COUNTED, "POST! quota b/q pods=1"], ("used a q", "used b q"), "drop", ["POST! pod b/y", "POST! pod a/y", "POST! pod a/z"]),
    ("what is used moves", COUNTED, ("used a q", "report a"), "finish", ["DELETE! hierarchy b", "POST! pod b/y", "POST! hierarchy b parent=a"]),
    ("what is used leaves", [*COUNTED, "POST! quota b/q pods=1"], ("used b q", "purge b"), "finish", ["DELETE namespace b", "PUT! quota b/q pods=9", "DELETE! pod b/x"]),
    ("what is used comes below", ["POST! namespace a", "POST! quota a/q pods=0", "POST! namespace c", "POST! hierarchy c parent=b", "POST! pod c/x"], ("used a q", "report c"), "finish", ["POST anchor a/b", "POST! namespace b", "POST! hierarchy b parent=a"]),
    ("the parent goes missing", [*TREE, *SOURCE], ("copy b roles r", "tree b"), "finish", ["PUT! hierarchy b parent=gone", "POST! namespace gone", "PUT! role a/r verb=list"]),
]


def interleavings(*sequences):
    """Each way in which sequences come one among the other."""
    if not any(sequences):
        yield []
    for at, sequence in enumerate(sequences):
        if sequence:
            for rest in interleavings(*sequences[:at], sequence[1:], *sequences[at + 1 :]):
                yield [sequence[0], *rest]


def scripts():
    """Each script: its title, its lines with their answers, the machine as they leave it, and the states in which it may settle."""
    for title, before, keys, end, writes in STORIES:
        turns = [[f"take {worker} {key}", f"{end} {worker}"] for worker, (key, end) in enumerate(zip(keys, ("finish", end)), 1)]
        for number, lines in enumerate(interleavings(*turns, writes)):
            machine = Machine()
            rows = [(line, machine.line(line)) for line in [*before, *lines]]
            yield f"{title}, {number}", rows, copy.deepcopy(machine), machine.settled()
