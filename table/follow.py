"""A follower of the feed of events, held against the lists of all kinds.

`follow(lines, words, folder, seed)` runs a script with reads between its lines at random places: the events since the version at the place before,
and the lists of all kinds. The follower puts what is added or modified and removes what is deleted, page by page. Where events are gone it starts over
by the lists. At each place it has exactly the objects that the lists have. Half of the scripts run in two pieces over a file, so that the second begins with an empty window.
"""
import json
import os
import random
import re
import subprocess

TOP = os.path.dirname(os.path.dirname(os.path.abspath(__file__)))
PROGRAM = f"{TOP}/crates/hnc/out/hnc"
HNC = "/apis/hnc.x-k8s.io/v1alpha2"
RBAC = "/apis/rbac.authorization.k8s.io/v1"
LISTS = [
    f"GET {path}"
    for path in (
        f"{HNC}/hncconfigurations", "/api/v1/namespaces", f"{HNC}/hierarchyconfigurations", f"{HNC}/subnamespaceanchors", f"{HNC}/hierarchicalresourcequotas",
        f"{RBAC}/roles", f"{RBAC}/rolebindings", "/api/v1/configmaps", "/api/v1/secrets", "/apis/networking.k8s.io/v1/networkpolicies",
        "/api/v1/limitranges", "/api/v1/pods", "/api/v1/services", "/api/v1/persistentvolumeclaims",
    )
]
GONE = re.compile(r"events up to version (\d+) are gone")


def place_of(item):
    metadata = item["metadata"]
    return item["kind"], metadata.get("namespace", ""), metadata["name"]


class Follower:
    """The objects that events leave, and the version that they are followed up to."""

    def __init__(self):
        self.objects, self.version, self.told, self.restarts = {}, 0, 0, 0

    def take(self, page):
        """Applies a page of events. Gives what is wrong with it."""
        before = self.version
        for event in page["items"]:
            item, place = event["object"], place_of(event["object"])
            version = int(item["metadata"]["resourceVersion"])
            if not max(before, self.version + 1) <= version <= int(page["metadata"]["resourceVersion"]):
                yield f"version {version} comes behind {before} in a page since {self.version}"
            if (place in self.objects) == (event["type"] == "ADDED"):
                yield f"{event['type']} of {place}, which was{'' if place in self.objects else ' not'} there"
            if event["type"] == "DELETED":
                self.objects.pop(place, None)
            else:
                self.objects[place] = item
            before = version
        self.version, self.told = int(page["metadata"]["resourceVersion"]), self.told + len(page["items"])

    def start_over(self, objects, version):
        self.objects, self.version, self.restarts = dict(objects), version, self.restarts + 1


# ---- runs of scripts with reads in between


def run(lines, words, file):
    given = b"".join(line + b"\n" for line in lines)
    ran = subprocess.run([PROGRAM, "run", *words, *(["--db", file] if file else [])], input=given, capture_output=True)
    return ran.stdout.decode(errors="replace").split("\n")


def woven(lines, first, blocks):
    """The lines with a block in front of each that has one. The read of a namespace that isn't there marks where its answers begin."""
    for at, line in enumerate([*lines, None], first):
        if at in blocks:
            yield from (each.encode() for each in (f"GET /api/v1/namespaces/mark-{at}-here", *blocks[at]))
        if line is not None:
            yield line


def answers_of(lines, words, pieces, blocks, file):
    """The answers of the block at each place, where the lines run in pieces, one behind the other."""
    found, first = {}, 0
    for piece in pieces:
        inside = {at: block for at, block in blocks.items() if first < at <= first + len(piece)}
        answers = run(list(woven(piece, first, inside)), words, file)
        marks = {re.search(r"mark-(\d+)-here", answer)[1]: at for at, answer in enumerate(answers) if "mark-" in answer and re.search(r"mark-\d+-here", answer)}
        for at, block in inside.items():
            found[at] = answers[marks[str(at)] + 1 :][: len(block)]
        first += len(piece)
    if file:
        for name in (file, f"{file}-wal"):
            if os.path.exists(name):
                os.remove(name)
    return found


def body_of(answer):
    code, _, text = answer.partition(" ")
    return int(code), json.loads(text)


def followed(places, answers, versions, left_out=None):
    """A follower that took the pages at these places, all but one, and what it finds wrong."""
    follower, findings = Follower(), []
    for at in places:
        (code, page), lists = body_of(answers[at][0]), [body_of(answer)[1] for answer in answers[at][1:]]
        objects = {place_of(item): item for its in lists for item in its["items"]}
        if code == 410:
            floor = int(GONE.fullmatch(page["message"])[1])
            findings += [f"at {at}: events since {follower.version} are gone up to {floor}"] * (floor <= follower.version)
            follower.start_over(objects, versions[at])
        elif code != 200:
            findings.append(f"at {at}: the feed answers {code}: {page.get('message')}")
        elif at == left_out:
            follower.version = int(page["metadata"]["resourceVersion"])
        else:
            findings += [f"at {at}: {finding}" for finding in follower.take(page)]
        if follower.objects != objects or follower.version != versions[at]:
            differ = [place for place in {**follower.objects, **objects} if follower.objects.get(place) != objects.get(place)]
            findings.append(f"at {at}: version {follower.version} for {versions[at]}, and {differ[:4]} are other objects")
    return follower, findings


def longest(places, answers):
    """The place of the page with the most events."""
    return max(places, key=lambda at: len(body_of(answers[at][0])[1].get("items", ())))


def follow(lines, words, folder, seed, count=12):
    """What a follower finds wrong of a script, how many events it was told, how often it started over, and whether it would miss the longest page."""
    chance = random.Random(seed)
    places = sorted({*chance.sample(range(1, len(lines) + 1), min(count, len(lines))), len(lines)})
    cut = chance.randrange(1, len(lines)) if seed % 2 and len(lines) > 1 else len(lines)
    pieces = [piece for piece in (lines[:cut], lines[cut:]) if piece]
    file = f"{folder}/{seed}.db" if len(pieces) > 1 else None
    probed = answers_of(lines, words, pieces, {at: [LISTS[0]] for at in places}, file)
    versions = {at: int(body_of(probed[at][0])[1]["metadata"]["resourceVersion"]) for at in places}
    sinces = dict(zip(places, [0, *versions.values()]))
    answers = answers_of(lines, words, pieces, {at: [f"GET /hnc/v1/events?since={sinces[at]}", *LISTS] for at in places}, file)
    follower, findings = followed(places, answers, versions)
    misses = bool(followed(places, answers, versions, left_out=longest(places, answers))[1])
    return findings, follower.told, follower.restarts, misses
