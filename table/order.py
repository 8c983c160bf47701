#!/usr/bin/env python3
"""Finds one order of all that sessions beside one another were answered.

Usage: table/order.py
It tries itself: histories that have an order, and such that have none. Prints a line for each that it misjudges, and ends with status 1 where there is one.

`differences(links, first)` holds the answers of several links against the states of one store. It looks at one kind of object in one namespace, which
nobody but these links writes. A link is a list of exchanges, in the order in which its client had the answers. What is written says where it stands: each
write has a version of its own, and gives it to what it stores. So the states of the store are known at all versions; and each answer that writes nothing
has to be the one of a state, no earlier than where the exchange before it on the same link stands. Others may have written at the versions between.
"""
import collections
import json
import sys

# A request, and what it was answered: GET, PUT, POST or DELETE, a name or None for the list of all, the version that a PUT expects or None, the value that is
# put, the status, and the object, list or refusal that came.
Exchange = collections.namedtuple("Exchange", "method name expects value status body")

# What a name has from a version on: the version of the object and its value, or None where it isn't there.
Held = collections.namedtuple("Held", "version value")


def version_of(body):
    return int(body["metadata"]["resourceVersion"])


def value_of(body):
    return body["data"]["value"]


class Store:
    """The objects at each version, as answered writes leave them."""

    def __init__(self, links, first):
        self.differences, self.writes, self.first = [], {}, first
        for at, link in enumerate(links):
            for exchange in link:
                if self.is_write(exchange):
                    self.note(at, exchange)
        self.at = collections.defaultdict(lambda: [(0, None)])
        for version, (_, exchange) in sorted(self.writes.items()):
            self.at[exchange.name].append((version, None if exchange.method == "DELETE" else Held(version, exchange.value)))
        self.last = max(self.writes, default=first)

    def is_write(self, exchange):
        """Whether an exchange wrote: a PUT that changes nothing is answered with an earlier version."""
        if exchange.status == 201 or exchange.status == 200 and exchange.method == "DELETE":
            return True
        return exchange.status == 200 and exchange.method == "PUT" and not exchange.body.get("unchanged")

    def note(self, at, exchange):
        version = version_of(exchange.body)
        if version in self.writes:
            other = self.writes[version][1]
            if exchange.method == "PUT" and other.method != "DELETE" and (other.name, other.value) == (exchange.name, exchange.value):
                exchange.body["unchanged"] = True
                return
            if other.method == "PUT" and exchange.method != "DELETE" and (other.name, other.value) == (exchange.name, exchange.value):
                other.body["unchanged"] = True
                self.writes[version] = at, exchange
                return
            self.differences.append(f"two writes have version {version}: {other.method} {other.name} and {exchange.method} {exchange.name}")
            return
        if version <= self.first:
            self.differences.append(f"{exchange.method} {exchange.name} has version {version}, and those from {self.first + 1} on are free")
        self.writes[version] = at, exchange

    def held(self, name, version):
        """What a name has at a version."""
        found = None
        for begin, held in self.at[name]:
            if begin > version:
                break
            found = held
        return found

    def spans(self, name, test):
        """The versions from which on, and below which, what a name has is so."""
        states = self.at[name]
        for (begin, held), (end, _) in zip(states, states[1:] + [(None, None)]):
            if test(held):
                yield begin, end

    def list_at(self, version):
        held = {name: self.held(name, version) for name in self.at}
        return sorted((name, its.version, its.value) for name, its in held.items() if its)


def expected_version(exchange):
    """The version that a refusal of a PUT tells."""
    return int(exchange.body["message"].rpartition(" ")[2])


def read_test(exchange):
    """What a name has where an exchange that writes nothing is answered so."""
    if exchange.status == 200:
        wanted = Held(version_of(exchange.body), value_of(exchange.body))
        return lambda held: held == wanted
    if exchange.status == 404:
        return lambda held: held is None
    if exchange.status == 409 and exchange.method == "POST":
        return lambda held: held is not None
    if exchange.status == 409:
        version = expected_version(exchange)
        return lambda held: held is not None and held.version == version != exchange.expects
    return lambda held: False


def write_fault(store, exchange, version):
    """Why no write can be answered so at its version, behind what the others wrote before."""
    before = store.held(exchange.name, version - 1)
    if exchange.method == "POST":
        return "it was there" if before else None
    if before is None:
        return "it wasn't there"
    if exchange.method == "PUT" and exchange.expects not in (None, before.version):
        return f"it had version {before.version}"
    if exchange.method == "PUT" and before.value == exchange.value:
        return "it changes nothing"
    return None


def point_of(store, exchange, since):
    """The first version, no less than one, at which an exchange may be answered so, or why there is none."""
    if store.is_write(exchange):
        version = version_of(exchange.body)
        if version <= since:
            return None, f"it has version {version}, and the link was at {since}"
        why = write_fault(store, exchange, version)
        return (None, why) if why else (version, None)
    if exchange.name is None:
        version = version_of(exchange.body)
        if version < since:
            return None, f"it has version {version}, and the link was at {since}"
        found = sorted((item["metadata"]["name"], version_of(item), value_of(item)) for item in exchange.body["items"])
        return (version, None) if found == store.list_at(version) else (None, f"version {version} has {store.list_at(version)!r:.200}")
    for begin, end in store.spans(exchange.name, read_test(exchange)):
        if end is None or end > since:
            return max(begin, since), None
    return None, f"no state from {since} on gives this answer"


def differences(links, first=0):
    """A line for each answer that has no place in one order of all, of a store that had this version and nothing of the kind."""
    store = Store(links, first)
    found = store.differences
    for number, link in enumerate(links):
        since = first
        for exchange in link:
            point, why = point_of(store, exchange, since)
            if why:
                found.append(f"link {number}: {exchange.method} {exchange.name or 'all'} is answered {exchange.status} {json.dumps(exchange.body):.160}: {why}")
                break
            since = point
    return found


# ---- its own trial


def put(name, version, value, method="POST", expects=None):
    return Exchange(method, name, expects, value, 201 if method == "POST" else 200, stored(name, version, value))


def stored(name, version, value):
    return {"metadata": {"name": name, "resourceVersion": str(version)}, "data": {"value": value}}


def cut(name, version):
    return Exchange("DELETE", name, None, None, 200, {"metadata": {"resourceVersion": str(version)}})


def got(name, version, value):
    return Exchange("GET", name, None, None, 200, stored(name, version, value))


def none(name):
    return Exchange("GET", name, None, None, 404, {"message": ""})


def listed(version, *items):
    return Exchange("GET", None, None, None, 200, {"metadata": {"resourceVersion": str(version)}, "items": [stored(*item) for item in items]})


def taken(name):
    return Exchange("POST", name, None, "", 409, {"message": ""})


def moved_on(name, expects, version):
    return Exchange("PUT", name, expects, "", 409, {"message": f'configmaps "{name}" has version {version}'})


# Links, and whether there is an order of their answers.
TRIALS = [
    ("nothing", [], True),
    ("two links that write in turn", [[put("a", 1, "x"), put("b", 3, "y")], [put("c", 2, "z"), got("a", 1, "x")]], True),
    ("a link that reads an old state before a new one", [[put("a", 1, "x"), put("a", 2, "y", "PUT")], [got("a", 1, "x"), got("a", 2, "y")]], True),
    ("a link that reads a new state before an old one", [[put("a", 1, "x"), put("a", 2, "y", "PUT")], [got("a", 2, "y"), got("a", 1, "x")]], False),
    ("a link that doesn't see what it wrote", [[put("a", 1, "x"), none("a")]], False),
    ("a link that doesn't see another's write yet", [[put("a", 1, "x")], [none("a"), got("a", 1, "x"), none("b")]], True),
    ("a state that is gone again", [[put("a", 1, "x"), cut("a", 2)], [got("a", 1, "x"), none("a")]], True),
    ("a state that comes back", [[put("a", 1, "x"), cut("a", 2)], [none("a"), got("a", 1, "x"), none("a"), got("a", 1, "x")]], False),
    ("two writes of one version", [[put("a", 1, "x")], [put("b", 1, "y")]], False),
    ("an object that is made twice", [[put("a", 1, "x")], [put("a", 2, "y")]], False),
    ("an object that is removed twice", [[put("a", 1, "x"), cut("a", 2)], [cut("a", 3)]], False),
    ("a replacement of what isn't there", [[put("a", 1, "x", "PUT")]], False),
    ("a value that nobody wrote", [[put("a", 1, "x")], [got("a", 1, "y")]], False),
    ("a list of its version", [[put("a", 1, "x"), put("b", 4, "y")], [listed(1, ("a", 1, "x")), listed(3, ("a", 1, "x")), listed(4, ("a", 1, "x"), ("b", 4, "y"))]], True),
    ("a list that lacks a write before it", [[put("a", 1, "x"), put("b", 4, "y")], [listed(4, ("a", 1, "x"))]], False),
    ("a list that goes back", [[put("a", 1, "x"), put("b", 4, "y")], [listed(4, ("a", 1, "x"), ("b", 4, "y")), listed(1, ("a", 1, "x"))]], False),
    ("two lists that see two writes in two orders", [[put("a", 1, "x")], [put("b", 2, "y")], [got("a", 1, "x"), none("b")], [got("b", 2, "y"), none("a")]], False),
    ("a replacement that expects its version", [[put("a", 1, "x")], [put("a", 2, "y", "PUT", 1)]], True),
    ("one that expects another", [[put("a", 1, "x")], [put("a", 2, "y", "PUT", None)], [put("a", 3, "z", "PUT", 1)]], False),
    ("one that is refused for a version that was there", [[put("a", 1, "x")], [put("a", 2, "y", "PUT", 1)], [moved_on("a", 1, 2)]], True),
    ("one that is refused for the version that it expects", [[put("a", 1, "x")], [moved_on("a", 1, 1)]], False),
    ("a name that is taken", [[put("a", 1, "x")], [none("a"), taken("a")]], True),
    ("a name that is taken where nobody has it", [[put("b", 1, "x")], [taken("a")]], False),
    ("a replacement that changes nothing", [[put("a", 1, "x")], [put("a", 1, "x", "PUT"), got("a", 1, "x")]], True),
    ("one that changes nothing of a state that is gone", [[put("a", 1, "x"), put("a", 2, "y", "PUT")], [got("a", 2, "y"), put("a", 1, "x", "PUT")]], False),
]


def main():
    wrong = [f"{what}: {'an order is there' if wanted else 'no order is there'}, and not {differences(links)}" for what, links, wanted in TRIALS if (not differences(links)) != wanted]
    print("\n".join(wrong) or f"order: {len(TRIALS)} histories, {sum(not wanted for _, _, wanted in TRIALS)} of them without an order")
    sys.exit(1 if wrong else 0)


if __name__ == "__main__":
    main()
