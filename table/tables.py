"""The tables of stored objects in plain Python, and the objects of a store that is written in short.

It is written from the words of docs/BEHAVIOUR.md. Objects are what their JSON says, under their kind, namespace and name; nothing is kept beside them.
"""
import re

from script import text

# In the order of their numbers, which begin the keys of rows: the kind, the group and version, and whether it lies in no namespace.
KINDS = {
    "namespace": ("01", "Namespace", "v1"),
    "config": ("02", "HNCConfiguration", "hnc.x-k8s.io/v1alpha2"),
    "hierarchy": ("03", "HierarchyConfiguration", "hnc.x-k8s.io/v1alpha2"),
    "anchor": ("04", "SubnamespaceAnchor", "hnc.x-k8s.io/v1alpha2"),
    "quota": ("05", "HierarchicalResourceQuota", "hnc.x-k8s.io/v1alpha2"),
    "role": ("06", "Role", "rbac.authorization.k8s.io/v1"),
    "configmap": ("08", "ConfigMap", "v1"),
    "pod": ("12", "Pod", "v1"),
}
COPIED = {"role": "roles", "configmap": "configmaps"}
COUNTED = {"role": ["count/roles.rbac.authorization.k8s.io"], "configmap": ["count/configmaps", "configmaps"]}
OWNER = "hnc.x-k8s.io/subnamespace-of"
ORIGIN = "hnc.x-k8s.io/inherited-from"
INCLUDED = "hnc.x-k8s.io/included-namespace"
DEPTH = ".tree.hnc.x-k8s.io/depth"
HALTED = {
    "InCycle": "the namespace is its own ancestor",
    "ParentMissing": "the parent does not exist",
    "IllegalParent": "the parent is excluded",
    "AncestorHaltActivities": "an ancestor is halted",
}
MISSING = {"message": "the parent has no anchor of this name", "reason": "SubnamespaceAnchorMissing", "status": "True", "type": "BadConfiguration"}


def condition(reason):
    return {"message": HALTED[reason], "reason": reason, "status": "True", "type": "ActivitiesHalted"} if reason in HALTED else MISSING


def names(value):
    return value.split(",") if value else []


def amount(quantity):
    """A quantity in thousandths."""
    return int(quantity[:-1]) if quantity.endswith("m") else int(quantity) * 1000


def printed(thousandths):
    return f"{thousandths}m" if thousandths % 1000 else str(thousandths // 1000)


def body_of(kind, words):
    """What words of a short form give an object: its metadata, and its other members."""
    metadata, said = {}, {"namespace": {"status": {"phase": "Active"}}, "hierarchy": {"spec": {}}, "quota": {"spec": {"hard": {}}}, "config": {"spec": {"resources": []}}}.get(kind, {})
    for word in words:
        key, _, value = word.partition("=")
        if key.startswith("label:"):
            metadata.setdefault("labels", {})[key[6:]] = value
        elif key == "tree":
            labels = metadata.setdefault("labels", {})
            labels.update({f"{name}{DEPTH}": str(far) for far, name in enumerate(names(value))})
            labels[INCLUDED] = "true"
        elif key == "from":
            metadata.setdefault("labels", {})[ORIGIN] = value
        elif key == "owner":
            metadata.setdefault("annotations", {})[OWNER] = value
        elif key in ("select", "treeSelect", "none"):
            metadata.setdefault("annotations", {})[f"propagate.hnc.x-k8s.io/{key}"] = value
        elif key == "leaving":
            said["status"] = {"phase": "Terminating"}
        elif key == "parent":
            said["spec"]["parent"] = value
        elif key == "children":
            said.setdefault("status", {})["children"] = names(value)
        elif key == "conditions":
            said.setdefault("status", {})["conditions"] = [condition(reason) for reason in names(value)]
        elif key == "status":
            said["status"] = {"status": value}
        elif key == "hard":
            said["spec"]["hard"] = dict(each.split(":") for each in names(value))
        elif key == "used":
            used = dict(each.split(":") for each in names(value))
            said["status"] = {"hard": said["spec"]["hard"], "used": used}
        elif key == "cpu":
            said["spec"] = {"containers": [{"resources": {"requests": {"cpu": each}}} for each in names(value)]}
        elif key == "ended":
            said["status"] = {"phase": "Succeeded"}
        elif key == "mode":
            resource, _, mode = value.partition(":")
            said["spec"]["resources"].append({"group": "", "mode": mode, "resource": resource})
        elif key == "verb":
            said["rules"] = [{"apiGroups": [""], "resources": ["pods"], "verbs": [value]}]
        else:
            said[key] = {"k": value}
    return metadata, said


class Store:
    """Objects by their kind, namespace and name, and the names that are excluded from trees."""

    def __init__(self, lines, excluded=()):
        self.objects, self.excluded = {}, excluded
        for line in lines:
            kind, place, *words = line.split(" ")
            ns, name = {"namespace": ("", place), "config": ("", "config"), "hierarchy": (place, "hierarchy")}.get(kind) or place.split("/")
            metadata, said = body_of(kind, words if kind != "config" else [place, *words])
            metadata.update({"name": name, "resourceVersion": "1"} | ({"namespace": ns} if ns else {}))
            _, its, version = KINDS[kind]
            self.objects[kind, ns, name] = {"apiVersion": version, "kind": its, "metadata": metadata, **said}

    def rows(self):
        """The key and the body of each row."""
        return sorted((f"{KINDS[kind][0]}/{ns}/{name}", text(body)) for (kind, ns, name), body in self.objects.items())

    # ---- the tree

    def of_kind(self, kind, ns=None):
        """The names of a kind, in a namespace or with their namespaces, in byte order."""
        return sorted((place[2] if ns is not None else place[1:]) for place in self.objects if place[0] == kind and ns in (None, place[1]))

    def namespaces(self):
        return [name for _, name in self.of_kind("namespace")]

    def home(self, ns):
        return self.objects.get(("namespace", "", ns))

    def owner(self, ns):
        return self.home(ns)["metadata"].get("annotations", {}).get(OWNER)

    def parent(self, ns):
        if self.home(ns) is None:
            return None
        hierarchy = self.objects.get(("hierarchy", ns, "hierarchy"), {"spec": {}})
        return self.owner(ns) or hierarchy["spec"].get("parent")

    def chain(self, ns):
        members = []
        while self.home(ns) and ns not in members:
            members.append(ns)
            ns = self.parent(ns)
        return members

    def is_live(self, ns):
        return bool(self.home(ns)) and self.home(ns)["status"]["phase"] == "Active"

    def in_cycle(self, ns):
        parent = self.parent(ns)
        return parent is not None and ns in self.chain(parent)

    def own_halt(self, ns):
        parent = self.parent(ns)
        if parent is None:
            return None
        if self.in_cycle(ns):
            return "InCycle"
        if not self.is_live(parent):
            return "ParentMissing"
        return "IllegalParent" if parent in self.excluded else None

    def halt(self, ns):
        own = self.own_halt(ns)
        return own or ("AncestorHaltActivities" if any(map(self.own_halt, self.chain(ns)[1:])) else None)

    def reasons(self, ns):
        owner = self.owner(ns)
        misses = owner and self.home(owner) and ("anchor", owner, ns) not in self.objects
        return [reason for reason in (self.halt(ns), "SubnamespaceAnchorMissing" if misses else None) if reason]

    def children(self, ns):
        return [name for name in self.namespaces() if self.parent(name) == ns]

    def origin(self, place):
        return self.objects[place]["metadata"].get("labels", {}).get(ORIGIN)

    # ---- tables

    def tree(self):
        lines = []

        def show(ns, level):
            lines.append("  " * level + ("[s] " if self.owner(ns) else "") + ns + "".join(f" ({reason})" for reason in self.reasons(ns)))
            for child in self.children(ns):
                if not self.in_cycle(child):
                    show(child, level + 1)

        for ns in self.namespaces():
            if len(self.chain(ns)) == 1 or self.in_cycle(ns):
                show(ns, 0)
        return lines

    def describe(self, ns):
        places = [place for place in self.objects if place[1] == ns and place[0] in COPIED]
        copies = sum(self.origin(place) is not None for place in places)
        told = [("namespace", ns), ("parent", self.parent(ns)), ("children", " ".join(self.children(ns))), ("conditions", " ".join(self.reasons(ns)))]
        told += [("depth", str(len(self.chain(ns)) - 1)), ("sources", str(len(places) - copies)), ("copies", str(copies))]
        return [f"{what} {value or '-'}" for what, value in told]

    def charge(self, place, resource):
        """What an object is charged, in thousandths."""
        kind, body = place[0], self.objects[place]
        if kind != "pod":
            return 1000 if resource in COUNTED.get(kind, ()) and self.origin(place) is None else 0
        if resource == "count/pods":
            return 1000
        if body.get("status", {}).get("phase") == "Succeeded":
            return 0
        asked = [amount(container["resources"]["requests"]["cpu"]) for container in body.get("spec", {}).get("containers", [])]
        return {"pods": 1000, "requests.cpu": sum(asked), "cpu": sum(asked)}.get(resource, 0)

    def used(self, ns, resource):
        return sum(self.charge(place, resource) for place in self.objects if place[0] not in ("namespace", "config") and ns in self.chain(place[1]))

    def quota(self):
        lines = []
        for ns, name in self.of_kind("quota"):
            for resource, hard in sorted(self.objects["quota", ns, name]["spec"]["hard"].items()):
                lines.append(f"{ns} {name} {resource} {printed(self.used(ns, resource))} {hard}")
        return lines

    # ---- what keys want

    def is_open(self, ns):
        return self.is_live(ns) and ns not in self.excluded and self.halt(ns) is None

    def wants(self):
        """The keys that want a write, the least first: copies, then tree labels, reports, subnamespaces, anchors, quotas, removals."""
        kinds = [self.wants_copy, self.wants_tree, self.wants_report, self.wants_child, self.wants_anchor, self.wants_used, self.wants_purge]
        return [key for keys in kinds for key in keys()]

    def audit(self):
        keys = self.wants()
        return [f"differs {keys[0]}" if keys else "settled"]

    def mode(self, kind):
        entries = self.objects.get(("config", "", "config"), {"spec": {"resources": []}})["spec"]["resources"]
        modes = [entry["mode"] for entry in entries if entry["resource"] == COPIED[kind]]
        return "Propagate" if kind == "role" else (*modes, "Ignore")[0]

    def goes(self, body, labels):
        its = body["metadata"].get("annotations", {})
        select, tree, none = (its.get(f"propagate.hnc.x-k8s.io/{key}") for key in ("select", "treeSelect", "none"))
        wanted = [(select and select.lstrip("!") in labels, select), (tree and tree.lstrip("!") + DEPTH in labels, tree)]
        return none != "true" and all(has != text.startswith("!") for has, text in wanted if text)

    def top(self, kind, ns, name):
        labels = self.home(ns)["metadata"].get("labels", {})
        for above in reversed(self.chain(ns)[1:]):
            place = kind, above, name
            if place in self.objects and self.origin(place) is None and self.goes(self.objects[place], labels):
                return place
        return None

    def copy(self, place, ns):
        """What a source is copied as, without its version."""
        body = self.objects[place]
        labels = {**body["metadata"].get("labels", {}), ORIGIN: place[1]}
        kept = {key: value for key, value in body["metadata"].get("annotations", {}).items() if not re.match(r"([^/]*\.)?hnc\.x-k8s\.io/", key)}
        metadata = {"name": place[2], "namespace": ns, "resourceVersion": "1", "labels": labels} | ({"annotations": kept} if kept else {})
        return {**body, "metadata": metadata}

    def wants_copy(self):
        for ns in filter(self.is_open, self.namespaces()):
            for kind, plural in COPIED.items():
                for name in sorted({place[2] for place in self.objects if place[0] == kind}):
                    place, mode = (kind, ns, name), self.mode(kind)
                    top = self.top(kind, ns, name) if mode == "Propagate" else None
                    is_copy = place in self.objects and self.origin(place) is not None
                    if top and self.objects.get(place) != self.copy(top, ns) or not top and is_copy and mode != "Ignore":
                        yield f"copy {ns} {plural} {name}"

    def wants_tree(self):
        for ns in filter(self.is_open, self.namespaces()):
            labels = self.home(ns)["metadata"].get("labels", {})
            tree = {f"{member}{DEPTH}": str(far) for far, member in enumerate(self.chain(ns))}
            if {key: value for key, value in labels.items() if key.endswith(DEPTH) or key == INCLUDED} != {**tree, INCLUDED: "true"}:
                yield f"tree {ns}"

    def wants_report(self):
        for ns in self.namespaces():
            hierarchy = self.objects.get(("hierarchy", ns, "hierarchy"), {})
            told = {key: value for key, value in (("children", self.children(ns)), ("conditions", list(map(condition, self.reasons(ns))))) if value}
            if self.is_live(ns) and ns not in self.excluded and hierarchy.get("status", {}) != told:
                yield f"report {ns}"

    def wants_child(self):
        for ns, name in self.of_kind("anchor"):
            if self.is_open(ns) and name not in self.excluded and not self.home(name):
                yield f"child {ns} {name}"

    def wants_anchor(self):
        for ns, name in self.of_kind("anchor"):
            status = "Missing" if not self.home(name) else "Ok" if self.owner(name) == ns else "Conflict"
            if {ns, name} & {*self.excluded}:
                status = "Forbidden"
            if self.is_live(ns) and self.objects["anchor", ns, name].get("status") != {"status": status}:
                yield f"anchor {ns} {name}"

    def wants_used(self):
        for ns, name in self.of_kind("quota"):
            body = self.objects["quota", ns, name]
            hard = body["spec"]["hard"]
            told = {"hard": hard, "used": {resource: printed(self.used(ns, resource)) for resource in hard}} if hard else None
            if self.is_live(ns) and body.get("status") != told:
                yield f"used {ns} {name}"

    def wants_purge(self):
        yield from (f"purge {ns}" for ns in self.namespaces() if not self.is_live(ns))
