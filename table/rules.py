"""The rules of admission on the tree of namespaces, in plain Python: what the rows of answers.py say is held against them.

They are written from the words of docs/BEHAVIOUR.md, and know namespaces, their HierarchyConfigurations and nothing else.
No request makes a namespace with the annotation of a subnamespace or one that is terminating, so neither is known here.
"""

GREATEST_DEPTH = 64


class Tree:
    """Namespaces, and the parents that their HierarchyConfigurations name."""

    def __init__(self, excluded):
        self.excluded = excluded
        self.namespaces = set()
        self.parents = {}

    def with_parent(self, ns, parent):
        """The tree in which a namespace has this parent, or none."""
        tree = Tree(self.excluded)
        tree.namespaces = self.namespaces
        tree.parents = {**self.parents, ns: parent}
        return tree

    def chain(self, ns):
        """A namespace, its parent and so on, up to a name that isn't there or one that the chain has."""
        members = {}
        while ns in self.namespaces and ns not in members:
            members[ns] = True
            ns = self.parents.get(ns)
        return list(members)

    def own_halt(self, ns):
        """The reason that a namespace has by itself."""
        parent = self.parents.get(ns)
        if parent is None:
            return None
        if ns in self.chain(parent):
            return "InCycle"
        if parent not in self.namespaces:
            return "ParentMissing"
        return "IllegalParent" if parent in self.excluded else None

    def halt(self, ns):
        """Why a namespace is halted: the first reason that holds."""
        own = self.own_halt(ns)
        if own is None and any(self.own_halt(member) for member in self.chain(ns)[1:]):
            return "Ancestor"
        return own

    def deepest(self, ns):
        """The greatest depth in the subtree of a namespace."""
        chains = [self.chain(below) for below in self.namespaces]
        return max(len(chain) - 1 for chain in chains if ns in chain)

    def broken(self, method, ns, name, parent, skip):
        """The first rule that a request on a HierarchyConfiguration breaks. Its body names the parent."""
        writes = method != "DELETE"
        before = self.parents.get(ns)
        brought = parent if parent != before else None
        moves = parent != before
        if writes and name != "hierarchy":
            return "H7"
        if skip:
            return None
        if brought is not None and brought not in self.namespaces:
            return "H1"
        if brought is not None and ns in self.chain(brought):
            return "H2"
        if moves and (self.halt(ns) == "Ancestor" or parent is not None and self.halt(parent)):
            return "H4"
        if writes and (ns in self.excluded or brought in self.excluded):
            return "H6"
        if writes and moves and self.with_parent(ns, parent).deepest(ns) > GREATEST_DEPTH:
            return "H8"
        return None
