"""Trees of namespaces in runs of the built program, for the measurements beside this file."""
import itertools
import random

from program import Kind, Run, namespace, numbered, read


HIERARCHY = Kind("hnc.x-k8s.io/v1alpha2", "HierarchyConfiguration", "hierarchyconfigurations")


def body(parent):
    return HIERARCHY.body("hierarchy", spec={"parent": parent})


def plant(ns, parent, query=""):
    """The line that gives a namespace its first parent."""
    return f"POST {HIERARCHY.path(ns)}{query} {body(parent)}\n"


def move(ns, parent):
    """The line that gives it another one."""
    return f"PUT {HIERARCHY.path(ns)}/hierarchy {body(parent)}\n"


class Columns(Run):
    """A run with a root and columns of namespaces, each the parent of the next one. What the columns don't hold, up to so many namespaces, stands in a shorter one, which isn't asked about."""

    def __init__(self, program, columns, depth, namespaces=0, *options):
        super().__init__(program, *options)
        self.depth = depth
        self.columns = list(range(columns))
        namespaces = max(namespaces, columns * depth + 1)
        self.chance = random.Random(namespaces)
        self.ask([namespace(numbered(i)) for i in range(namespaces)])
        self.ask([plant(numbered(i), numbered(i - 1 if i % depth != 1 else 0)) for i in range(1, namespaces)])

    def ask_among(self, columns):
        """From now on only the first so many columns are asked about."""
        self.columns = list(range(columns))

    def at(self, column, level):
        """The namespace that stood in a column at a level at first. The root is at level 0."""
        return numbered(column % len(self.columns) * self.depth + level)

    def shuffled(self):
        """The columns, over and over, and how often they came before."""
        for turn in itertools.count():
            self.chance.shuffle(self.columns)
            for column in self.columns:
                yield column, turn

    def moves(self, level):
        """PUTs that give the namespaces of a level the parents of the next column, then those of the one behind it, and so on."""
        for column, turn in self.shuffled():
            yield move(self.at(column, level), self.at(column + turn + 1, level - 1))

    def reads(self):
        """GETs of the leaves' HierarchyConfigurations."""
        for column, _ in self.shuffled():
            yield read(self.at(column, self.depth), "hierarchy", HIERARCHY)
