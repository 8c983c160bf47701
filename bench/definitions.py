#!/usr/bin/env python3
"""Lines of definitions that the contract of `top` reaches.

Usage: bench/definitions.py [--write]
Prints a line for each file of specs/ that is reached: how many of its lines are, how many it has, and its path; and last the sums. With --write it also puts
them into docs/DEFINITIONS.md, and says which file that is reached no table there names.

From the clauses of `top`, and those of the traits of its ports, all names are followed that are imported from a file of specs/, or stand in the same file. The
lines of a definition are its own, with those of the comment above it.
"""
import os
import re
import sys

TOP = os.path.dirname(os.path.dirname(os.path.abspath(__file__)))
PAGE = f"{TOP}/docs/DEFINITIONS.md"
NAME = re.compile(r"(?:([^\W\d][\w'-]*)\.)?([^\W\d][\w'-]*)")
HEAD = re.compile(r"(?:abbrev |unfoldable |pub |record |data )*([^\W\d][\w'-]*)")
FIELD = re.compile(r"  (?:pub )?([^\W\d][\w'-]*) :")
IMPORT = re.compile(r" *(?:ghost |pub )*use Rattle\.(\w+)\.specs\.([\w.]+?)(?:\.\{(.*)\}| as (\w+))?;?$")


def read(path):
    with open(f"{TOP}/crates/{path}", encoding="utf-8") as it:
        return it.read()


class Definition:
    def __init__(self, comments):
        self.lines, self.text = comments, ""


class Spec:
    """What a file imports, and its definitions by their names."""

    def __init__(self, text):
        self.length, self.imported, self.modules, self.named = len(text.splitlines()), {}, {}, {}
        comments = 0
        last = None
        for line in text.splitlines():
            found = IMPORT.match(line)
            if found:
                self.take_import(*found.groups())
            elif not line.strip() or line.startswith("--"):
                comments = comments + 1 if line.startswith("-- ") and not line.startswith("-- ----") else 0
                last = None if not line.strip() or comments else last
            else:
                last = self.take_line(line, last, comments)
                comments = 0

    def take_import(self, crate, path, names, alias):
        module = f"{crate}/specs/{path}.antt"
        if alias:
            self.modules[alias] = module
        for name in (names or "").split(", "):
            told, _, local = name.strip().partition(" as ")
            self.imported[local or told] = module, told

    def take_line(self, line, last, comments):
        """A line of a definition: one that begins at the margin may begin another one. A constructor names the whole."""
        if not line.startswith(" "):
            name = HEAD.match(line)
            if name:
                last = self.named.setdefault(name.group(1), Definition(comments))
        if last is None:
            return None
        last.lines += 1
        last.text += line + "\n"
        field = FIELD.match(line)
        if field and last.text.partition("\n")[0].find("data ") >= 0:
            self.named[field.group(1)] = last
        return last


def clauses(path):
    """The clauses of what is public: of functions with a body, or of all in a file of traits."""
    text = read(path)
    if path.endswith("/top.rt"):
        return "\n".join(re.findall(r"pub fn .*?\n *\{\n", text, re.S))
    return "\n".join(line for line in text.splitlines() if re.match(r"\s*(requires|ensures|ghost \w+:)", line))


def reached():
    """The definitions that are reached, by the files that have them; and those files."""
    specs, found, left = {}, {}, []

    def open_spec(path):
        if path not in specs and os.path.exists(f"{TOP}/crates/{path}"):
            specs[path] = Spec(read(path))
        return specs.get(path)

    def follow(text, spec, path):
        for module, name in NAME.findall(text):
            if module in spec.modules:
                left.append((spec.modules[module], name))
            for each in (module, name):
                left.append(spec.imported.get(each, (path, each)))

    for root in ("hnc/src/top.rt", "hx_ports/src/keeper.rt", "hx_ports/src/stream.rt"):
        follow(clauses(root), Spec(read(root)), root)
    while left:
        path, name = left.pop()
        spec = open_spec(path) if path.endswith(".antt") else None
        if spec is None:
            continue
        definition = spec.named.get(name)
        if definition is None:
            if name in spec.imported:
                left.append(spec.imported[name])
        elif definition not in found.setdefault(path, []):
            found[path].append(definition)
            follow(definition.text, spec, path)
    return {path: (sum(each.lines for each in found[path]), specs[path].length) for path in sorted(found) if found[path]}


def write(lines):
    """Puts the numbers into the rows of the page whose first cell names files of specs/: `CRATE/specs/NAME`, and others of the same folder by their names."""
    told = set()

    def row(match):
        folder, paths = "", []
        for name in re.findall(r"`([\w/.]+)`", match.group(1)):
            folder = os.path.dirname(name) or folder
            paths.append(f"{folder}/{os.path.basename(name)}.antt")
        if not all(path in lines for path in paths):
            return match.group()
        told.update(paths)
        return f"| {match.group(1)} | {sum(lines[path][0] for path in paths)} of {sum(lines[path][1] for path in paths)} |"

    with open(PAGE, encoding="utf-8") as it:
        text = re.sub(r"^\| ([^|]*`[^|]*) \| [^|]* \|", row, it.read(), flags=re.M)
    heart = re.findall(r"[|] (\d+) of ", text.partition("\n## The heart")[2].partition("\n## ")[0])
    text = re.sub(r"They are [\d,]+ lines in \d+ files", f"They are {sum(count for count, _ in lines.values()):,} lines in {len(lines)} files", text)
    text = re.sub(r"has [\d,]+ of them", f"has {sum(map(int, heart)):,} of them", text)
    with open(PAGE, "w", encoding="utf-8") as it:
        it.write(text)
    for path in sorted({*lines} - told):
        print(f"no row of docs/DEFINITIONS.md names {path}")


def main():
    lines = reached()
    for path, (count, whole) in lines.items():
        print(f"{count:5} of {whole:4}  {path[:-5]}")
    print(f"{sum(count for count, _ in lines.values())} of {sum(whole for _, whole in lines.values())} lines in {len(lines)} files")
    if "--write" in sys.argv[1:]:
        write(lines)


if __name__ == "__main__":
    main()
