#!/usr/bin/env python3
"""The map of the crates: checks the order of crates.txt, and writes the tables of docs/ARCHITECTURE.md.

    checks/map.py           compares the page with crates.txt and the crates' root files; status 1 where they differ
    checks/map.py --write   writes the tables into the page

A line `# Heading` of crates.txt begins a table; a line that begins with `##` is a remark. Each crate stands after the crates that it uses. Its row has its depth, which is
one more than that of the deepest crate it uses, the crates that it uses itself, less those that it reaches through another of them,
and the first sentence of the comment at the top of its root file.
"""

import argparse
import pathlib
import re
import sys

TOP = pathlib.Path(__file__).resolve().parent.parent
PAGE = TOP / "docs" / "ARCHITECTURE.md"
BEGIN = "<!-- the map, written by checks/map.py -->"
END = "<!-- the end of the map -->"


class MapError(Exception):
    """What is wrong with crates.txt, the page or a root file."""


def read_crates(text):
    """The headings in order, each with its crates: pairs of a name and the crates of this repository that it uses."""
    lines = [line for line in text.splitlines() if line.strip()]
    names = {line.split(":")[0].split()[0] for line in lines if not line.startswith("#")}
    headings = []
    for line in lines:
        if line.startswith("# "):
            headings.append((line[2:].strip(), []))
        elif line.startswith("#"):
            continue
        elif not headings:
            raise MapError(f"crates.txt: no heading before {line.split(':')[0]}")
        else:
            head, used = line.split(":")
            headings[-1][1].append((head.split()[0], [name for name in used.split() if name in names]))
    return headings


def reached(crates):
    """For each crate, in order, all crates below it. A crate before one that it uses is an error."""
    below = {}
    for name, used in crates:
        for other in used:
            if other not in below:
                raise MapError(f"crates.txt: {name} stands before {other}, which it uses")
        below[name] = set(used).union(*(below[other] for other in used))
    return below


def depths(crates):
    """How many crates the longest chain from each crate downwards has."""
    deep = {}
    for name, used in crates:
        deep[name] = 1 + max((deep[other] for other in used), default=0)
    return deep


def first_sentence(name):
    """The first sentence of the comment at the top of a crate's root file."""
    folder = TOP / "crates" / name / "src"
    root = next((folder / file for file in ("lib.rt", "main.rt") if (folder / file).exists()), None)
    if root is None:
        raise MapError(f"{name} has no root file")
    lines = root.read_text().splitlines()
    comment = " ".join(" ".join(line[3:] for line in lines if line.startswith("//!")).split())
    sentence = re.match(r"(.*?\.)(?= [A-Z`]|$)", comment)
    if sentence is None:
        raise MapError(f"{root.relative_to(TOP)} has no sentence at its top")
    return sentence.group(1)


def tables(headings):
    """The text between the marks of the page."""
    crates = [crate for _, group in headings for crate in group]
    below, deep = reached(crates), depths(crates)
    edges = sum(len(used) for _, used in crates)
    out = [f"{len(crates)} crates, {edges} uses of one by another, {max(deep.values())} crates in the longest chain."]
    for heading, group in headings:
        out += ["", f"### {heading}", "", "| crate | depth | uses | what it is |", "|---|---|---|---|"]
        for name, used in group:
            direct = [other for other in used if not any(other in below[via] for via in used)]
            out.append(f"| {name} | {deep[name]} | {', '.join(direct)} | {first_sentence(name)} |")
    return "\n".join(out)


def split_page(text):
    """What stands before the map, the map, and what stands after it."""
    if text.count(BEGIN) != 1 or text.count(END) != 1:
        raise MapError(f"{PAGE.name} has not one pair of marks")
    before, rest = text.split(BEGIN)
    between, after = rest.split(END)
    return before, between.strip("\n"), after


def main():
    parser = argparse.ArgumentParser(description="Checks the map of the crates.")
    parser.add_argument("--write", action="store_true", help="write the tables into docs/ARCHITECTURE.md")
    write = parser.parse_args().write
    try:
        wanted = tables(read_crates((TOP / "crates.txt").read_text()))
        before, found, after = split_page(PAGE.read_text())
    except MapError as error:
        print(f"map: {error}", file=sys.stderr)
        return 1
    if write:
        PAGE.write_text(f"{before}{BEGIN}\n\n{wanted}\n\n{END}{after}")
    elif found != wanted:
        print("map: docs/ARCHITECTURE.md differs from crates.txt and the root files; checks/map.py --write mends it", file=sys.stderr)
        return 1
    print(f"map: {wanted.splitlines()[0]}")
    return 0


if __name__ == "__main__":
    sys.exit(main())
