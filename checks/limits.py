#!/usr/bin/env python3
"""Compares the limits of a request's fields that docs/REFERENCE.md has with the table of request_text/specs/Limits, by which a request
is judged, and what stands in a field that is left out with request_text/specs/Line. Status 1 where they differ.

    checks/limits.py
"""

import pathlib
import re
import sys

TOP = pathlib.Path(__file__).resolve().parent.parent
SPECS = TOP / "crates" / "request_text" / "specs"
# The word of the page's table for each field that has limits of its own.
FIELDS = {"N": "Size", "mod M": "Mod", "procs P": "Procs", "line L": "Line", "lanes V": "Lanes", "unroll U": "Unroll", "budget B": "Budget", "weight K": "Weight"}
SIZE = re.compile(r"^max_size = (\d+)$", re.M)


def number(text, names):
    """The value of a number as the page or the table writes it: 1,048,576, 2^62 - 1, 10^12, max_size."""
    text = names.get(text.strip(), text).replace(",", "").replace("^", "**").strip()
    if not re.fullmatch(r"[\d*\s-]+", text):
        sys.exit(f"no number: {text}")
    return eval(text)  # of digits, powers and differences alone


def table():
    """Of each field the least and the greatest value, and what it is where it is left out."""
    names = {"max_size": SIZE.search((TOP / "crates/operators/specs/Sizes.antt").read_text(encoding="utf-8")).group(1)}
    rows = re.findall(r"^limits (\w+) = \((.+), (.+)\)$", (SPECS / "Limits.antt").read_text(encoding="utf-8"), re.M)
    absent = dict(re.findall(r'\(codes " (\w+) ", (\d+)\)', (SPECS / "Line.antt").read_text(encoding="utf-8")))
    return {field: (number(low, names), number(high, names), absent.get(field.lower())) for field, low, high in rows}


def page():
    """The same of the page's table."""
    for words, limits in re.findall(r"^\| (`?[\w ,`]+) \| [^|]* \| ([^|]*) \|$", (TOP / "docs" / "REFERENCE.md").read_text(encoding="utf-8"), re.M):
        for word, limit in zip(words.replace("`", "").split(", "), limits.split("; ")):
            found = re.fullmatch(r"([\d,^ -]+?) to ([\d,^ -]+?)(?: \((.+)\))?", limit.strip())
            if word in FIELDS and found:
                low, high, absent = found.groups()
                yield FIELDS[word], (number(low, {}), number(high, {}), absent and str(number(absent, {})))


def main():
    limits, told = table(), dict(page())
    faults = [f"docs/REFERENCE.md: {field} from {told.get(field)}, in the table {limits.get(field)}" for field in FIELDS.values() if told.get(field) != limits.get(field)]
    print("\n".join(faults) or f"limits.py: {len(told)} fields, as in the table")
    return bool(faults)


if __name__ == "__main__":
    sys.exit(main())
