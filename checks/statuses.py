#!/usr/bin/env python3
"""Compares the examples of docs/STATUS.md with the tables of statuses: each example is a line of a status of its row, and each status has an
example. And looks whether each status of both programs, with its line, stands in a test. Status 1 where not.

    checks/statuses.py [--table]     the option also prints how often each status stands in the tests
"""

import collections
import pathlib
import re
import sys

TOP = pathlib.Path(__file__).resolve().parent.parent
PAGE = (TOP / "docs" / "STATUS.md").read_text(encoding="utf-8")
ROW = re.compile(r"^row_of (?:\((\w+)[^)]*\)|(\w+)) =\s+row (\d+) (.*?)\[\]\)?$", re.M | re.S)
PART = re.compile(r'\((?:codes "([^"]*)"|(\w+) \w+), (None|Some \w+)\)')
WORDS = re.compile(r'^(\w+) \w+ = codes "([^"]*)"$', re.M)
# Of each program where its statuses stand, and its tests.
PROGRAMS = {
    "spiral": ("spiral_words/specs/Statuses", ["crates/worked_examples/src/*.rt", "checks/refuse_memory.sh"]),
    "spiral-fast": ("fast_main/specs", ["checks/fast_refusals.py", "checks/refuse_memory.sh"]),
}


def statuses(program):
    """Of each status its name, its number, and a pattern of its lines."""
    text = (TOP / "crates" / PROGRAMS[program][0] / "Rows.antt").read_text(encoding="utf-8")
    words = collections.defaultdict(list)
    for name, word in WORDS.findall(text):
        words[name].append(re.escape(word))
    for with_numbers, alone, number, parts in ROW.findall(text):
        line = ""
        for word, name, behind in PART.findall(parts):
            line += re.escape(word) or f"(?:{'|'.join(words[name])})" if word or words[name] else r"\w+"
            line += r"\d+" if behind != "None" else ""
        yield with_numbers or alone, int(number), line


def examples():
    """Of each example in the table its status's number and its line; of several statuses in a row, the examples stand in their order."""
    for numbers, cell in re.findall(r"^\| (\d[\d, ]*) \| (.*) \|$", PAGE, re.M):
        numbers = [int(number) for number in numbers.split(", ")]
        lines = re.findall(r"`([^`]*)`", cell)
        for place, line in enumerate(lines):
            yield numbers[place if len(numbers) > 1 else 0], line.replace("\\|", "|")


def is_example(number, example, status):
    """Whether the example is a line of the status, or the front of one where it ends with two points."""
    _, other, line = status
    front = example.removesuffix("..")
    return number == other and (re.fullmatch(line, example) or front != example and line.startswith(re.escape(front)))


def faults_of_page():
    table = [status for status in statuses("spiral") if status[2]]
    shown = list(examples())
    yield from (f"no status {number} has the line {line}" for number, line in shown if not any(is_example(number, line, s) for s in table))
    yield from (f"{status[0]} has no example" for status in table if not any(is_example(*example, status) for example in shown))
    ours = {status[:2]: status[2] for status in table}
    own = [s for s in statuses("spiral-fast") if s[2] and s[0] != "Usage" and ours.get(s[:2]) != s[2]]
    for name, _, line in own:
        if not any(re.search(line, text) for text in re.findall(r"`([^`]*)`", PAGE)):
            yield f"{name} of spiral-fast is not on the page"


def tested(program):
    """Of each status its name, its number, and how many lines of the tests have its number and its line. The tests name the usage by a word."""
    files = [path for pattern in PROGRAMS[program][1] for path in sorted(TOP.glob(pattern))]
    text = "\n".join(path.read_text(encoding="utf-8") for path in files)
    for name, number, line in statuses(program):
        line = "usage" if name == "Usage" else line
        yield name, number, len(re.findall(rf"(?i)^.*\b{number}\b.*{line}", text, re.M))


def main():
    faults = [f"docs/STATUS.md: {fault}" for fault in faults_of_page()]
    for program in PROGRAMS:
        for name, number, count in tested(program):
            if "--table" in sys.argv:
                print(f"{program} {number:2} {name}: {count}")
            faults += [] if count else [f"{program}: no test has status {number}, {name}"]
    print("\n".join(faults) or f"statuses: {len(list(examples()))} examples; each status of both programs has one, and stands in a test")
    sys.exit(bool(faults))


if __name__ == "__main__":
    main()
