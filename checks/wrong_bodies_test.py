#!/usr/bin/env python3
"""Shows what wrong_bodies.py says of edits of each kind, on a copy of the crate ring_mod with the edits below."""

import os
import re
import shutil
import subprocess
import sys
import tempfile
from pathlib import Path

TOP = Path(__file__).resolve().parent.parent
COMMENT = "/// Whether numbers have no common factor."
HELPER = "fn zero() -> u64 ensures { result ≡ 0 } { 1 }"

# Edits by what has to be said of them: a name, and pairs of texts of src/lib.rt. First those that compile.
COMPILED = {
    # (by copies; two of one function, and one of a loop)
    "refused at returns-": [
        ("negation_of_zero", ("if a == 0 { 0 }", "if a == 0 { 1 }")),
        ("negation_less_one", ("{ self.modulus - a }", "{ self.modulus - a - 1 }")),
    ],
    "refused at loop-": [("even_bits", ("if left % 2 == 1 {", "if left % 2 == 0 {"))],
    # (in place, since it changes two bodies)
    "refused at returns": [("two_bodies", ("        v % self.modulus", "        v"), ("if rest == 1 {", "if rest == 2 {"))],
    "NOT REFUSED: ": [("the_same_sum", ("let total = a + b;", "let total = b + a;"))],
    "BAD EDIT: the answers name": [("name_is_gone", ("let mut rest = self.get();", "let mut rest = self.modulus;"))],
    "BAD EDIT: no goal of its own is open": [
        ("another_is_refused", ("if a == 0 { 0 }", "if a == 0 { zero() }"), (COMMENT, HELPER)),
    ],
    "BAD EDIT: it changes a contract": [("another_contract", ("a b 1 }", "b a 1 }"))],
    "BAD EDIT: it changes the body of no function": [("another_constant", ("1 << 62;", "1 << 61;"))],
    "BAD EDIT: an 'old:' text is in": [("in_two_places", ("self.modulus - ", "self.modulus + "))],
}
UNCOMPILED = {
    "refused at returns-": COMPILED["refused at returns-"],
    "BAD EDIT: it does not compile: src/lib.rt": [
        ("unread", ("a + (self.modulus - b)", "a + (self.modulus - b")),
        ("another_type", ("total - modulus", "total == modulus")),
        ("unknown_name", ("let mut power = self.reduce(1);", "let mut power = self.reduced(1);")),
    ],
}
# With a function that is wrong as it stands.
BROKEN = {
    "NO VERDICT: ": [("difference", ("a + (self.modulus - b)", "a + (self.modulus - b + 1)"))],
    "refused at ": [("negation", ("if a == 0 { 0 }", "if a == 0 { 1 }"))],
}


def write_edits(folder, expected):
    shutil.rmtree(folder, ignore_errors=True)
    folder.mkdir()
    for name, *pairs in (edit for edits in expected.values() for edit in edits):
        lines = [f"old: {old}\nnew: {new}\n" for old, new in pairs]
        (folder / f"{name}.edit").write_text("file: src/lib.rt\n" + "".join(lines))


def failures(top, expected):
    """What wrong_bodies.py says otherwise than is expected, in a repository with these edits."""
    write_edits(top / "crates/ring_mod/wrong", expected)
    ran = subprocess.run([top / "checks/wrong_bodies.py"], capture_output=True, text=True)
    print(ran.stdout, ran.stderr, sep="", end="", flush=True)
    told = dict(re.findall(r"(?m)^  (\w+): (.*)", ran.stdout))
    wanted = {name: words for words, edits in expected.items() for name, *_ in edits}
    found = [f"{name}: not {words}" for name, words in wanted.items() if not told.get(name, "").startswith(words)]
    refused = sum(words.startswith("refused") for words in wanted.values())
    if ran.stdout.splitlines()[-1:] != [f"{refused} refused, {len(wanted) - refused} not"] or ran.returncode != (refused < len(wanted)):
        found.append(f"not {refused} refused, {len(wanted) - refused} not, and the status {int(refused < len(wanted))}")
    return found


def main():
    with tempfile.TemporaryDirectory() as room:
        top = Path(room, "top")
        shutil.copytree(TOP / "crates/ring_mod", top / "crates/ring_mod", ignore=shutil.ignore_patterns("out", "wrong"))
        for folder in ("bin", "checks"):
            shutil.copytree(TOP / folder, top / folder)
        shutil.copy(TOP / "HANDLES", top)
        (top / "crates.txt").write_text("ring_mod:\n")
        os.environ["XDG_CACHE_HOME"] = room
        found = failures(top, COMPILED) + failures(top, UNCOMPILED)
        source = top / "crates/ring_mod/src/lib.rt"
        source.write_text(source.read_text().replace("            a - b\n", "            a - b + 1\n"))
        found += failures(top, BROKEN)
    print("\n".join(found) or "wrong_bodies.py says of each edit what it should")
    sys.exit(1 if found else 0)


if __name__ == "__main__":
    main()
