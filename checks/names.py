#!/usr/bin/env python3
"""Checks the names of code in the pages of docs/ against crates/, and the links of all pages.

A name of code is a word in backticks made of letters, digits, underscores and `::`; it has to stand in crates/. A path in backticks has to
lead to a file or folder of the repository, of a crate, or of a crate's src/; the ending may be left out. Or it is CRATE/EDIT, an edit of the
crate's wrong/.

On docs/PROVED.md a heading `####` names crates: each crate of crates.txt has one, in its order. Below it a path `specs/..` has to lead into
one of these crates, and a paragraph that begins with "Proved" may name only what stands in their src/ or specs/. Each line of a block of
```antt has to stand in specs/.

A link leads to a file of the repository, or to a heading of a page.
"""

import pathlib
import re
import sys

TOP = pathlib.Path(__file__).resolve().parent.parent
NAME = re.compile(r"`([A-Za-z_][A-Za-z0-9_]*(?:::[A-Za-z0-9_]+)*)`")
PATH = re.compile(r"`([a-z_0-9]+(?:/[A-Za-z0-9_+.-]+)+)`")
LINK = re.compile(r"\]\(([^)\s]+)\)")
COMMANDS = {"apply", "c", "cert", "check", "code", "compile", "convolve", "exec", "formula", "plan", "run", "sample", "trace", "main"}
# The page of what is proved, pages that speak of proofs too, and what these say of code that is not there.
PROVED, OTHERS = "PROVED.md", ("ARCHITECTURE.md", "DECISIONS.md", "EXTENDING.md", "PROVING.md")
EXAMPLES = {"src/name.rt", "Met", "crates/CRATE/src", "crates/CRATE/specs"}


def words_of(crate, parts):
    """All words of these parts of a crate, and the names of their files."""
    files = [path for part in parts for path in (TOP / "crates" / crate / part).rglob("*") if path.suffix in (".rt", ".antt")]
    return {word for path in files for word in [path.stem, *re.findall(r"[A-Za-z_][A-Za-z0-9_]*", path.read_text())]}


def entries(text):
    """The paragraphs and list items of a text, each on one line."""
    return [" ".join(entry.split()) for entry in re.split(r"\n(?=\s*- |\n)", text)]


def sections(text):
    """Of the page of what is proved the crates of each heading, with the text below it; first what stands before all of them."""
    parts = re.split(r"^(####? .*|## .*)$", text, flags=re.M)
    yield [], parts[0]
    for heading, below in zip(parts[1::2], parts[2::2]):
        yield heading[5:].split(", ") if heading.startswith("#### ") else [], below


def faults_of_proved(crates):
    """What the page of what is proved names that is not there."""
    text = (TOP / "docs" / PROVED).read_text()
    words = {crate: words_of(crate, ("src", "specs")) for crate in crates}
    lines = {line.strip() for path in (TOP / "crates").glob("*/specs/**/*.antt") for line in path.read_text().splitlines()}
    for block in re.findall(r"^```antt\n(.*?)^```$", text, re.M | re.S):
        yield from (f"`{line.strip()}` is no line of specs/" for line in block.splitlines() if line.strip() not in lines)
    headed = []
    for own, below in sections(re.sub(r"^```.*?^```$", "", text, flags=re.M | re.S)):
        headed += own
        for entry in entries(below):
            places = own if own and entry.startswith("Proved") else crates
            yield from (f"{name} is not in {', '.join(own)}" for name in absent(entry, [words[it] for it in places if it in words]))
            for path in PATH.findall(entry):
                starts = [f"crates/{crate}" for crate in own] if path.startswith("specs/") and own else STARTS
                if path not in EXAMPLES and not any(leads(start, path) for start in starts):
                    yield f"there is no {path} {'in ' + ', '.join(own) if own else ''}"
    if headed != crates:
        yield f"its headings are not the crates in their order: {next((pair for pair in zip(headed, crates) if len(set(pair)) > 1), 'one is missing')}"


def absent(entry, words):
    """Names that none of these sets of words has whole."""
    for name in NAME.findall(entry):
        if name not in COMMANDS | EXAMPLES and not any(set(name.split("::")) <= some for some in words):
            yield name


STARTS = (".", "crates", "crates/*", "crates/*/src")


def faults_of(page, words):
    """What another page names that is not there."""
    text = (TOP / "docs" / page).read_text()
    yield from (f"{name} is not in crates/" for name in absent(text, [words]))
    for path in PATH.findall(text):
        if path not in EXAMPLES and not any(leads(start, path) for start in STARTS):
            yield f"there is no {path}"


def leads(start, path):
    places = [f"{start}/{path}{ending}" for ending in ("", ".antt", ".rt")] + [f"{start}/{path.replace('/', '/wrong/')}.edit"]
    return any(next(TOP.glob(place), None) for place in places)


def anchors(page):
    """The names by which links lead to headings of a page."""
    text = re.sub(r"^```.*?^```$", "", page.read_text(), flags=re.M | re.S)
    return {re.sub(r"[^\w\- ]", "", heading.lower()).replace(" ", "-") for heading in re.findall(r"^#+ (.*)$", text, re.M)}


def faults_of_links(page):
    """Links of a page that lead nowhere."""
    for link in LINK.findall(re.sub(r"^```.*?^```$", "", page.read_text(), flags=re.M | re.S)):
        if re.match(r"https?:", link):
            continue
        path, _, anchor = link.partition("#")
        target = (page.parent / path).resolve() if path else page
        if not target.exists() or anchor and anchor not in anchors(target):
            yield f"the link {link} leads nowhere"


def main():
    order = [line.split(":")[0].split()[0] for line in (TOP / "crates.txt").read_text().splitlines() if line.strip() and line[0] != "#"]
    words = set(order).union(*(words_of(crate, ("src", "specs", "proofs")) for crate in order))
    wrong = [(f"docs/{PROVED}", fault) for fault in faults_of_proved(order)]
    wrong += [(f"docs/{page}", fault) for page in OTHERS for fault in faults_of(page, words)]
    pages = [*TOP.glob("*.md"), *TOP.glob("docs/*.md"), *TOP.glob("examples/**/*.md")]
    wrong += [(page.relative_to(TOP), fault) for page in sorted(pages) for fault in faults_of_links(page)]
    for page, fault in wrong:
        print(f"names: {page}: {fault}", file=sys.stderr)
    if not wrong:
        print(f"names: each name of code in the pages of docs/ is there, and each link of {len(pages)} pages")
    return 1 if wrong else 0


if __name__ == "__main__":
    sys.exit(main())
