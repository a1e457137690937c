#!/usr/bin/env python3
"""Counts what a reader has to read to know what a clause says: the lines of all definitions in specs/ that it cites, and of those that
these cite in turn, down to the standard library and to the types of the code, which are named and not counted.

    checks/cone.py                                           compares the tables of docs/PROVED.md with what is counted; status 1 where they differ
    checks/cone.py --write                                   writes the tables into the page
    checks/cone.py CRATE FUNCTION.. [--cut MODULE.NAME..] [--all]

A root is a public function with its contract. What is cut stands as a word that is not opened. --all also prints each definition's lines.
"""

import collections
import glob
import os
import pathlib
import re
import sys

TOP = pathlib.Path(__file__).resolve().parent.parent
PAGE = TOP / "docs" / "PROVED.md"
MARKS = "<!-- the table of {}, written by checks/cone.py -->", "<!-- the end of the table of {} -->"
# The laws of spiral_main on the whole program and on each command. `AccountsFor` and `IsOutcome` link them to the program's clause,
# and are not opened.
COMMANDS = [
    ("`code` and `run`", ["the_program_is_right"]),
    ("`compile`, `apply`, `convolve`", ["formulas_are_right"]),
    ("`plan`", ["plan_answers", "plan_is_right"]),
    ("`formula`", ["formula_answers", "formula_is_right"]),
    ("`code`", ["code_answers", "code_is_good", "code_is_lean"]),
    ("`c`", ["c_answers", "c_is_good", "c_is_lean"]),
    ("`cert`", ["cert_answers", "cert_is_right"]),
    ("`check`", ["check_answers", "check_is_right"]),
    ("`run`", ["run_answers", "run_is_right"]),
    ("`trace`", ["trace_answers", "trace_is_good", "trace_is_lean", "trace_gives_results"]),
    ("`sample`", ["sample_answers", "sample_is_right"]),
    ("`compile`", ["compile_answers", "compile_is_good"]),
    ("`apply`", ["apply_answers", "apply_is_right"]),
    ("`exec`", ["exec_answers", "exec_is_right"]),
    ("`convolve`", ["convolve_answers", "convolve_is_right"]),
    ("`convolve --code`", ["convolver_answers", "convolver_is_good"]),
    ("all commands, programs by what they do", ["one_generator"]),
    ("`code`, statement by statement", ["code_letters", "code_is_right"]),
    ("`c`, statement by statement", ["c_letters", "c_is_right"]),
    ("`trace`, statement by statement", ["trace_letters", "trace_is_right"]),
    ("`compile`, statement by statement", ["compile_letters", "compile_is_right"]),
    ("`convolve --code`, statement by statement", ["convolver_letters", "convolver_is_right"]),
    ("all commands at once", ["calls_have_one_status"]),
]
# The calls that the two programs make, whose clauses have all this.
PROGRAMS = [("the program `spiral`", "spiral_main", "spiral_run"), ("the program `spiral-fast`", "fast_main", "fast_run")]
LINK = {"Outcome.IsOutcome", "Outcome.AccountsFor"}
# The clauses `right` and `formulas` of `spiral_run`.
THEOREM = [("spiral_main", "Theorem", "IsRightRun"), ("spiral_main", "FormulaTheorem", "IsRightFormulaRun")]
# The modules that a crate passes on by `pub use` in specs/Lib.antt or in the file of a folder, and where they stand.
PASSED_ON = {}

WORD = re.compile(r"[^\s(){}\[\].,;:λ→×⊎]+")
USE = re.compile(r"^\s*(?:pub )?(?:ghost )?use Rattle\.(\w+)\.specs\.([\w.]+?)(?:\.\{([^}]*)\}| as (\w+))?;?\s*$", re.M)
START = re.compile(r"^(?:(?:abbrev|pub|unfoldable|opaque|record|data) )*([^\s({]+)(?: .*)? ?:(?: |$)")
IS_MODIFIED = re.compile(r"^(?:abbrev|pub|unfoldable|opaque|record|data) ")


def imports(text):
    """The names that a file brings in, and the modules that it names."""
    names, modules = {}, {}
    for crate, module, listed, other in USE.findall(text):
        if crate == "std":
            continue
        for item in filter(None, (i.strip() for i in listed.split(","))):
            old, _, new = item.partition(" as ")
            names[new or old] = (crate, module, old)
        if not listed:
            modules[other or module.split(".")[-1]] = (crate, module)
    return names, modules


def read(path, home, definitions, brought):
    """The definitions of a file, each with its lines. The constructors of a type stand for the type."""
    text = open(path).read()
    brought[home] = imports(text)
    name, mutual = None, False
    for line in text.split("\n"):
        bare = line[2:] if mutual and line.startswith("  ") else line
        if not bare.strip() or bare.lstrip().startswith("--") or re.match(r"\s*(pub )?(use|mod) ", bare):
            continue
        if not line.startswith(" "):
            mutual = bool(re.match(r"(abbrev )?(pub )?mutual", line))
        start = START.match(bare)
        if start and not bare.startswith(" ") and (IS_MODIFIED.match(bare) or bare.split()[0] != name) and not mutual_head(bare):
            name = start.group(1)
            definitions[home + (name,)] = []
        if name:
            definitions[home + (name,)].append(line)
            if bare.startswith(" ") and definitions[home + (name,)][0].lstrip().startswith(("pub data", "data")):
                for former in bare.split(":")[0].split():
                    definitions.setdefault(home + (former,), definitions[home + (name,)])


def mutual_head(line):
    return bool(re.match(r"(abbrev )?(pub )?mutual", line)) or line.startswith("infix")


def is_former(key, definitions):
    """Whether an imported name is a constructor: of a type in specs/, or of a type of the code."""
    return key is not None and ("declared" in key[1] or (key in definitions and definitions[key][0].lstrip().startswith(("pub data", "data"))))


def cited(lines, home, definitions, brought):
    """What the lines of a definition cite."""
    names, modules = brought[home]
    text = "\n".join(re.sub(r"--.*", "", line) for line in lines)
    bound = {w for w in re.findall(r"\w+", " ".join(line.split(" = ")[0] for line in text.split("\n") if " = " in line and ":" not in line.split(" = ")[0]))
             if not is_former(home + (w,), definitions) and not is_former(names.get(w), definitions)}
    bound |= {w for listed in re.findall(r"λ ([\w ]+)\.", text) for w in listed.split()}
    words = [w for w in WORD.findall(text) if w not in bound] + (["◌>>=◌"] if re.search(r"\bdo\b", text) else [])
    for left, right in re.findall(r"(\w+)\.([^\s(){}\[\].,;:λ→×⊎]+)", text):
        if left in modules:
            yield modules[left] + (right,)
    for word in words:
        for spelling in (word, "◌" + word + "◌", "◌" + word):
            if home + (spelling,) in definitions:
                yield home + (spelling,)
            elif spelling in names:
                yield names[spelling]


def cone(roots, cut, definitions, brought):
    seen, types, waiting = {}, set(), list(roots)
    while waiting:
        key = waiting.pop()
        key = home_of(key)
        if "declared" in key[1]:
            types.add(key[1].split("declared.")[1].split(".TheVariants")[0])
        elif key in definitions and id(definitions[key]) not in seen and ".".join(key[1:]) not in cut:
            seen[id(definitions[key])] = key
            waiting += cited(definitions[key], key[:2], definitions, brought)
        elif key not in definitions and key[:2] in brought and key[2] in brought[key[:2]][0]:
            waiting.append(brought[key[:2]][0][key[2]])
    return list(seen.values()), types


def home_of(key):
    """The key of a definition where it stands, of one by a module that a crate passes on, or by a folder with that module."""
    crate, module, name = key
    front, back = module, ""
    while front:
        if (crate, front) in PASSED_ON:
            crate, module = PASSED_ON[(crate, front)]
            front, back = module + back, ""
            module = front
        else:
            front, _, last = front.rpartition(".")
            back = f".{last}{back}"
    return crate, module, name


def all_definitions():
    definitions, brought = {}, {}
    for path in sorted(glob.glob("crates/*/specs/**/*.antt", recursive=True)):
        parts = path[:-5].split("/")
        front = "" if parts[3:] == ["Lib"] else ".".join(parts[3:]) + "."
        passed = "\n".join(re.findall(r"^pub use .*$", open(path).read(), re.M))
        PASSED_ON.update({(parts[1], front + name): home for name, home in imports(passed)[1].items()})
        read(path, (parts[1], ".".join(parts[3:])), definitions, brought)
    return definitions, brought


def counts(crate, functions, cut, definitions, brought):
    """The cone of each of these functions of a crate: the keys of its definitions and the types of the code."""
    found = {}
    for path in sorted(glob.glob(f"crates/{crate}/src/**/*.rt", recursive=True)):
        text = open(path).read()
        for function in functions:
            head = re.search(rf"pub fn {function}\b.*?\n\{{", text, re.S)
            if head:
                brought[(crate, "")] = imports(text)
                found[function] = cone(cited([head.group(0)], (crate, ""), definitions, brought), cut, definitions, brought)
    return found


def size_of(keys, definitions):
    return f"{sum(len(definitions[key]) for key in keys):,}"


def table_of_commands(definitions, brought):
    def lines(crate, function, cut):
        return size_of(counts(crate, [function], cut, definitions, brought)[function][0], definitions)

    rows = ["| | law or clause | lines to read | with nothing unopened |", "| --- | --- | --- | --- |"]
    theorem = size_of(cone(THEOREM, set(), definitions, brought)[0], definitions)
    rows.append(f"| the theorem | `right` and `formulas` of `spiral_run` | {theorem} | {theorem} |")
    for command, laws in COMMANDS:
        for law in laws:
            linked = "" if law == "calls_have_one_status" else lines("spiral_main", law, LINK)
            rows.append(f"| {command} | `{law}` | {linked} | {lines('spiral_main', law, set())} |")
    for program, crate, call in PROGRAMS:
        rows.append(f"| {program} | all clauses of `{call}` | | {lines(crate, call, set())} |")
    return rows


def table_of_definitions(definitions, brought):
    """Of each crate the files that the theorem opens, those that all clauses of `spiral_run` open besides, those of `fast_run`, and how many
    files the crate has."""
    opened = [cone(THEOREM, set(), definitions, brought)[0]]
    opened += [counts(crate, [call], set(), definitions, brought)[call][0] for _, crate, call in PROGRAMS]
    files = [{key[:2] for key in keys} for keys in opened]
    first = [files[0], files[1] - files[0], files[2] - files[1] - files[0]]
    rows = ["| crate | the theorem | all of `spiral_run` | `fast_run` | files |", "| --- | --- | --- | --- | --- |"]
    for crate in crates_in_order():
        own = [module for home, module in sorted({key[:2] for key in definitions}) if home == crate]
        cells = [", ".join(module.replace(".", "/") for module in own if (crate, module) in some) for some in first]
        if own:
            rows.append(f"| {crate} | {' | '.join(cells)} | {len(own)} |")
    return rows + [f"| all | {' | '.join(f'{len(some)} files' for some in first)} | {len({key[:2] for key in definitions})} |"]


def crates_in_order():
    return [line.split(":")[0].split()[0] for line in open("crates.txt") if line.strip() and not line.startswith("#")]


def page(write):
    text = was = PAGE.read_text()
    definitions, brought = all_definitions()
    for name, table in (("commands", table_of_commands), ("definitions", table_of_definitions)):
        begin, end = (mark.format(name) for mark in MARKS)
        before, rest = text.split(begin)
        _, after = rest.split(end)
        text = "\n".join([before + begin, "", *table(definitions, brought), "", end + after])
    if write:
        PAGE.write_text(text)
    elif text != was:
        sys.exit("docs/PROVED.md: a table is not what checks/cone.py counts; checks/cone.py --write mends it")


def main(crate, functions, cut, whole):
    definitions, brought = all_definitions()
    for function, (keys, types) in counts(crate, functions, cut, definitions, brought).items():
        lines = sum(len(definitions[key]) for key in keys)
        print(f"{function}: {lines} lines, {len(keys)} definitions, {len(types)} types of the code")
        count = collections.Counter()
        for key in keys:
            count[key[0]] += len(definitions[key])
        if whole:
            print("   " + ", ".join(f"{name} {size}" for name, size in count.most_common()))
            for key in sorted(keys):
                print(f"      {len(definitions[key]):3} {'.'.join(key)}")


if __name__ == "__main__":
    os.chdir(TOP)
    words = [w for w in sys.argv[1:] if w not in ("--all", "--write")]
    at = words.index("--cut") if "--cut" in words else len(words)
    if words:
        main(words[0], words[1:at], set(words[at + 1:]), "--all" in sys.argv)
    else:
        page("--write" in sys.argv)
