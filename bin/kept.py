#!/usr/bin/env python3
"""What `rt ci` has kept on this machine: gives the crates of a clone the libraries that were proved of the same text, so that `rt check`
in the clone builds none of them again. By itself `rt ci` alone takes what it kept; a check takes only what another check left.

    bin/kept.py [CLONE]

It prints which libraries were given, and which are not there. A library that the clone's own checks have built stays. No verdict rests on
it: `rt ci` reads nothing that this writes. bin/build takes the programs from the same place.
"""

import hashlib
import importlib.machinery
import importlib.util
import json
import os
import shutil
import sys


def rt_module():
    """The program rt as a module, from where it stands."""
    path = os.path.realpath(shutil.which("rt"))
    sys.path.insert(0, os.path.dirname(path))
    loader = importlib.machinery.SourceFileLoader("rt_program", path)
    module = importlib.util.module_from_spec(importlib.util.spec_from_loader("rt_program", loader))
    loader.exec_module(module)
    return module


def give_library(rt, kept, crate, known):
    """Whether the crate has its library now, given those of the crates below."""
    rlib = f"{crate.folder}/out/rlib"
    is_given = os.path.isfile(f"{rlib}/seeded")
    if crate.is_built() and not is_given:
        return False
    if any(below.name not in known for below in crate.below()):
        return False
    if not crate.is_built():
        key = kept.key(crate)
        if not os.path.isdir(kept.place(crate, False, key)):
            return False
        shutil.rmtree(rlib, ignore_errors=True)
        if not kept.give(crate, False, key):
            return False
        for name, text in (("seeded", ""), ("stamp", rt.rtlib.Crate.stamp(crate))):
            with open(f"{rlib}/{name}", "w", encoding="utf-8") as file:
                file.write(text)
    kept.is_built(crate)
    return True


def give_libraries(rt, crates):
    """Gives the crates, which stand lowest first, their libraries; gives what is kept, and the names of those that have theirs."""
    kept, known = rt.Kept(crates), set()
    for crate in crates:
        if not crate.is_program and give_library(rt, kept, crate, known):
            known.add(crate.name)
    return kept, known


def made_of(kept, crate):
    """Where it is kept what rt ci made of the crate, with the names and sums of the files. Those below have been asked for before."""
    place = kept.place(crate, False, kept.key(crate))
    with open(f"{place}/made.json", encoding="utf-8") as file:
        files = [tuple(it) for it in json.load(file)["files"]]
    kept.rlibs[crate.name] = hashlib.sha256(repr(files).encode()).hexdigest()
    return place, files


def give_program(rt, crates, program, when):
    """Puts the program where rt ci leaves it, as if it had been made at that time. Whether it is kept."""
    kept = rt.Kept(crates)
    try:
        place, files = [made_of(kept, crate) for crate in [*program.below(), program]][-1]
        os.makedirs(f"{program.folder}/out", exist_ok=True)
        for number, (name, sum) in enumerate(files):
            new = f"{program.folder}/out/{name}.new"
            shutil.copyfile(f"{place}/{number}", new)
            if rt.rtlib.sum_of(new) != sum:
                return False
            os.chmod(new, 0o755)
            os.utime(new, (when, when))
            os.replace(new, new.removesuffix(".new"))
    except OSError:
        return False
    return True


def crates_in(rt, top):
    os.chdir(top)
    rt.Crate.allowed = rt.handles_of(top)
    return rt.crates_of(top)


def main():
    rt = rt_module()
    crates = crates_in(rt, os.path.abspath(sys.argv[1] if len(sys.argv) > 1 else "."))
    _, known = give_libraries(rt, crates)
    lacking = [crate.name for crate in crates if crate.name not in known and not crate.is_program]
    print(f"{len(known)} given: {' '.join(sorted(known))}")
    print(f"{len(lacking)} lacking: {' '.join(lacking)}")


if __name__ == "__main__":
    main()
