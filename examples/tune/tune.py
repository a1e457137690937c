#!/usr/bin/env python3
"""Finds by measuring which words of a request, options of `spiral-fast`, compiler and flags make the fastest function on this machine.

    tune.py [--keep FILE] [--anew] [--write [FOLDER/]NAME] [--quick] [--through COMMAND] REQUEST

    tune.py --write dft1024 'dft 1024 mod 12289 root 10302'
    tune.py --through 'examples/negacyclic/twist.py in 1753' 'dft 256 mod 8380417 root 3073009'

What the request itself says of lanes and unroll is kept. First each text is timed by one compiler, then the fastest ones by each compiler
and each set of flags, in turn, so that what else the machine does meets all of them. All have to leave the same results. The choice goes
into FILE (tuned.json), with the name of the processor; a later call for the same request answers from there, unless it says --anew. With
--write the function of the choice goes to NAME.c and NAME.h. --quick tries few candidates. --through names a command that rewrites listings.

Each line of a candidate has the least of its times in nanoseconds, and by how many percent the median is above that.
"""

import argparse
import itertools
import json
import os
import re
import shutil
import statistics
import subprocess
import sys
import tempfile
from concurrent.futures import ThreadPoolExecutor
from pathlib import Path

HERE = Path(__file__).resolve().parent
FUNCTION = HERE.parent / "function.sh"
# The programs of the path come first.
os.environ["PATH"] += f"{os.pathsep}{HERE.parent.parent / 'bin'}"

UNROLLS = (8, 16, 32)
LANES = (4, 8, 16)
# Moduli below this one have words of 52 bits, and below that one of 16.
BELOW_52, BELOW_16 = 1 << 51, 1 << 15
NATIVE = ("-O3", "-march=native")
# Clang orders instructions first by how many can go at once.
SCHEDULED = ("-mllvm", "-pre-RA-sched=list-ilp", "-mllvm", "-misched-topdown")
COMPILERS = [("clang", *NATIVE), ("clang", *NATIVE, *SCHEDULED), ("gcc", *NATIVE)]
FINALISTS, ROUNDS = 4, 15


class Candidate:
    """A request, the command that its listing goes through, options of `spiral-fast`, a compiler with flags; the times of what they make."""

    def __init__(self, request, through, options, compiler):
        self.request, self.through, self.options, self.compiler = request, through, options, compiler
        self.program, self.times, self.sums = None, [], set()

    def by(self, compiler):
        return Candidate(self.request, self.through, self.options, compiler)

    def make(self, folder):
        """Writes, compiles and links the function, where the request is not refused."""
        folder.mkdir()
        try:
            write_function(folder / "forward", self.request, self.through, self.options)
        except subprocess.CalledProcessError:
            return self
        word = re.search(r"void forward\((\w+)", (folder / "forward.h").read_text())[1]
        sources = [HERE / "time.c", folder / "forward.c"]
        words = [*self.compiler, "-w", f"-DWORD={word}", f"-I{folder}", *sources, "-o", folder / "forward"]
        if subprocess.run(words, capture_output=True).returncode == 0:
            self.program = folder / "forward"
        return self

    def run(self):
        time, results = subprocess.check_output([self.program], text=True).split()
        self.times.append(float(time))
        self.sums.add(results)

    def least(self):
        return min(self.times)

    def choice(self):
        return {"request": self.request, "options": self.options, "compiler": " ".join(self.compiler)}

    def __str__(self):
        spread = 100 * (statistics.median(self.times) / self.least() - 1)
        return f"{self.least():12.0f} ns  +{spread:.0f} %  {in_words(self.choice())}"


def in_words(choice):
    return f"{choice['request']} | spiral-fast {choice['options']} | {choice['compiler']}"


def write_function(place, request, through, options):
    """Writes the function's text and header."""
    quiet = {"stderr": subprocess.DEVNULL, "text": True, "check": True}
    listing = subprocess.run(["spiral", "code"], input=request + "\n", stdout=subprocess.PIPE, **quiet).stdout
    if through:
        listing = subprocess.run(through, shell=True, input=listing, stdout=subprocess.PIPE, **quiet).stdout
    subprocess.run([FUNCTION, place, *options.split()], input=listing, **quiet)


def texts(request, quick):
    """The requests and options that are tried."""
    said = request.split()
    modulus = int(said[said.index("mod") + 1])
    unrolls = [""] if "unroll" in said else [f" unroll {u}" for u in (UNROLLS[1:2] if quick else UNROLLS)]
    lanes = LANES[1:2] if quick else LANES
    asked = [("", "")] if "lanes" in said else [(f" lanes {v}", "") for v in lanes] + [("", f"--lanes {v}") for v in lanes]
    words = [""] + ["--words 52"] * (modulus < BELOW_52) + ["--words 16"] * (modulus < BELOW_16)
    for unroll, (lane, option), word in itertools.product(unrolls, asked, words):
        yield request + lane + unroll, f"{option} {word}".strip()


def made(candidates, folder, stage):
    """Those that can be made; they are made side by side."""
    with ThreadPoolExecutor(os.cpu_count()) as pool:
        places = [folder / f"{stage}{number}" for number in range(len(candidates))]
        return [it for it in pool.map(Candidate.make, candidates, places) if it.program]


def raced(candidates, rounds):
    """The candidates, the fastest first, after some rounds in which each runs in turn."""
    for _ in range(rounds):
        for candidate in candidates:
            candidate.run()
    if len(set().union(*(it.sums for it in candidates))) != 1:
        sys.exit("tune.py: two of these leave different results:\n" + "\n".join(map(str, candidates)))
    return sorted(candidates, key=Candidate.least)


def tuned(request, through, quick):
    compilers = [it for it in COMPILERS if shutil.which(it[0])]
    if not compilers:
        sys.exit("tune.py: neither clang nor gcc is in the path")
    with tempfile.TemporaryDirectory() as folder:
        first = [Candidate(words, through, options, compilers[0]) for words, options in texts(request, quick)]
        first = made(first, Path(folder), "text")
        if not first:
            sys.exit(f"tune.py: `spiral code` or `spiral-fast` refuses {request!r}, or no text of it compiles")
        best = raced(first, 3)[:FINALISTS]
        last = raced(made([it.by(how) for it in best for how in compilers], Path(folder), "last"), ROUNDS)
        for candidate in last:
            print(candidate)
        return last[0].choice()


def processor():
    named = re.search(r"model name\s*: (.*)", Path("/proc/cpuinfo").read_text())
    return named[1] if named else os.uname().machine


def parse_words():
    parser = argparse.ArgumentParser(description=__doc__, formatter_class=argparse.RawDescriptionHelpFormatter)
    parser.add_argument("--keep", type=Path, default=Path("tuned.json"), metavar="FILE", help="where choices are kept")
    parser.add_argument("--anew", action="store_true", help="measure, whatever is kept")
    parser.add_argument("--write", type=Path, metavar="NAME", help="write NAME.c and NAME.h by the choice")
    parser.add_argument("--quick", action="store_true", help="try few candidates")
    parser.add_argument("--through", default="", metavar="COMMAND", help="a command that rewrites each listing")
    parser.add_argument("request", help="the line that `spiral code` reads")
    words = parser.parse_args()
    if not re.search(r" mod \d+", words.request):
        parser.error("the request has no modulus")
    return words


def main():
    words = parse_words()
    kept = json.loads(words.keep.read_text()) if words.keep.exists() else {}
    choices = kept.setdefault(processor(), {})
    key = " | ".join(filter(None, (words.request, words.through)))
    if words.anew or key not in choices:
        choices[key] = tuned(words.request, words.through, words.quick)
        words.keep.write_text(json.dumps(kept, indent=2) + "\n")
    choice = choices[key]
    print(in_words(choice))
    if words.write:
        write_function(words.write, choice["request"], words.through, choice["options"])


if __name__ == "__main__":
    main()
