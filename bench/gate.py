#!/usr/bin/env python3
"""What the gate costs, on a machine where no proof is kept.

    bench/gate.py [NAME ..]              runs `rt ci` and checks/wrong_bodies.py, over all crates or over these and those below
    bench/gate.py --functions NAME ..    checks these crates, over libraries that `rt ci` has kept

The first looks twice a second at the prover's processes in /proc. It prints for each crate the processor seconds of its proof, of its tests'
proof and of its wrong bodies, what all took, and the longest chain of crates that wait for one another, in seconds as they went by. The
second prints the ten dearest functions of each crate, in processor seconds of a check from nothing.
"""

import os
import resource
import subprocess
import sys
import time
from collections import defaultdict
from pathlib import Path

TOP = Path(__file__).resolve().parent.parent
TICKS = os.sysconf("SC_CLK_TCK")
KINDS = ("proof", "tests", "wrong bodies")
DEAREST = 10

sys.path.insert(0, str(TOP / "bin"))
from kept import crates_in, give_libraries, rt_module  # noqa: E402


class Process:
    """A process as /proc shows it: its parent, its start and the seconds of it and of its ended children."""

    def __init__(self, number):
        fields = Path(f"/proc/{number}/stat").read_text().rpartition(")")[2].split()
        self.parent, self.start = fields[1], fields[19]
        self.seconds = sum(int(ticks) for ticks in fields[11:15]) / TICKS


class Prover(Process):
    """A process of the prover: its crate, and what it checks of it."""

    def __init__(self, number):
        words = Path(f"/proc/{number}/cmdline").read_text(errors="replace").split("\0")
        if not words[0].endswith("/rattle") or "--crate-name" not in words:
            raise ValueError
        super().__init__(number)
        self.crate = words[words.index("--crate-name") + 1]
        is_edited = "/rt-edit" in os.readlink(f"/proc/{number}/cwd")
        self.kind = "wrong bodies" if is_edited else "tests" if "--test" in words else "proof"


def provers_now():
    """By number, the prover's processes that run now."""
    found = {}
    for folder in Path("/proc").glob("[0-9]*"):
        try:
            found[folder.name] = Prover(folder.name)
        except (OSError, ValueError, IndexError):
            pass  # no prover, or a process that has ended meanwhile
    return found


def is_below(number, top):
    """Whether a process descends from another."""
    try:
        while number not in ("0", str(top)):
            number = Process(number).parent
    except OSError:
        return False
    return number == str(top)


class Seen:
    """The checks that were seen: crate, kind, processor seconds, first and last time."""

    def __init__(self):
        self.checks, self.ours = {}, {}

    def look(self):
        running, sums = provers_now(), defaultdict(float)
        for number, process in running.items():
            while running[number].parent in running:
                number = running[number].parent
            sums[number] += process.seconds
        for number, seconds in sums.items():
            process = running[number]
            name = number, process.start
            if self.ours.setdefault(name, is_below(number, os.getpid())):
                known = self.checks.setdefault(name, [process.crate, process.kind, 0, time.time(), 0])
                known[2], known[4] = max(known[2], seconds), time.time()

    def sums(self):
        """For each crate the seconds by kind, and the seconds that its proof took as they went by."""
        spent, took = defaultdict(lambda: dict.fromkeys(KINDS, 0)), defaultdict(float)
        for crate, kind, seconds, first, last in self.checks.values():
            spent[crate][kind] += seconds
            if kind == "proof":
                took[crate] += last - first
        return spent, took


def longest_chain(took):
    """The crates of the chain whose proofs took longest, one after the other."""
    graph = {}
    for line in (TOP / "crates.txt").read_text().splitlines():
        name, colon, below = line.partition("#")[0].partition(":")
        if colon:
            graph[name.split()[0]] = below.split()
    ways = {}

    def way(name):
        if name not in ways:
            below = max((way(it) for it in graph[name] if it in graph), default=(0, []))
            ways[name] = (below[0] + took[name], [*below[1], name])
        return ways[name]

    return max(way(name) for name in graph)


def watched(words, seen):
    run = subprocess.Popen(words, cwd=TOP, stdin=subprocess.DEVNULL)
    while run.poll() is None:
        seen.look()
        time.sleep(0.5)
    return run.returncode


def gate(names):
    seen, started = Seen(), time.time()
    status = watched(["rt", "ci", *names], seen) or watched(["checks/wrong_bodies.py", *names], seen)
    spent, took = seen.sums()
    print("| crate |", " | ".join(KINDS), "|\n|---|---|---|---|")
    for crate, kinds in sorted(spent.items(), key=lambda it: -sum(it[1].values())):
        print(f"| {crate} |", " | ".join(f"{kinds[kind]:.0f}" for kind in KINDS), "|")
    minutes = {kind: sum(kinds[kind] for kinds in spent.values()) / 60 for kind in KINDS}
    print("| processor minutes |", " | ".join(f"{minutes[kind]:.0f}" for kind in KINDS), "|")
    used, clock = resource.getrusage(resource.RUSAGE_CHILDREN), time.time() - started
    print(f"\nThe whole took {(used.ru_utime + used.ru_stime) / 60:.0f} processor minutes, {clock / 60:.0f} of the clock.")
    seconds, chain = longest_chain(took)
    print(f"The longest chain took {seconds:.0f} seconds: {', '.join(f'{name} {took[name]:.0f}' for name in chain)}.")
    return status


def functions(names):
    """Prints the dearest functions: the prover writes a line as it ends with each."""
    rt = rt_module()
    crates = crates_in(rt, str(TOP))
    give_libraries(rt, crates)
    for crate in crates:
        if crate.name not in names:
            continue
        words = [*rt.rtlib.guarded(), rt.rtlib.RATTLE, "check", *crate.words(["--jobs", "1", "--progress"], keeps=False)]
        how = {"cwd": crate.folder, "stdin": subprocess.DEVNULL, "stdout": subprocess.PIPE, "stderr": subprocess.STDOUT, "text": True}
        spent, before = {}, 0
        with subprocess.Popen(words, **how) as run:
            for line in run.stdout:
                if line.startswith("checked "):
                    now = Process(run.pid).seconds
                    spent[line.split()[1].rstrip(",")], before = now - before, now
        print(f"{crate.name}: {sum(spent.values()):.0f} processor seconds for {len(spent)} functions")
        for name, seconds in sorted(spent.items(), key=lambda it: -it[1])[:DEAREST]:
            print(f"  {seconds:6.1f} {name}")
    return 0


def main():
    is_of_functions = sys.argv[1:2] == ["--functions"]
    sys.exit(functions(sys.argv[2:]) if is_of_functions else gate(sys.argv[1:]))


if __name__ == "__main__":
    main()
