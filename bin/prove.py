#!/usr/bin/env python3
"""Proves and builds a program and every crate that it stands on, by `rt ci NAME`: with all processors, and so that what is proved is kept on
this machine, for later builds and for the gate. Called by bin/build.

    prove.py NAME

How far it is stands on standard error. Where a crate is refused, what was said of it follows, and the status is 1.
"""

import os
import shutil
import subprocess
import sys
import threading
import time

from kept import crates_in, give_program, rt_module

TOP = os.path.dirname(os.path.dirname(os.path.realpath(__file__)))


class Progress:
    """Says how many crates are done, and which are being proved or come next: at each end of one, and else twice a minute."""

    def __init__(self, crates):
        self.below = {crate.name: {it.name for it in crate.below()} for crate in crates}
        self.done, self.begun = set(), time.monotonic()
        self.width = (os.get_terminal_size(2).columns or 80) if sys.stderr.isatty() else None
        self.over = threading.Event()
        threading.Thread(target=self.tick, daemon=True).start()

    def say(self):
        minutes, seconds = divmod(int(time.monotonic() - self.begun), 60)
        words = f"build: {minutes}:{seconds:02}, {len(self.done)} of {len(self.below)} crates done"
        ready = [name for name, below in self.below.items() if name not in self.done and below <= self.done]
        words += f", now {', '.join(ready)}" if ready else ""
        if self.width is None:
            print(words, file=sys.stderr, flush=True)
        else:
            print(f"\r\x1b[K{words[: self.width - 1]}", end="", file=sys.stderr, flush=True)

    def tick(self):
        self.say()
        while not self.over.wait(30):
            self.say()

    def read(self, line):
        """Takes note of a line by which rt says that a crate is done."""
        name, _, words = line.removeprefix("rt: ").partition(" ")
        if line.startswith("rt: ") and name in self.below and words.startswith(("proved", "is kept")):
            self.done.add(name)
            self.say()

    def close(self):
        self.over.set()
        if self.width is not None:
            print(file=sys.stderr)


def refusals(said):
    """Of what rt said, what it said of crates that are refused, and its last lines."""
    parts = "".join(said).split("\n== ")
    return "\n== ".join([it for it in parts[:-1] if " NOT PROVED" in it] + parts[-1:])


def prove(name, progress):
    """Proves all crates, or ends with what was said."""
    said = []
    how = {"cwd": TOP, "stdin": subprocess.DEVNULL, "stdout": subprocess.PIPE, "stderr": subprocess.STDOUT, "text": True}
    with subprocess.Popen(["rt", "ci", name], **how) as run:
        for line in run.stdout:
            said.append(line)
            progress.read(line)
    progress.close()
    if run.returncode != 0:
        sys.exit(f"{refusals(said)}build: rt ci {name} ended with status {run.returncode}")
    return said


def main():
    name = sys.argv[1]
    if not shutil.which("rt"):
        sys.exit("build: the kit's command rt is not in the path")
    begun, rt = time.time(), rt_module()
    crates = crates_in(rt, TOP)
    program = next((it for it in crates if it.name == name and it.is_program), None)
    if program is None:
        sys.exit(f"build: crates.txt has no program {name}")
    if rt.Kept([]).at is None:
        sys.exit(f"build: what is proved is kept in {rt.STORE}, which has to be a folder of your own: make it, or give it to yourself")
    if give_program(rt, crates, program, begun):
        return
    said = prove(name, Progress([*program.below(), program]))
    if not give_program(rt, crates, program, begun):
        sys.exit(f"build: {name} is proved, but was not kept:\n{refusals(said)}")


if __name__ == "__main__":
    main()
