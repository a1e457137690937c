#!/usr/bin/env python3
"""Random listings, right ones and mutated ones, through `spiral-fast` with random options. It refuses what `exec` refuses, in the
same words, or a modulus or a store that its options do not allow; else its text is compiled, and leaves what `exec` leaves.

    checks/fast_strangers.py [--seed N] [--count N] [--minutes M]

A seed makes the same listings at each run. Without minutes there are so many cases; with them, as many as go into them. The
listings come from requests, from formulas and from a generator of loops; they are compiled by GCC and Clang, with and without
sanitizers, as arrays or as a function, which threads call by its phases, too.
"""

import argparse
import concurrent.futures
import os
import re
import subprocess
import sys
import tempfile
import time

TOP = os.path.dirname(os.path.dirname(os.path.abspath(__file__)))
os.environ["PATH"] = f"{TOP}/bin{os.pathsep}{os.environ['PATH']}"
sys.path.insert(0, f"{TOP}/checks/reference")

from formula_sweep import random_formulas
from listings import Lost, read_listing
from strangers import Checked, count, parts_of
from sweep import MOST_ACTIONS, Numbers, other_byte, other_lines, other_number

# By modulus: the greatest that words of 16 bits take, one more, and so on.
MODULI = (2, 3, 17, 257, 7681, 12289, 2**15 - 1, 2**15, 65537, 2**31 - 1, 2**31, 2**31 + 11, 2**32 + 15, 2**51 - 1, 2**51, 2**59 - 55, 2**62 - 1)
REQUESTS = (
    "dft 8 mod 17 root 9",
    "dft 12 mod 13 root 2",
    "dft 16 mod 2147389441 root 1536760447 lanes 4",
    "dft 16 mod 17 root 3 procs 2",
    "dft 16 mod 17 root 3 procs 2 line 2 lanes 2",
    "dft 36 mod 37 root 2 procs 3 line 2",
    "dft 64 mod 193 root 11 unroll 4",
    "dft 64 mod 193 root 11 procs 2 line 4 lanes 4 unroll 8",
    "idft 20 mod 41 root 36",
    "wht 32 mod 2251799813685247",
    "wht 64 mod 4611686018427387903 procs 2 line 4 lanes 2",
    "dft 6x4 mod 13 root 4x5 unroll 2",
)
COMPILERS = (
    ("gcc", "-O1"),
    ("gcc", "-O2", "-march=native"),
    ("clang", "-O1"),
    ("clang", "-O2", "-march=native"),
    ("gcc", "-O1", "-g", "-fsanitize=address,undefined", "-fno-sanitize-recover=all"),
    ("clang", "-O1", "-g", "-fsanitize=address,undefined", "-fno-sanitize-recover=all"),
    ("gcc", "-O1", "-g", "-fsanitize=thread"),
)
# GCC notes how long vectors are passed, and a listing of others may have a table that it does not use.
QUIET = ("-Wno-psabi", "-Wno-unused-const-variable")
CHECKED = (13, 18, 19, 20, 21, 22)
LONGEST = 20_000


def called(words, text):
    done = subprocess.run(words, input=text.encode(), capture_output=True, timeout=120)
    return done.returncode, done.stdout.decode(), done.stderr.decode()


class Loops:
    """Listings of one processor: phases of loops, one in the other, that load, compute and store at places within the arrays."""

    def __init__(self, numbers):
        self.numbers = numbers

    def listing(self):
        one_of, below = self.numbers.one_of, self.numbers.below
        self.lanes, self.size, self.modulus = one_of((1, 1, 1, 2, 4)), 16 + 8 * below(7), one_of(MODULI)
        self.registers = 3 + below(6) + (2 * self.lanes if self.lanes > 1 else 0)
        self.table = [below(self.modulus) for _ in range(self.size)]
        lines = [f"program size {self.size} mod {self.modulus} procs 1 line 1 lanes {self.lanes} regs {self.registers}"]
        lines += [f"table 0 values {' '.join(map(str, self.table))}"]
        for _ in range(1 + (below(3) == 0)):
            lines.append("phase")
            for _ in range(1 + below(3)):
                lines += self.nest([one_of((1, 2, 3, 4, 8)) for _ in range(below(4))])
            lines.append("end")
        return "\n".join(lines) + "\n"

    def nest(self, counts):
        head = [f"for v{depth} {count}" for depth, count in enumerate(counts)]
        return head + [self.statement(counts) for _ in range(2 + self.numbers.below(7))] + ["end"] * len(counts)

    def place(self, counts, width):
        """A place from which so many words on are in the array, whatever the loops' values."""
        room, parts = self.size - width, []
        for depth, count in enumerate(counts):
            factor = self.numbers.one_of((1, 2, self.lanes, 8, 4 * self.lanes))
            if self.numbers.below(4) and factor * (count - 1) <= room:
                room -= factor * (count - 1)
                parts.append(f"+v{depth}*{factor}")
        return f"[{self.numbers.below(room + 1)}{''.join(parts)}]"

    def statement(self, counts):
        below, one_of = self.numbers.below, self.numbers.one_of
        a, b, c = (below(self.registers) for _ in range(3))
        kind = below(12)
        if kind < 4:
            return f"ld r{a} {one_of('XXYAB')}{self.place(counts, self.lanes)}"
        if kind < 7:
            return f"st {one_of('YYABABX' if below(4) == 0 else 'YYAB')}{self.place(counts, self.lanes)} r{a}"
        if kind == 7:
            step = below(2)
            return f"mul r{a} r{b} t0{self.place(counts, 1 + step * (self.lanes - 1))} step {step}"
        if kind == 8:
            return one_of((f"mul r{a} r{b} {below(self.modulus)}", f"neg r{a} r{b}", f"zero r{a}"))
        if kind == 9 and self.lanes > 1:
            return f"tile r{below(2) * self.lanes} r{self.registers - self.lanes}"
        return f"{one_of(('add', 'sub'))} r{a} r{b} r{c}"


def mutated(numbers, listing):
    for _ in range(numbers.one_of((1, 1, 2))):
        if re.search("[0-9]", listing):
            listing = numbers.one_of([other_number] * 6 + [other_lines, other_byte])(numbers, listing)
    return listing


def listing_of(numbers):
    """A listing, and whether it is as the program wrote it."""
    kind = numbers.below(8)
    if kind < 3:
        return Loops(numbers).listing(), False
    if kind < 6:
        request = numbers.one_of(REQUESTS)
        return called(["spiral", "code"], request + "\n")[1], True
    formula, modulus = random_formulas(numbers, 1)[0], numbers.one_of(MODULI)
    return called(["spiral", "compile", "--mod", str(modulus)], formula)[1], True


def options_of(numbers):
    words = numbers.one_of(((), (), ("--words", "16"), ("--words", "32"), ("--words", "52"), ("--words", "64")))
    lanes = numbers.one_of(((), (), ("--lanes", "2"), ("--lanes", "4"), ("--lanes", "8"), ("--lanes", "16")))
    return words, lanes, bool(numbers.below(2))


def stores_into_input(statements):
    return any(stores_into_input(s[2]) if s[0] == "for" else s[:2] == ("st", "X") for s in statements)


def carries_registers(program):
    """Whether some processor reads a register in a phase after the first before it puts it there: in C it is 0 then."""
    lanes = program.request.lanes
    for lists in Checked(program).lists[1:]:
        for actions in lists:
            put = set()
            for word, *operands in actions:
                reads, puts = reads_and_puts(word, operands, lanes)
                if not reads <= put:
                    return True
                put |= puts
    return False


def reads_and_puts(word, operands, lanes):
    if word == "st":
        return {operands[1]}, set()
    if word == "tile":
        to, source = operands
        return set(range(source, source + lanes)), set(range(to, to + lanes))
    reads = {"ld": operands[:0], "mul": operands[1:2]}.get(word, operands[1:])
    return set(reads), {operands[0]}


def refusal(program, words, is_function):
    """Of a listing that passes the check: what `spiral-fast` says of it, if it refuses it."""
    bits = int(words[1]) if words else 64
    limit = 2 ** min(bits - 1, 62)
    if program.request.modulus >= limit:
        return 24, f"modulus of more than {bits}-bit words"
    for number, statements in enumerate(program.phases):
        if is_function and stores_into_input(statements):
            return 25, f"phase {number} stores into X, which is only read in a function"
    return None


class Case:
    def __init__(self, seed):
        numbers = Numbers(seed)
        self.listing, self.is_own = listing_of(numbers)
        if numbers.below(5) < 2:
            self.listing, self.is_own = mutated(numbers, self.listing), False
        self.words, self.lanes, self.is_function = options_of(numbers)
        self.compiler = numbers.one_of(COMPILERS)
        size = re.match(r"program size (\d+) ", self.listing)
        size = int(size[1]) if size and int(size[1]) < 5000 else 1
        # Y, A and B are 0 at the first vector of a process; a listing of others may load them.
        count = size * (3 if self.is_own else 1)
        data = [numbers.one_of((0, 1, numbers.next(), 2**64 - 1)) for _ in range(count)]
        self.given = f"{self.listing}\n{' '.join(map(str, data))}\n"
        self.data = data

    def program(self):
        try:
            return read_listing(parts_of(self.given.encode())[0])
        except Lost:
            return None

    def is_long(self):
        program = self.program()
        return program and LONGEST < program.request.procs * sum(map(count, program.phases)) <= MOST_ACTIONS

    def fast(self, *more):
        return called(["spiral-fast", *self.words, *self.lanes, *more], self.given)

    def answer(self):
        """What became of it: `right`, `refused` or `skipped`, or what is wrong."""
        if self.is_long():
            return "skipped"
        status, output, note = called(["spiral", "exec"], self.given)
        name = ("--name", "first") if self.is_function else ()
        told = self.fast(*name)
        wanted = (status, note.removeprefix("spiral: ")) if status in CHECKED else None
        if wanted is None:
            refused = refusal(self.program(), self.words, self.is_function)
            wanted = refused and (refused[0], refused[1] + "\n")
        if wanted:
            is_right = told == (wanted[0], "", f"spiral_fast: {wanted[1]}")
            return "refused" if is_right else f"wanted {wanted}, told {told[0]} {told[2]}"
        if told[0] != 0:
            return f"told {told[0]} {told[2]}"
        if status != 0 or carries_registers(self.program()):
            return "skipped"
        return self.compared(told[1], output)

    def compared(self, text, output):
        with tempfile.TemporaryDirectory() as folder:
            compile_words = self.compiled(folder, text)
            done = subprocess.run(compile_words, capture_output=True, text=True)
            if done.returncode != 0:
                return done.stderr[:2000]
            modulus = self.program().request.modulus
            got = called([f"{folder}/program"], " ".join(str(value % modulus) for value in self.data))
        return "right" if got == (0, output, "") else f"status {got[0]}, {got[1][:300]}{got[2][:1000]}wanted {output[:300]}"

    def compiled(self, folder, text):
        """The words that compile the text into a program of the folder."""
        if not self.is_function:
            self.write(f"{folder}/text.c", text)
            return [f"{TOP}/examples/compile.sh", f"{folder}/text.c", f"{folder}/program", *self.compiler, *QUIET]
        self.write(f"{folder}/first.c", text)
        self.write(f"{folder}/first.h", self.fast("--name", "first", "--header")[1])
        self.write(f"{folder}/second.c", called(["spiral-fast", "--name", "second"], self.given)[1])
        self.write(f"{folder}/second.h", called(["spiral-fast", "--name", "second", "--header"], self.given)[1])
        return [f"{TOP}/checks/compile_named.sh", folder, "first", "second", f"{folder}/program", *self.compiler, *QUIET]

    @staticmethod
    def write(path, text):
        with open(path, "w") as file:
            file.write(text)


def tried(seed):
    try:
        return seed, Case(seed).answer()
    except Exception as fault:
        return seed, f"{type(fault).__name__}: {fault}"


def seeds_of(options):
    """One seed for each case, until they are done or the time is over."""
    numbers, begun = Numbers(options.seed), time.monotonic()
    at = 0
    while at < options.count if options.minutes is None else time.monotonic() - begun < 60 * options.minutes:
        at += 1
        yield numbers.next()


def main():
    parser = argparse.ArgumentParser(description=__doc__, formatter_class=argparse.RawDescriptionHelpFormatter)
    parser.add_argument("--seed", type=int, default=5)
    parser.add_argument("--count", type=int, default=400)
    parser.add_argument("--minutes", type=float)
    options = parser.parse_args()
    counts, faults = {"right": 0, "refused": 0, "skipped": 0}, 0
    with concurrent.futures.ThreadPoolExecutor(os.cpu_count()) as pool:
        waiting, seeds = set(), seeds_of(options)
        more = True
        while more or waiting:
            while more and len(waiting) < 2 * os.cpu_count():
                seed = next(seeds, None)
                more = seed is not None
                waiting |= {pool.submit(tried, seed)} if more else set()
            done, waiting = concurrent.futures.wait(waiting, return_when=concurrent.futures.FIRST_COMPLETED)
            for seed, answer in (future.result() for future in done):
                if answer in counts:
                    counts[answer] += 1
                else:
                    faults += 1
                    print(f"fast_strangers: case {seed}: {answer}")
    told = ", ".join(f"{number} {answer}" for answer, number in counts.items())
    print(f"fast_strangers: {told}, {faults} failed")
    sys.exit(bool(faults) or counts["right"] == 0)


if __name__ == "__main__":
    main()
