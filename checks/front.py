#!/usr/bin/env python3
"""Compares each function of a fast text's front, and that of its products, with its definition.

    front.py

The functions splat, load, store, add, sub, neg, mul, reduced, times and tile come from texts that spiral-fast writes of
small listings: for words of 16, 32, 52 and 64 bits, for 1, 2, 3, 4, 8 and 16 lanes, and with rough and exact high halves. GCC and
Clang compile each text at -O0 and -O3, with each instruction set that the machine has, and GCC for AArch64 where it and
qemu-aarch64 are there. The words are corners and many others.
"""

import os
import random
import shutil
import struct
import subprocess
import sys
import tempfile
from concurrent.futures import ThreadPoolExecutor
from itertools import product

HERE = os.path.dirname(os.path.abspath(__file__))
FAST = f"{HERE}/../bin/spiral-fast"
LANES = (1, 2, 3, 4, 8, 16)
BLOCK = 480  # words for each amount: a multiple of all these lanes
ROUGH = "#define ROUGH 1\n", "#define ROUGH 0\n"
FUNCTIONS = ("splat", "load and store", "add", "sub", "neg", "mul", "reduced", "times", "tile")

# Each with what runs its programs.
COMPILERS = {"gcc": (), "clang": (), "aarch64-linux-gnu-gcc": ("qemu-aarch64", "-L", "/usr/aarch64-linux-gnu")}

AVX512 = ("-mavx512f", "-mavx512dq", "-mavx512vl", "-mavx512bw")
SETS = {  # of instructions: what the machine has to have, and the compiler's flags
    "plain": ((), ()),
    "SSE4.1": (("sse4_1",), ("-msse4.1",)),
    "AVX2": (("avx2",), ("-mavx2",)),
    "AVX-IFMA": (("avx2", "avx_ifma"), ("-mavx2", "-mavxifma")),
    "AVX-512F": (("avx512f",), ("-mavx512f",)),
    "AVX-512": (("avx512f", "avx512dq", "avx512vl", "avx512bw"), AVX512),
    "IFMA": (("avx512f", "avx512dq", "avx512vl", "avx512bw", "avx512ifma"), (*AVX512, "-mavx512ifma")),
}


class Width:
    """Words of some bits: what products and what sums wrap at, and the definitions of the functions on one lane."""

    def __init__(self, bits, rough, moduli, sets):
        self.bits, self.rough, self.moduli, self.sets = bits, rough, moduli, sets
        self.half, self.base, self.sums = 1 << bits // 2, 1 << bits, 1 << (bits if bits <= 32 else 64)

    def __str__(self):
        return f"words of {self.bits} bits{', rough' if self.rough else ''}"

    def high(self, a, b):
        (a1, a0), (b1, b0) = divmod(a, self.half), divmod(b, self.half)
        if self.rough:
            return a1 * b1 + a1 * b0 // self.half + a0 * b1 // self.half
        return a * b // self.base

    def mul(self, m, a, c, q):
        return (a * c - self.high(a % self.base, q) * m) % self.base

    def sub(self, a, b, k):
        return (a + k - b) % self.sums

    def reduced(self, a, k):
        return min(a, (a - k) % self.sums)


WIDTHS = (
    Width(16, False, (32767, 12289, 3), ("plain", "SSE4.1", "AVX2", "AVX-512F", "AVX-512")),
    Width(32, False, (2147389441, 3), ("plain", "SSE4.1", "AVX2", "AVX-512F", "AVX-512")),
    Width(52, False, (2251799813685247, 3), ("plain", "AVX2", "AVX-IFMA", "AVX-512F", "AVX-512", "IFMA")),
    Width(64, True, (4611686018427387903, 1152921504577486849), ("plain", "AVX2", "AVX-512F", "AVX-512")),
    Width(64, False, (4611686018427387903,), ("plain", "AVX-512")),
)

PROGRAM = r"""
#include <stdio.h>
#include <stdlib.h>
#include TEXT
static word a[N], b[N], c[N], q[N], lower[N], x[N], y[N], out[N];
static void take(word *to) {
    static uint64_t whole[N];
    if (fread(whole, sizeof *whole, N, stdin) != N)
        _Exit(1);
    for (int i = 0; i < N; i++)
        to[i] = (word)whole[i];
}
static void give(void) {
    static uint64_t whole[N];
    for (int i = 0; i < N; i++)
        whole[i] = out[i];
    fwrite(whole, sizeof *whole, N, stdout);
}
/* What is stored at a place that no register begins at, and whether the words beside it are left. */
static void copied(word *to, const word *from) {
    word place[V + 2];
    place[0] = place[V + 1] = 77;
    store(place + 1, load(from));
    for (int l = 0; l < V; l++)
        to[l] = place[0] == 77 && place[V + 1] == 77 ? place[1 + l] : ~from[l];
}
static void spread(void) {
    for (int i = 0; i < N; i++) {
        word place[V];
        store(place, splat(a[i]));
        out[i] = place[i % V];
    }
}
static void turned(void) {
    for (int i = 0; i < N; i++)
        out[i] = 0;
    for (int i = 0; i + V * V <= N; i += V * V) {
        vec rows[V];
        for (int l = 0; l < V; l++)
            rows[l] = load(a + i + V * l);
        tile(rows);
        for (int l = 0; l < V; l++)
            store(out + i + V * l, rows[l]);
    }
}
#define EACH_VECTOR(from, to, e) for (int i = from; i < to; i += V) store(out + i, e)
int main(void) {
    take(a), take(b), take(c), take(q), take(lower), take(x), take(y);
    spread(), give();
    for (int i = 0; i < N; i += V)
        copied(out + i, a + i);
    give();
    EACH_VECTOR(0, N, add(load(a + i), load(b + i)));
    give();
    SUB
    give();
    NEG
    give();
    EACH_VECTOR(0, N, mul(load(a + i), load(c + i), load(q + i)));
    give();
    REDUCED
    give();
    EACH_VECTOR(0, N, times(load(x + i), load(y + i)));
    give();
    turned(), give();
}
"""


def amounts(width, modulus):
    """Multiples of the modulus as reductions have them, and corners."""
    limit = min(16, (width.base - 1) // modulus)
    middle = width.sums // 2
    return [*(h * modulus for h in range(1, (limit + 1) // 2 + 1)), middle - 1, middle, middle + 1, 1, width.sums - 1]


def corners(width, modulus):
    near = [1 << 8, 1 << 16, 1 << 26, 1 << 32, 1 << 52, width.sums // 2, width.sums, modulus, 2 * modulus]
    return sorted({(word + d) % width.sums for word in near for d in (-1, 0, 1)})


def mixed(rng, special, limit, count):
    """Words below the limit: of the special ones, of any size, and at random."""
    special = [word for word in special if word < limit]
    ways = (lambda: rng.choice(special), lambda: rng.randrange(limit) >> rng.randrange(64), lambda: rng.randrange(limit))
    return [ways[k % 3 if special else 2]() for k in (rng.randrange(3) for _ in range(count))]


class Case:
    """The words for a modulus, and what each function makes of them."""

    def __init__(self, width, modulus):
        rng = random.Random(width.bits + modulus)
        self.width, self.modulus, self.amounts = width, modulus, amounts(width, modulus)
        special = corners(width, modulus)
        self.count = count = BLOCK * len(self.amounts)
        pairs = list(product(special, special))[:count]
        self.a, self.b = ([pair[k] for pair in pairs] + mixed(rng, special, width.sums, count - len(pairs)) for k in (0, 1))
        # factors with their quotients, and pairs of any words
        self.c = mixed(rng, special, modulus, count // 2) + mixed(rng, special, width.base, count - count // 2)
        rng.shuffle(self.c)
        self.q = [c * width.base // modulus if c < modulus else word
                  for c, word in zip(self.c, mixed(rng, special, width.base, count))]
        self.lower = [word for k in self.amounts
                      for word in mixed(rng, [k - 1, k, *special], min(2 * k, width.sums), BLOCK)]
        # residues to multiply
        self.x, self.y = (mixed(rng, [0, 1, modulus - 1, *special], modulus, count) for _ in range(2))

    def words(self):
        return b"".join(packed(words) for words in (self.a, self.b, self.c, self.q, self.lower, self.x, self.y))

    def wanted(self):
        """The results of all functions but the last one."""
        width, each = self.width, [k for k in self.amounts for _ in range(BLOCK)]
        return [
            self.a,
            self.a,
            [(a + b) % width.sums for a, b in zip(self.a, self.b)],
            [width.sub(a, b, k) for a, b, k in zip(self.a, self.b, each)],
            [width.sub(0, a, k) for a, k in zip(self.a, each)],
            [width.mul(self.modulus, a, c, q) for a, c, q in zip(self.a, self.c, self.q)],
            [width.reduced(a, k) for a, k in zip(self.lower, each)],
            [x * y % self.modulus for x, y in zip(self.x, self.y)],
        ]

    def turned(self, lanes):
        result = []
        for i in range(0, self.count - lanes * lanes + 1, lanes * lanes):
            result += [self.a[i + lanes * l + k] for k in range(lanes) for l in range(lanes)]
        return result + [0] * (self.count - len(result))

    def program(self):
        def by_amount(expression):
            return "\n".join(f"EACH_VECTOR({BLOCK * i}, {BLOCK * (i + 1)}, {expression.replace('K', f'{k}ULL')});"
                             for i, k in enumerate(self.amounts))
        return (PROGRAM.replace("SUB", by_amount("sub(load(a + i), load(b + i), K)"))
                .replace("NEG", by_amount("neg(load(a + i), K)"))
                .replace("REDUCED", by_amount("reduced(load(lower + i), K)")))


def packed(words):
    return struct.pack(f"<{len(words)}Q", *words)


def text_of(width, modulus, lanes):
    """The text of products of the vectors of a listing of one copy. High halves are rough or not, as the width says."""
    listing = f"program size {lanes} mod {modulus} procs 1 line 1 lanes {lanes} regs 1\nphase\nld r0 X[0]\nst Y[0] r0\nend\n"
    done = subprocess.run([FAST, "--words", str(width.bits), "--name", "f", "--times"], input=listing, capture_output=True, text=True)
    if done.returncode != 0 or not any(line in done.stdout for line in ROUGH):
        sys.exit(f"front.py: no text of {lanes} lanes modulo {modulus}: {done.stderr}")
    return done.stdout.replace(ROUGH[width.rough], ROUGH[1 - width.rough])


def machine_has():
    try:
        with open("/proc/cpuinfo") as lines:
            return {word for line in lines if line.startswith("flags") for word in line.split()}
    except OSError:
        return set()


def takes(compiler, flags):
    done = subprocess.run([compiler, *flags, "-xc", "-fsyntax-only", "-"], input="", capture_output=True, text=True)
    return done.returncode == 0


def compilers():
    """Each compiler with the instruction sets that it and the machine have."""
    here = [name for name, runner in COMPILERS.items() if all(map(shutil.which, (name, *runner[:1])))]
    has = machine_has()
    sets = {name: flags for name, (needs, flags) in SETS.items() if set(needs) <= has}
    found = [(name, way, sets[way]) for name in here for way in sets if takes(name, sets[way])]
    for name in set(COMPILERS) - set(here):
        print(f"skipped: {name} is not here, or nothing that runs its programs")
    for way in set(SETS) - {way for _, way, _ in found}:
        print(f"skipped: {way} is not here")
    return found


def difference(case, lanes, got, wanted):
    """Which function differs first, and at which word."""
    if len(got) != len(wanted):
        return "no results"
    place = next(k for k in range(0, len(got), 8) if got[k : k + 8] != wanted[k : k + 8]) // 8
    name, at = FUNCTIONS[place // case.count], place % case.count
    values = [int.from_bytes(words[8 * place : 8 * place + 8], "little") for words in (got, wanted)]
    given = f"a {case.a[at]} b {case.b[at]} c {case.c[at]} q {case.q[at]} lower {case.lower[at]} x {case.x[at]} y {case.y[at]}"
    return f"{name} at {at}, amount {case.amounts[at // BLOCK]}, {given}: {values[0]}, not {values[1]}"


def tried(folder, case, lanes, words, wanted, compiler, flags):
    """What is wrong, or none."""
    path = f"{folder}/{case.width.bits}{case.width.rough}_{case.modulus}"
    program = tempfile.mktemp(dir=folder)
    build = [compiler, "-std=gnu11", "-Wall", "-Wextra", "-Werror", "-Wno-psabi", *flags, f"-DN={case.count}",
             f'-DTEXT="{path}_{lanes}.c"', f"{path}.c", "-o", program]
    done = subprocess.run(build, capture_output=True, text=True)
    if done.returncode != 0:
        return done.stderr
    got = subprocess.run([*COMPILERS[compiler], program], input=words, capture_output=True).stdout
    os.remove(program)
    return None if got == wanted else difference(case, lanes, got, wanted)


def written(folder, case):
    """Writes the program and its texts; gives the words, and what is wanted of them for each number of lanes."""
    path = f"{folder}/{case.width.bits}{case.width.rough}_{case.modulus}"
    with open(f"{path}.c", "w") as file:
        file.write(case.program())
    for lanes in LANES:
        with open(f"{path}_{lanes}.c", "w") as file:
            file.write(text_of(case.width, case.modulus, lanes))
    most = b"".join(map(packed, case.wanted()))
    return case.words(), {lanes: most + packed(case.turned(lanes)) for lanes in LANES}


def trials(folder):
    """Each trial with its name: all at -O3, and the first modulus at -O0 too."""
    ways = compilers()
    for width in WIDTHS:
        for number, modulus in enumerate(width.moduli):
            case = Case(width, modulus)
            words, wanted = written(folder, case)
            for lanes, (compiler, name, flags), level in product(LANES, ways, ("-O3", "-O0")):
                if name in width.sets and (level == "-O3" or number == 0):
                    title = f"{width}, {lanes} lanes, modulus {modulus}, {compiler} {level} {name}"
                    yield title, (folder, case, lanes, words, wanted[lanes], compiler, (level, *flags))


def main():
    if len(sys.argv) > 1:
        sys.exit(__doc__)
    wrong = 0
    with tempfile.TemporaryDirectory() as folder, ThreadPoolExecutor(os.cpu_count()) as pool:
        said = [(title, pool.submit(tried, *words)) for title, words in trials(folder)]
        for title, trial in said:
            if trial.result():
                wrong += 1
                print(f"differs: {title}: {trial.result()}")
    print(f"fronts of fast texts: {len(said) - wrong} right, {wrong} wrong")
    sys.exit(wrong > 0 or not said)


if __name__ == "__main__":
    main()
