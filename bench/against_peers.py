#!/usr/bin/env python3
"""Prints what transforms take as fast C text and as specified C text, beside NTL, FLINT's fft_small and a textbook transform, in one run:
nanoseconds, and the ratio to the first peer that is there. It judges nothing.

    bench/against_peers.py [SIZE ..]
    bench/against_peers.py --markdown [SIZE ..]     at the end also tables of ratios for docs/SPEED.md, with machine, day and compilers

A peer that is not installed is skipped with a word. Each time is the least of some rounds in which all programs of a row run in turn.
"""
import datetime
import os
import shutil
import subprocess
import sys
import tempfile

HERE = os.path.dirname(os.path.abspath(__file__))
SPIRAL, FAST = (subprocess.check_output([f"{HERE}/../bin/build", name], text=True).strip() for name in ("spiral", "spiral_fast"))
MARKDOWN = "--markdown" in sys.argv
SIZES = [int(size) for size in sys.argv[1:] if size != "--markdown"] or [64, 1024, 4096, 65536]
sys.path.insert(0, f"{HERE}/../examples")

from choose import roots_of  # noqa: E402

ROUNDS = 25
NATIVE = ["-O3", "-march=native"]
# How Clang orders instructions: first by how many can go side by side.
SCHEDULED = ["-mllvm", "-pre-RA-sched=list-ilp", "-mllvm", "-misched-topdown"]

# Below this modulus there are words of 52 bits.
NARROW = 1 << 51

# Each with its primes, which have roots of order 2^20, or none where it has no peers, and with the lanes and unroll of its
# fast text.
MODULI = [
    ("60-bit prime", (1152921504577486849,), 8, 16),
    ("50-bit prime", (1125899865948161,), 8, 16),
    ("31-bit prime", (2130706433,), 16, 16),
    ("composite", (65537, 786433), 8, 16),
]


def has_roots(size, primes):
    return all((prime - 1) % size == 0 for prime in primes)


def modulus_and_root(size, primes):
    """Roots of several primes are joined by the Chinese remainder theorem."""
    modulus, root, *_ = roots_of(size, primes[0])
    for prime in primes[1:]:
        other = roots_of(size, prime)[1]
        root += modulus * ((other - root) * pow(modulus, -1, prime) % prime)
        modulus *= prime
    return modulus, root


def output(words, text=""):
    done = subprocess.run(words, input=text, capture_output=True, text=True)
    if done.returncode != 0:
        raise SystemExit(f"{' '.join(words)}: {done.stderr.strip()}")
    return done.stdout


def flint_flags():
    """Where FLINT is: by pkg-config, or else where compilers look."""
    found = shutil.which("pkg-config") and subprocess.run(["pkg-config", "--cflags", "--libs", "flint"],
                                                          capture_output=True, text=True)
    return found.stdout.split() if found and found.returncode == 0 else ["-lflint"]


class Race:
    def __init__(self, folder):
        self.folder, self.entries, self.skipped = folder, [], set()
        # of each modulus a row for each size: the ratios of the texts by their names
        self.tables = {}

    def skip(self, word):
        if word not in self.skipped:
            self.skipped.add(word)
            print(f"skipped: {word}")

    def compiled(self, compiler, words):
        """The program that these words make, or none where compiler, headers or library are not there."""
        if not shutil.which(compiler):
            self.skip(f"{compiler} is not here")
            return None
        program = os.path.join(self.folder, f"program{len(self.entries)}")
        done = subprocess.run([word or program for word in words], capture_output=True, env={**os.environ, "DRIVER": f"{HERE}/race_text.c"})
        return program if done.returncode == 0 else None

    def text(self, name, compiler, text, *flags):
        source = os.path.join(self.folder, f"text{len(self.entries)}.c")
        with open(source, "w") as file:
            file.write(text)
        program = self.compiled(compiler, [f"{HERE}/../examples/compile.sh", source, None, compiler, "-w", *flags])
        if program:
            self.entries.append((name, [program]))

    def peer(self, name, compiler, source, flags, words):
        program = self.compiled(compiler, [compiler, "-w", f"{HERE}/{source}", "-o", None, *flags])
        if not program:
            self.skip(f"{name} is not here")
        elif subprocess.run([program, *words], capture_output=True).returncode == 0:
            self.entries.append((name, [program, *words]))

    def run(self, size, modulus):
        least = {}
        for _ in range(ROUNDS):
            for name, words in self.entries:
                least[name] = min(least.get(name, 1e300), float(output(words)))
        first = next((name for name, _ in self.entries if name in ("NTL", "textbook")), self.entries[0][0])
        print(f"{size}, {modulus}, as many times {first}'s {least[first]:.0f} ns:")
        for name, time in least.items():
            print(f"  {name}: {time:.0f} ns, {time / least[first]:.2f}")
        sys.stdout.flush()
        self.entries = []
        self.tables.setdefault((modulus, first), {})[size] = {name: time / least[first] for name, time in least.items() if name != first}

    def markdown(self):
        """The ratios as tables, each under a line with the machine, the compilers and the day."""
        with open("/proc/cpuinfo") as file:
            machine = next((line.split(":", 1)[1].strip() for line in file if line.startswith("model name")), "unknown")
        compilers = ", ".join(output([it, "--version"]).splitlines()[0] for it in ("clang", "gcc") if shutil.which(it))
        for (modulus, first), rows in self.tables.items():
            names = list(dict.fromkeys(name for row in rows.values() for name in row))
            print(f"\n{modulus}: {machine}; {compilers}; {datetime.date.today():%d %B %Y}; the least of {ROUNDS} runs; {first} takes 1.\n")
            print("\n".join([f"| points | {' | '.join(map(str, rows))} |", "|---" * (len(rows) + 1) + "|"]))
            for name in names:
                print(f"| {name} | {' | '.join(f'{row[name]:.2f}' if name in row else '' for row in rows.values())} |")


def fast_text(request, *words):
    return output([FAST, *words], output([SPIRAL, "code"], request + "\n"))


def by_clang(race, name, text):
    """The text for this machine, and for one with AVX2 alone: any such, one scheduled otherwise, and Zen 3."""
    race.text(f"fast, {name}, clang", "clang", text, *NATIVE)
    race.text(f"fast, {name}, clang, scheduled", "clang", text, *NATIVE, *SCHEDULED)
    race.text(f"fast, {name}, clang, AVX2", "clang", text, "-O3", "-mavx2")
    race.text(f"fast, {name}, clang, AVX2, scheduled", "clang", text, "-O3", "-mavx2", *SCHEDULED)
    race.text(f"fast, {name}, clang, AVX2, Zen 3", "clang", text, "-O3", "-march=znver3")


def raced(race, size, title, primes, lanes, unroll):
    modulus, root = modulus_and_root(size, primes)
    request = f"dft {size} mod {modulus} root {root}"
    words = [str(size), str(modulus), str(root)]
    if len(primes) == 1:
        race.peer("NTL", "g++", "race_ntl.cpp", ["-O2", "-lntl", "-lgmp", "-pthread"], words)
        race.peer("FLINT fft_small", "gcc", "race_flint.c", ["-O2", "-march=native", *flint_flags()], words)
    race.peer("textbook", "gcc", "race_textbook.c", ["-O3", "-march=native"], words)
    most = min(lanes, int(size**0.5))
    with_lanes = fast_text(f"{request} lanes {most} unroll {unroll}")
    by_clang(race, "lanes", with_lanes)
    race.text("fast, lanes, gcc", "gcc", with_lanes, *NATIVE)
    by_clang(race, "half the lanes", fast_text(f"{request} lanes {min(lanes // 2, most)} unroll {unroll}"))
    if modulus < NARROW:
        narrow = fast_text(f"{request} lanes {most} unroll {unroll}", "--words", "52")
        race.text("fast, words of 52 bits, clang", "clang", narrow, *NATIVE)
        race.text("fast, words of 52 bits, gcc", "gcc", narrow, *NATIVE)
    if size >= 4 * most * most:
        by_clang(race, "two in turn", fast_text(f"{request} procs 2 line {most} lanes {most} unroll {unroll}"))
    one = fast_text(f"{request} unroll {unroll}")
    race.text("fast, one lane, clang", "clang", one, *NATIVE)
    race.text("fast, one lane, gcc", "gcc", one, *NATIVE)
    for words in [[], ["--words", "52"]] if modulus < NARROW else [[]]:
        laned = fast_text(f"{request} unroll {unroll}", "--lanes", str(lanes), *words)
        race.text(f"fast, lanes from loops {' '.join(words)}, clang", "clang", laned, *NATIVE)
    race.text("specified, gcc", "gcc", output([SPIRAL, "c"], request + "\n"), "-O2")
    race.run(size, title)


def main():
    with tempfile.TemporaryDirectory() as folder:
        race = Race(folder)
        for size in SIZES:
            for title, primes, lanes, unroll in MODULI:
                if has_roots(size, primes):
                    raced(race, size, title, primes, lanes, unroll)
                else:
                    race.skip(f"{size} points of the {title} have no root")
        if MARKDOWN:
            race.markdown()


if __name__ == "__main__":
    main()
