#!/usr/bin/env python3
"""How `spiral-fast` refuses: each status, each option and each kind of name, with its line and without output. And what it says of a text
that stays at one lane, with the line of the listing. And that a name it takes compiles: each word that stands in its texts, and words of C,
are either refused or names of functions that GCC and Clang take.

    checks/fast_refusals.py
"""

import concurrent.futures
import os
import re
import subprocess
import sys
import tempfile

TOP = os.path.dirname(os.path.dirname(os.path.abspath(__file__)))
os.environ["PATH"] = f"{TOP}/bin{os.pathsep}{os.environ['PATH']}"
USAGE = (
    "usage: spiral_fast [--words 16|32|52|64] [--lanes 2|4|8|16] [--name NAME [--times] [--header]] < LISTING > TEXT "
    "(reads a listing, writes C)"
)


def program(modulus, *lines, procs=1, size=2, line=1, registers=2):
    header = f"program size {size} mod {modulus} procs {procs} line {line} lanes 1 regs {registers}"
    return "\n".join([header, "phase", *lines, "end"]) + "\n"


GOOD = program(17, "ld r0 X[0]", "st Y[0] r0")
WRITING = program(17, "ld r0 X[0]", "end", "phase", "for v0 2", "st X[0+v0*1] r0", "end")
LISTINGS = {
    "good": GOOD,
    "empty": "",
    "request": "dft 8 mod 17 root 9\n",
    "no end": GOOD.removesuffix("end\n"),
    "carriage return": GOOD.replace("phase\n", "phase\r\n"),
    "place": program(17, "ld r0 X[0]", "st Y[2] r0"),
    "register": program(17, "ld r0 X[0]", "st Y[0] r2"),
    "line": program(17, "ld r0 X[0]", "st Y[0] r0", procs=2),
    "actions": program(17, "for v0 100001", "for v1 1000", "zero r0", "end", "end"),
    "modulus of 15 bits": program(2**15 - 1, "ld r0 X[0]", "st Y[0] r0"),
    "modulus of 16 bits": program(2**15, "ld r0 X[0]", "st Y[0] r0"),
    "modulus of 31 bits": program(2**31 - 1, "ld r0 X[0]", "st Y[0] r0"),
    "modulus of 32 bits": program(2**31, "ld r0 X[0]", "st Y[0] r0"),
    "modulus of 52 bits": program(2**51, "ld r0 X[0]", "st Y[0] r0"),
    "writing": WRITING,
    "wide and writing": WRITING.replace("mod 17", f"mod {2**51}"),
    "long": "program" + " " * (2**26 - 6),
}
# Programs of which a statement cannot be put on lanes, after one that can.
LOOP = ["for v0 8", "ld r0 X[0+v0*1]", "st Y[0+v0*1] r0", "end"]
MANY = ["for v0 8", *(line for k in range(257) for line in (f"ld r{k} X[{k}+v0*1]", f"st A[{k}+v0*1] r{k}")), "end"]


def after_loop(*lines):
    return program(17, *LOOP, *lines, size=512, registers=300)


LANED = {
    "no loop": after_loop("ld r0 X[0]", "st Y[0] r0"),
    "side by side": after_loop("for v0 8", "for v1 8", "ld r0 X[0+v1*1]", "st A[0+v1*1] r0", "end", "ld r0 X[0]", "st A[0] r0", "end"),
    "stores": after_loop(*MANY),
    "rounds": after_loop("for v0 9", "ld r0 X[0+v0*1]", "st A[0+v0*1] r0", "end"),
    "registers": after_loop("for v0 8", "st A[0+v0*1] r0", "ld r0 X[0+v0*1]", "end"),
    "places": after_loop("for v0 8", "ld r0 X[0+v0*3]", "st A[0+v0*1] r0", "end"),
    "many registers": program(17, *LOOP, size=8, registers=349526),
    # other statements come first where they stand: a table has a line, and a phase has two
    "phases": program(17, *LOOP, "end", "phase", *LOOP, "ld r0 X[0]", "st Y[0] r0", size=8).replace("phase", "table 0 values 1\nphase", 1),
    # registers that are numbered anew leave the lines as they are
    "another's": program(17, "for v0 8", "ld r1 X[0+v0*1]", "st A[0+v0*1] r1", "end", "for v0 9", "ld r1 X[0+v0*1]", "st Y[0+v0*1] r1", "end", size=9),
    # what can be put on lanes, and what has lanes of its own
    "a loop": program(17, *LOOP, size=8),
    "two lanes": program(17, "ld r0 X[0]", "st Y[0] r0").replace("lanes 1", "lanes 2"),
}
LISTINGS |= LANED
AT_ONE = (
    ("no loop", 0, "one lane: line 7 stands in no loop"),
    ("side by side", 0, "one lane: the loop at line 7 has loops side by side, or beside operations"),
    ("stores", 0, "one lane: the loop at line 7 stores more than 256 times in a round"),
    ("rounds", 0, "one lane: the loop at line 7 has rounds that are no multiple of the lanes"),
    ("registers", 0, "one lane: the loop at line 7 has registers out of order, or reads one that its round has not put"),
    ("places", 0, "one lane: the loop at line 7 loads or stores words that do not stand side by side"),
    ("many registers", 0, "one lane: more than 349525 registers"),
    ("phases", 0, "one lane: line 14 stands in no loop"),
    ("another's", 0, "one lane: the loop at line 7 has rounds that are no multiple of the lanes"),
)
# Words, listing, status and line.
ROWS = (
    # the words
    ("good", "--words", 2, USAGE),
    ("good", "--words 31", 2, USAGE),
    ("good", "--words 032", 2, USAGE),
    ("good", "--words 32 --words 32", 2, USAGE),
    ("good", "--lanes", 2, USAGE),
    ("good", "--lanes 1", 2, USAGE),
    ("good", "--lanes 3", 2, USAGE),
    ("good", "--lanes 32", 2, USAGE),
    ("good", "--lanes 2 --lanes 2", 2, USAGE),
    ("good", "--name", 2, USAGE),
    ("good", "--name a --name b", 2, USAGE),
    ("good", "--header", 2, USAGE),
    ("good", "--times", 2, USAGE),
    ("good", "--times --header", 2, USAGE),
    ("good", "--name a --times --times", 2, USAGE),
    ("good", "--name 1 --times", 2, USAGE),
    ("good", "--name a --header --header", 2, USAGE),
    ("good", "--names a", 2, USAGE),
    ("good", "--help", 2, USAGE),
    ("good", "listing", 2, USAGE),
    # they come before the listing
    ("empty", "--lanes 1", 2, USAGE),
    # the listing
    ("long", "", 13, "more than 67108864 bytes"),
    ("empty", "", 18, "listing syntax at line 1"),
    ("request", "", 18, "listing syntax at line 1"),
    ("no end", "", 18, "listing syntax at line 5"),
    ("carriage return", "", 18, "listing syntax at line 2"),
    ("place", "", 19, "bad place in phase 0, processor 0, action 1"),
    ("register", "", 20, "bad register in phase 0, processor 0, action 1"),
    ("line", "", 21, "phase 0 line 2 is shared by 0 and 1"),
    ("actions", "", 22, "more than 100000000 actions"),
    # its modulus
    ("modulus of 15 bits", "--words 16", 0, ""),
    ("modulus of 16 bits", "--words 16", 24, "modulus of more than 16-bit words"),
    ("modulus of 31 bits", "--words 32", 0, ""),
    ("modulus of 32 bits", "--words 32", 24, "modulus of more than 32-bit words"),
    ("modulus of 32 bits", "--words 52", 0, ""),
    ("modulus of 52 bits", "--words 52", 24, "modulus of more than 52-bit words"),
    ("modulus of 52 bits", "", 0, ""),
    ("modulus of 52 bits", "--words 64", 0, ""),
    # its stores
    ("writing", "", 0, ""),
    ("writing", "--name f", 25, "phase 1 stores into X, which is only read in a function"),
    # products of its vectors read no input of it
    ("writing", "--name f --times", 0, ""),
    ("good", "--name f --times", 0, ""),
    ("good", "--name f --times --header", 0, ""),
    ("modulus of 52 bits", "--name f --times --words 52", 24, "modulus of more than 52-bit words"),
    ("writing", "--name f --header", 25, "phase 1 stores into X, which is only read in a function"),
    # why a text is of one lane, and nothing where it has several, or where none were asked for
    *((listing, words, status, line) for listing, status, line in AT_ONE for words in ("--lanes 4", "--lanes 8 --name f", "--lanes 2 --name f --header")),
    *((listing, "", 0, "") for listing, *_ in AT_ONE),
    ("a loop", "--lanes 8", 0, ""),
    ("a loop", "--lanes 16", 0, "one lane: the loop at line 3 has rounds that are no multiple of the lanes"),
    ("two lanes", "--lanes 8", 0, ""),
    # the modulus is told first
    ("wide and writing", "--name f --words 52", 24, "modulus of more than 52-bit words"),
)
KEYWORDS = """auto break case char const continue default do double else enum extern float for goto if inline int long register
restrict return short signed sizeof static struct switch typedef union unsigned void volatile while asm typeof alignas alignof bool
constexpr false nullptr static_assert thread_local true typeof_unqual main linux unix int8_t uint64_t int_fast16_t uint_least8_t
intptr_t uintmax_t INT8_MIN UINT64_MAX INTPTR_MAX INT_LEAST16_MAX UINT_FAST32_MAX INT64_C UINTMAX_C SIZE_MAX PTRDIFF_MIN WCHAR_MAX
SIG_ATOMIC_MIN WINT_MAX""".split()
BAD_NAMES = ["", "1f", "a-b", "a b", "é", "a" * 65, "_f", "__f", "_Bool", "CHECK", "t0", "u12"]
FREE_NAMES = "a f forward NTT INTT ntt_inverse X Y in out work q k t u tile_ t0a word1 words mul_ int_ INT uint INT_NTT MAX_C".split()
FREE_NAMES += ["a" * 64]


def called(words, text):
    done = subprocess.run(["spiral-fast", *words], input=text.encode(), capture_output=True)
    return done.returncode, done.stdout.decode(), done.stderr.decode()


def told(status, line):
    return status, f"spiral_fast: {line}\n" if line else ""


def rows():
    """What is said, and that a text stands there if it is asked for: behind a comment of the same words, if any are said, it is of one lane."""
    for listing, words, status, line in ROWS:
        number, text, note = called(words.split(), LISTINGS[listing])
        front = f"// {line}\n/* program " if line else "/* program "
        if (number, note) != told(status, line) or bool(text) == bool(status) or not text.startswith("" if status else front):
            yield f"{listing!r}, {words!r}: {number} {note}"


def outside():
    """The input and the output fail."""
    folder = os.open(TOP, os.O_RDONLY)
    done = subprocess.run(["spiral-fast"], stdin=folder, capture_output=True, text=True)
    os.close(folder)
    if (done.returncode, done.stdout, done.stderr) != (10, "", "spiral_fast: read failed\n"):
        yield f"a read that fails: {done.returncode} {done.stderr}"
    with open("/dev/full", "w") as full:
        done = subprocess.run(["spiral-fast"], input=GOOD, stdout=full, stderr=subprocess.PIPE, text=True)
        if (done.returncode, done.stderr) != (11, "spiral_fast: write failed\n"):
            yield f"a write that fails: {done.returncode} {done.stderr}"


# ---- names

# Texts of one lane, of vectors and of other lanes, in words of each size; by the modulus, the lanes and the options.
FORMS = [(17, lanes, ("--words", words)) for lanes in (1, 3, 8) for words in ("16", "32", "52", "64")]
COMPILERS = ("gcc", "clang")


def laned(modulus, lanes):
    table = f"table 0 values {' '.join('1' * 8 * lanes)}"
    body = ["ld r0 X[0]", "mul r1 r0 t0[0] step 1", "add r2 r0 r1", "sub r3 r0 r1", "neg r4 r3", "mul r5 r4 3", "zero r6", "st Y[0] r5"]
    size, registers = 8 * lanes, 8 + 2 * lanes
    lines = [f"program size {size} mod {modulus} procs 1 line 1 lanes {lanes} regs {registers}", table, "phase", *body]
    return "\n".join([*lines, f"tile r8 r{8 + lanes}", "end"]) + "\n"


def words_of(text):
    """Each word of the text that a name could be."""
    return set(re.findall(r"[A-Za-z][A-Za-z0-9_]*", re.sub(r"/\*.*?\*/", "", text, flags=re.S)))


def compiles(listing, words, name):
    """What the compilers say of the function of this name and of its header, if it does not compile."""
    with tempfile.TemporaryDirectory() as folder:
        for suffix, more in ((".c", ()), (".h", ("--header",)), ("_times.c", ("--times",)), ("_times.h", ("--times", "--header"))):
            with open(f"{folder}/{name}{suffix}", "w") as file:
                file.write(called((*words, "--name", name, *more), listing)[1])
        with open(f"{folder}/user.c", "w") as file:
            file.write(f'#include "{name}.h"\n#include "{name}_times.h"\n')
        for compiler in COMPILERS:
            strict = [compiler, "-std=gnu11", "-Wall", "-Wextra", "-Werror", "-Wno-psabi", "-fsyntax-only"]
            files = [f"{folder}/{file}.c" for file in (name, f"{name}_times", "user")]
            done = subprocess.run([*strict, *files], capture_output=True, text=True)
            if done.returncode != 0:
                return f"--name {name}, {' '.join(words)}: {done.stderr[:500]}"
    return None


def checked_name(listing, words, name):
    status, _, note = called((*words, "--name", name), listing)
    if status == 0:
        return compiles(listing, words, name)
    return None if (status, note) == told(2, USAGE) else f"--name {name}: {status} {note}"


def name_trials():
    """Calls that answer what is wrong with a name, or None. Each word is tried in one form in which it stands."""
    seen = set()
    for modulus, lanes, words in FORMS:
        listing = laned(modulus, lanes)
        text = called((*words, "--name", "forward"), listing)[1]
        yield from ((checked_name, listing, words, name) for name in sorted(words_of(text) - seen))
        seen |= words_of(text)
    for name in FREE_NAMES:
        yield compiles, GOOD, (), name


def bad_names():
    for name in [*KEYWORDS, *BAD_NAMES]:
        status, text, note = called(["--name", name], GOOD)
        if (status, text, note) != (2, "", f"spiral_fast: {USAGE}\n"):
            yield f"--name {name}: {status} {note}"
    for name in FREE_NAMES:
        if called(["--name", name], GOOD)[0] != 0:
            yield f"--name {name} is refused"


def main():
    faults = [*rows(), *outside(), *bad_names()]
    with concurrent.futures.ThreadPoolExecutor(os.cpu_count()) as pool:
        trials = list(pool.map(lambda trial: trial[0](*trial[1:]), name_trials()))
    faults += filter(None, trials)
    for fault in faults:
        print(f"fast_refusals: {fault}")
    count = len(ROWS) + len(KEYWORDS) + len(BAD_NAMES) + len(FREE_NAMES) + len(trials)
    print(f"fast_refusals: {count} rows and names, {len(faults)} faults")
    sys.exit(bool(faults))


if __name__ == "__main__":
    main()
