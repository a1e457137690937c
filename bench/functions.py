#!/usr/bin/env python3
"""Nanoseconds of a C text with its own arrays and of the function that is made of it, and their ratio. No judgement.

    functions.py [COMPILER [FLAG ..]]     clang -O3 -march=native, if nothing is named

Each time is the least of some rounds in which both run in turn.
"""

import os
import re
import subprocess
import sys
import tempfile

HERE = os.path.dirname(os.path.abspath(__file__))
TOP = os.path.dirname(HERE)
os.environ["PATH"] = f"{TOP}/bin{os.pathsep}{os.environ['PATH']}"
ROUNDS = 25
REQUESTS = [
    "dft 1024 mod 1152921504606830593 root 984081769261068913",
    "dft 1024 mod 1152921504606830593 root 984081769261068913 lanes 8",
    "dft 1024 mod 12289 root 10302 lanes 8",
]


def output(words, text=""):
    done = subprocess.run(words, input=text, capture_output=True, text=True)
    if done.returncode != 0:
        sys.exit(f"functions.py: {' '.join(words)}: {done.stderr}")
    return done.stdout


def write(path, text):
    with open(path, "w") as file:
        file.write(text)


def text_program(folder, compiler, text):
    write(f"{folder}/text.c", text)
    os.environ["DRIVER"] = f"{HERE}/race_text.c"
    output([f"{TOP}/examples/compile.sh", f"{folder}/text.c", f"{folder}/text", *compiler, "-w"])
    return f"{folder}/text"


def function_program(folder, compiler, text, header):
    write(f"{folder}/forward.c", text)
    write(f"{folder}/forward.h", header)
    word = re.search(r"void forward\((uint\d+_t)", header)[1]
    sources = [f"{TOP}/examples/tune/time.c", f"{folder}/forward.c"]
    output([*compiler, "-w", f"-DWORD={word}", f"-I{folder}", *sources, "-o", f"{folder}/function"])
    return f"{folder}/function"


def race(name, programs):
    times = [[float(output([program]).split()[0]) for program in programs] for _ in range(ROUNDS)]
    text, function = (min(column) for column in zip(*times))
    print(f"{name}: text {text:.0f} ns, function {function:.0f} ns, {function / text:.2f}")


def main():
    compiler = sys.argv[1:] or ["clang", "-O3", "-march=native"]
    with tempfile.TemporaryDirectory() as folder:
        for request in REQUESTS:
            text = output(["spiral", "c"], request + "\n")
            made = [output([f"{TOP}/examples/library.py", "forward", *h], text) for h in ([], ["--header"])]
            race(f"c, {request}", [text_program(folder, compiler, text), function_program(folder, compiler, *made)])
            listing = output(["spiral", "code"], request + "\n")
            text = output(["spiral-fast"], listing)
            made = [output(["spiral-fast", "--name", "forward", *h], listing) for h in ([], ["--header"])]
            race(f"fast, {request}", [text_program(folder, compiler, text), function_program(folder, compiler, *made)])


if __name__ == "__main__":
    main()
