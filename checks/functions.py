#!/usr/bin/env python3
"""Links functions of C texts into programs and compares what they compute with the definition of the transform.

    checks/functions.py [COMPILER ..]     gcc and clang, if none is named

Two functions stand in one program and two threads call them at once; another program spreads one transform over threads
by its phases, as POSIX has them and, where a compiler has it, by OpenMP. The first two are also built with ThreadSanitizer,
which does not know OpenMP's threads. A function's file shows its two names alone, and has no data but
constants. All is compiled with -Wall -Wextra -Werror, and what is made of `spiral c` with -Wpedantic, too. Python and
Rust call a function, where cargo is there.
"""

import os
import random
import shutil
import subprocess
import sys
import tempfile

TOP = os.path.dirname(os.path.dirname(os.path.abspath(__file__)))
EXAMPLES = f"{TOP}/examples"
os.environ["PATH"] = f"{TOP}/bin{os.pathsep}{os.environ['PATH']}"
STRICT = ["-std=gnu11", "-Wall", "-Wextra", "-Werror", "-Wno-psabi", "-pthread"]
THREAD_SANITIZER = ["-O1", "-g", "-fsanitize=thread"]
SMALL = (64, 193, 125, "unroll 4")  # size, modulus, root, further words of the request
LARGE = (256, 1152921504606830593, 257058671398294284, "procs 2 line 8 lanes 8")


def output(words, text=""):
    done = subprocess.run(words, input=text, capture_output=True, text=True)
    if done.returncode != 0:
        sys.exit(f"functions: {' '.join(words)}: status {done.returncode}\n{done.stdout}{done.stderr}")
    return done.stdout


def by_library(folder, name, request):
    text = output(["spiral", "c"], request + "\n")
    for suffix, header in ((".c", ()), (".h", ("--header",))):
        with open(f"{folder}/{name}{suffix}", "w") as file:
            file.write(output([f"{EXAMPLES}/library.py", name, *header], text))


def by_fast(folder, name, request):
    output([f"{EXAMPLES}/function.sh", f"{folder}/{name}", "--words", "64"], output(["spiral", "code"], request + "\n"))


def write_functions(folder, writer, requests):
    for name, request in requests.items():
        writer(folder, name, request)


def transform(vector, modulus, root):
    """Place k has the sum over l of vector[l] * root^(k * l)."""
    size = len(vector)
    powers = [pow(root, k, modulus) for k in range(size)]
    return [sum(x * powers[k * l % size] for l, x in enumerate(vector)) % modulus for k in range(size)]


def vectors(size, modulus):
    rng = random.Random(11)
    several = [[rng.randrange(modulus) for _ in range(size)] for _ in range(5)]
    return [*several, [modulus - 1] * size, [0, modulus - 1] * (size // 2)]


def lines(values):
    return "".join(" ".join(map(str, vector)) + "\n" for vector in values)


def check_program(folder, main, names, build, given, wanted):
    sources = [f"{folder}/{name}.c" for name in names]
    program = f"{folder}/program"
    output([*build, *STRICT, f"-I{folder}", f"{EXAMPLES}/function/{main}", *sources, "-o", program])
    if output([program], lines(given)) != lines(wanted):
        sys.exit(f"functions: {main} differs, built by {' '.join(build)}")


def check_symbols(folder, names):
    """A file shows its two functions, and keeps no data but constants."""
    for name in names:
        output(["cc", "-c", f"{folder}/{name}.c", "-o", f"{folder}/{name}.o", "-w", "-Wno-psabi"])
        symbols = [line.split()[-2:] for line in output(["nm", f"{folder}/{name}.o"]).splitlines()]
        shown = {symbol for kind, symbol in symbols if kind.isupper() and kind != "U"}
        if shown != {name, f"{name}_phase"} or any(kind in "BbCDd" for kind, _ in symbols):
            sys.exit(f"functions: {name} has other names or data: {symbols}")


def has_openmp(folder, compiler):
    program = [compiler, "-fopenmp", "-xc", "-", "-o", f"{folder}/empty"]
    return subprocess.run(program, input="int main(void) { return 0; }", capture_output=True, text=True).returncode == 0


def check(folder, compilers, writer):
    """Builds and runs the programs; gives how many were right."""
    right = 0
    pedantic = ["-Wpedantic"] if writer is by_library else []
    builds = [[compiler, "-O1", *pedantic] for compiler in compilers] + [[compilers[0], *THREAD_SANITIZER]]
    by_openmp = [[compiler, "-O1", "-fopenmp", *pedantic] for compiler in compilers if has_openmp(folder, compiler)]
    mains = [("two.c", SMALL, builds), ("two.c", LARGE, builds), ("on_threads.c", LARGE, builds)]
    for main, (size, modulus, root, words), builds in [*mains, ("on_openmp.c", LARGE, by_openmp)]:
        requests = {"forward": f"dft {size} mod {modulus} root {root} {words}"}
        if main == "two.c":
            requests["back"] = "i" + requests["forward"]
        write_functions(folder, writer, requests)
        check_symbols(folder, requests)
        given = vectors(size, modulus)
        wanted = [transform(vector, modulus, root) for vector in given]
        for build in builds:
            check_program(folder, main, requests, build, given, wanted)
            right += 1
    return right


def check_python(folder, given, wanted):
    """A function as one of Python; and of numpy's arrays, where numpy is there."""
    sys.path.insert(0, f"{EXAMPLES}/python")
    from transform import Transform, numpy

    library = f"{folder}/libforward.so"
    output(["cc", "-O1", "-shared", "-fPIC", f"{folder}/forward.c", "-o", library])
    forward = Transform(library, "forward")
    kinds = [list]
    if numpy:
        kinds.append(lambda numbers: numpy.array(numbers, dtype=numpy.uint64))
    else:
        print("skipped: numpy is not here")
    for kind in kinds:
        if any(list(forward(kind(x))) != y for x, y in zip(given, wanted)):
            sys.exit("functions: the function of Python differs")
    return len(kinds)


def check_rust(folder, given, wanted):
    if not shutil.which("cargo"):
        print("skipped: cargo is not here")
        return 0
    os.environ["FORWARD"] = folder
    manifest = ["--manifest-path", f"{EXAMPLES}/rust/Cargo.toml", "--target-dir", f"{folder}/target"]
    output(["cargo", "build", "--quiet", "--offline", "--locked", *manifest])
    for x, y in zip(given, wanted):
        if output([f"{folder}/target/debug/transform"], lines([x])) != lines([y]):
            sys.exit("functions: the function of Rust differs")
    return 1


def check_languages(folder):
    size, modulus, root, words = SMALL
    write_functions(folder, by_library, {"forward": f"dft {size} mod {modulus} root {root} {words}"})
    given = vectors(size, modulus)
    wanted = [transform(vector, modulus, root) for vector in given]
    return check_python(folder, given, wanted) + check_rust(folder, given, wanted)


def main():
    wanted = sys.argv[1:] or ["gcc", "clang"]
    compilers = [compiler for compiler in wanted if shutil.which(compiler)]
    for compiler in set(wanted) - set(compilers):
        print(f"skipped: {compiler} is not here")
    if not compilers:
        return
    with tempfile.TemporaryDirectory() as folder:
        right = sum(check(folder, compilers, writer) for writer in (by_library, by_fast)) + check_languages(folder)
        print(f"functions: {right} programs right")


if __name__ == "__main__":
    main()
