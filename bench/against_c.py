#!/usr/bin/env python3
"""Nanoseconds of processor time for each action of `run`, beside those of the same program as C text by gcc -O2. It judges nothing.

    bench/against_c.py [TEXT ..]     with C texts by which those of `spiral c` are replaced, one for each request
"""
import os
import resource
import subprocess
import sys
import tempfile

HERE = os.path.dirname(os.path.abspath(__file__))
sys.path.insert(0, f"{HERE}/../examples")

from listing import action_count, read_listing  # noqa: E402

PROGRAM = subprocess.check_output([f"{HERE}/../bin/build", "spiral"], text=True).strip()
TEXTS = sys.argv[1:]

# each with the number of vectors for the machine
REQUESTS = [
    ("dft 64 mod 12289 root 7311", 2000),
    ("dft 1024 mod 12289 root 10302", 100),
    ("dft 1024 mod 12289 root 10302 unroll 2", 50),
    ("dft 211 mod 4643 root 4", 20),
    ("dft 64 mod 4611686018427387329 root 424145772315861915", 2000),
]


def spiral(command, text):
    """The output of one call, and its seconds of processor time."""
    begin = resource.getrusage(resource.RUSAGE_CHILDREN)
    done = subprocess.run([PROGRAM, command], input=text.encode(), capture_output=True)
    end = resource.getrusage(resource.RUSAGE_CHILDREN)
    seconds = end.ru_utime + end.ru_stime - begin.ru_utime - begin.ru_stime
    if done.returncode != 0:
        raise SystemExit(f"{command} of {text.splitlines()[0]}: {done.stderr.decode().strip()}")
    return done.stdout.decode(), seconds


def nanoseconds_of_c(text):
    """Of one run of all phases on all processors."""
    with tempfile.TemporaryDirectory() as folder:
        source, program = os.path.join(folder, "text.c"), os.path.join(folder, "text")
        with open(source, "w") as file:
            file.write(text)
        by_race = {**os.environ, "DRIVER": f"{HERE}/race_text.c"}
        subprocess.run([f"{HERE}/../examples/compile.sh", source, program, "gcc", "-O2", "-w"], env=by_race, check=True)
        return min(float(subprocess.check_output([program])) for _ in range(3))


def nanoseconds_of_machine(request, count):
    """Of one vector: what `count` vectors take more than none, by the best of three."""
    size = int(request.split()[1])
    vectors = (" ".join(str(k * k + 1) for k in range(size)) + "\n") * count
    none = min(spiral("run", request + "\n")[1] for _ in range(3))
    many = min(spiral("run", request + "\n" + vectors)[1] for _ in range(3))
    return (many - none) * 1e9 / count


def main():
    for number, (request, count) in enumerate(REQUESTS):
        each = sum(map(action_count, read_listing(spiral("code", request + "\n")[0]).phases))
        if number < len(TEXTS):
            with open(TEXTS[number]) as file:
                text = file.read()
        else:
            text = spiral("c", request + "\n")[0]
        machine = nanoseconds_of_machine(request, count) / each
        c = nanoseconds_of_c(text) / each
        print(f"{request}: {machine:.1f} ns for each action of run, {c:.2f} ns in C, {machine / c:.1f} times")


main()
