#!/usr/bin/env python3
"""Prints what the built program takes: start-up, time for each action of `run`, data read, and peak memory. It judges nothing.
Figures of one machine and one day stand in docs/SPEED.md.

    bench/measure.py
"""
import os
import random
import subprocess
import sys
import tempfile
import time

TOP = os.path.dirname(os.path.dirname(os.path.abspath(__file__)))
PROGRAM = subprocess.check_output([f"{TOP}/bin/build", "spiral"], text=True).strip()
MODULUS = 12289
sys.path.insert(0, f"{TOP}/examples")

from choose import roots_of  # noqa: E402
from listing import action_count, read_listing  # noqa: E402


def request(size):
    return f"dft {size} mod {MODULUS} root {roots_of(size, MODULUS)[1]}\n"


def run(command, text):
    """Seconds of one call, with its input from a file."""
    with tempfile.TemporaryFile() as source, tempfile.TemporaryFile() as target:
        source.write(text.encode())
        source.seek(0)
        begin = time.perf_counter()
        status = subprocess.run([PROGRAM, *command.split()], stdin=source, stdout=target).returncode
        seconds = time.perf_counter() - begin
        if status != 0:
            raise SystemExit(f"{command} ended with {status}")
        return seconds


def peak(command, text):
    """Peak kilobytes of one call, read before its input ends."""
    child = subprocess.Popen([PROGRAM, command], stdin=subprocess.PIPE, stdout=subprocess.DEVNULL)
    child.stdin.write(text.encode())
    child.stdin.flush()
    time.sleep(0.2)
    with open(f"/proc/{child.pid}/status") as status:
        kilobytes = next(line.split()[1] for line in status if line.startswith("VmHWM"))
    child.stdin.close()
    child.wait()
    return kilobytes


def vectors(size, count):
    draw = random.Random(size)
    line = lambda: " ".join(str(draw.randrange(MODULUS)) for _ in range(size))
    return "".join(line() + "\n" for _ in range(count))


def best(command, text, times=3):
    return min(run(command, text) for _ in range(times))


def listing(text):
    return subprocess.run([PROGRAM, "code"], input=text.encode(), capture_output=True, check=True).stdout.decode()


def loop_of(actions):
    """A listing of this many actions: a load, an addition and a store in each turn of its loop."""
    body = "ld r0 X[0]\nadd r1 r0 r0\nst Y[0] r1\n"
    return f"program size 4 mod 17 procs 1 line 1 lanes 1 regs 2\nphase\nfor v0 {actions // 3}\n{body}end\nend\n\n"


def main():
    start_up = best("run", request(4), 20)
    print(f"start-up: {start_up * 1000:.1f} ms")
    for size, count in ((64, 1000), (1024, 100)):
        none = best("run", request(size))
        many = best("run", request(size) + vectors(size, count))
        each = (many - none) / count
        number = sum(map(action_count, read_listing(listing(request(size))).phases))
        print(f"run of dft {size}: {each * 1e6:.0f} us for each vector of {number} actions, data and lines with them")
    for text in (f"dft 65536 mod 65537 root 3\n", "wht 65536 mod 65537\n"):
        print(f"code of {text.strip()}: {best('code', text) * 1000:.0f} ms")
    large = "dft 65536 mod 65537 root 3\n"
    one = best("run", large + " ".join(str(k) for k in range(65536)) + "\n")
    print(f"run of one vector of {large.strip()}: {one * 1000:.0f} ms with start-up")
    line, vector = "conv 65536 mod 65537 root 3\n", " ".join(str(k) for k in range(65536)) + "\n"
    few, more = best("convolve", line + 2 * vector), best("convolve", line + 4 * vector)
    print(f"convolve of one vector of {line.strip()}: {few * 1000:.0f} ms with start-up and the diagonal of h")
    print(f"convolve of each other vector: {(more - few) / 2 * 1000:.0f} ms for two transforms and a product")
    print(f"code of its program: {best('convolve --code', line + vector) * 1000:.0f} ms")
    data = vectors(2, 400_000)
    seconds = best("run", request(2) + data) - start_up
    print(f"data of dft 2: {len(data) / 1e6 / seconds:.1f} MB read a second, with a line written for each vector")
    for count in (10, 1000, 100_000):
        kilobytes = peak("run", request(4) + vectors(4, count))
        print(f"peak memory of dft 4 over {count} vectors: {kilobytes} KB")
    for count in (10**7, 99 * 10**6):
        seconds = best("exec", loop_of(count)) - start_up
        print(f"exec: {count // 10**6} million actions of a listing verified in {seconds:.2f} s")
    text = "wht 1024 mod 1024\n" + vectors(1024, 100)
    plain, buffered = best("run", text), best("run --buffers", text)
    print(f"run --buffers of wht 1024: {buffered / plain:.1f} times the time of run")


main()
