#!/usr/bin/env python3
"""What spiral writes, from the definitions and as plainly as can be. It shares no code with the program:
checks/reference/sweep.py compares the two.

    printf 'dft 4 mod 17 root 4\n1 2 3 4\n' | reference/reference.py run

The commands are plan, formula, cert, code, c, run, trace, sample, exec and convolve. Requests and data have to be well
formed; listings, and what convolve is given, need not.
"""

import argparse
import sys

from convolutions import convolved
from dimensions import admitted, certificate, formula, read_request, transform, tree_text
from emission import Emitter, c_text, listing, loads_and_stores, phase_count
from machine import Machine, run_lines
from runs import actions_of
from strangers import executed
from transforms import Refused, forward, last_factor


def vector_of_seed(request, seed):
    data, value = [], seed
    for _ in range(request.size):
        value = (value * 6364136223846793005 + 1442695040888963407) % 2**64
        data.append(value % request.modulus)
    return data


def column_weight(request, l):
    """The sum over k of (k+1) times the entry in row k, column l, for a size that is a power of two: by halves, since
    the lower half's entries times one ratio are the upper half's."""
    modulus, half = request.modulus, 1
    if request.kind == "idft":
        return last_factor(request) * column_weight(forward(request), l) % modulus
    total, weighted = 1, 1
    power = pow(request.root, l, modulus)
    while half < request.size:
        ratio = power if request.kind == "dft" else modulus - 1 if l & half else 1
        weighted = (weighted + ratio * (weighted + half * total)) % modulus
        total = (total + ratio * total) % modulus
        power = power * power % modulus
        half *= 2
    return weighted


def weighted_sum(request, data):
    """The sum over k of (k+1) times the result's number k."""
    if request.size <= 1024:
        return sum((k + 1) * y for k, y in enumerate(transform(request, data))) % request.modulus
    return sum(column_weight(request, l) * x for l, x in enumerate(data)) % request.modulus


def sample(request, cost, tree, seed):
    total = weighted_sum(request, vector_of_seed(request, seed))
    loads, stores = loads_and_stores(forward(request), tree)
    return f"sum {total}\noperations {cost}\nloads {loads}\nstores {stores}\n"


def plan(request, cost, tree):
    phases, each = phase_count(request), cost // request.procs
    return f"tree {tree_text(request, tree)}\ncost {cost}\nphases {phases}\neach {each}\n"


def vectors(request, data):
    for at in range(0, len(data), request.size):
        yield [number % request.modulus for number in data[at : at + request.size]]


def result_line(request, vector):
    return " ".join(map(str, transform(request, vector))) + "\n"


def lists_of(program):
    """The actions of each phase and processor."""
    procs = range(program.request.procs)
    return [[list(actions_of(program, statements, {-1: q})) for q in procs] for statements in program.phases]


def trace(program, data, schedule, is_buffered):
    request, lists, text = program.request, lists_of(program), listing(program)
    for vector in vectors(request, data):
        machine = Machine(request, program.registers, lists, vector, is_buffered)
        text += run_lines(machine, schedule) + result_line(request, vector)
        assert machine.results() == transform(request, vector)
    return text


def answer(command, request, data=(), seed=0, schedule="seq", is_buffered=False):
    """What the command writes. The data are numbers."""
    cost, tree = admitted(request)
    if command == "plan":
        return plan(request, cost, tree)
    if command == "formula":
        return formula(request, tree) + "\n"
    if command == "cert":
        return certificate(request)
    if command == "sample":
        return sample(request, cost, tree, seed)
    if command == "run":
        return "".join(result_line(request, vector) for vector in vectors(request, data))
    program = Emitter(request, tree).program
    if command == "trace":
        return trace(program, data, schedule, is_buffered)
    return {"code": listing, "c": c_text}[command](program)


def answered(asked, text):
    """Status, output and note."""
    if asked.command == "exec":
        return executed(text)
    if asked.command == "convolve":
        return convolved(text.decode(), asked.schedule, asked.code)
    line, _, rest = text.decode().partition("\n")
    data = [int(token) for token in rest.split()]
    try:
        return 0, answer(asked.command, read_request(line), data, asked.seed, asked.schedule, asked.buffers), ""
    except Refused as refused:
        code, note = refused.args
        return code, "", note


def main():
    words = argparse.ArgumentParser()
    words.add_argument("command")
    words.add_argument("--seed", type=int, default=0)
    words.add_argument("--schedule", default="seq")
    words.add_argument("--buffers", action="store_true")
    words.add_argument("--code", action="store_true")
    code, text, note = answered(words.parse_args(), sys.stdin.buffer.read())
    sys.stdout.write(text)
    if note:
        print(f"spiral: {note}", file=sys.stderr)
    sys.exit(code)


if __name__ == "__main__":
    main()
