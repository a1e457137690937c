#!/usr/bin/env python3
"""Compares what the program writes for several hundred requests, which are the same at each run, with the reference, command by command. Each
comparison is of the status, the output and the note. The last line counts them.

    checks/reference/sweep.py
"""

import os
import re
import subprocess
import sys
from math import gcd, lcm

from convolution_sweep import convolutions_swept
from convolutions import bad_power
from dimension_sweep import dimension_requests, lines_read, lists_checked
from dimensions import Several, admitted, read_request, transform
from emission import Emitter, listing, loads_and_stores
from formula_sweep import formulas_swept
from listings import Lost, read_listing
from reference import answer, vectors
from runs import actions, run
from strangers import MOST_ACTIONS, count, executed, parts_of
from transforms import Refused, best, certificate, certificate_rows, every_tree, extra_cost, forward, tree_count

TOP = os.path.dirname(os.path.dirname(os.path.dirname(os.path.abspath(__file__))))

# Requests that the documents speak of, and the ends of the limits.
NAMED = """
dft 1 mod 2 root 1
dft 2 mod 2 root 1
dft 2 mod 15 root 4
dft 2 mod 10 root 9
dft 2 mod 4611686018427387903 root 4611686018427387902
dft 4 mod 17 root 4
dft 4 mod 17 root 3
dft 4 mod 17 root 4 budget 8
dft 4 mod 10 root 9
dft 4 mod 10 root 9 unroll 2
dft 4 mod 10 root 9 weight 5
dft 4 mod 17 root 4 weight 5
dft 6 mod 7 root 3
dft 6 mod 7 root 3 weight 5
dft 8 mod 17 root 2
dft 9 mod 19 root 4 unroll 2
dft 9 mod 19 root 4 unroll 16
dft 11 mod 23 root 2 budget 241
dft 11 mod 23 root 2 budget 242
dft 11 mod 23 root 2 budget 483 weight 3
dft 15 mod 31 root 9
dft 16 mod 17 root 3
dft 16 mod 17 root 3 unroll 16
dft 16 mod 17 root 2 unroll 16
dft 16 mod 17 root 2 unroll 16 weight 2
dft 30 mod 31 root 3 unroll 2
dft 60 mod 61 root 2 unroll 2
dft 210 mod 211 root 2
dft 210 mod 211 root 2 unroll 2
dft 240 mod 241 root 7 unroll 64
dft 251 mod 503 root 2
dft 256 mod 257 root 3 unroll 64
idft 1 mod 2 root 1
idft 1 mod 17 root 1 weight 3
idft 1 mod 17 root 1 budget 2 weight 3
idft 2 mod 10 root 9
idft 2 mod 15 root 4
idft 2 mod 4611686018427387903 root 4611686018427387902
idft 4 mod 17 root 4
idft 4 mod 17 root 1
idft 4 mod 17 root 3
idft 4 mod 17 root 4 budget 12
idft 4 mod 17 root 4 budget 13
idft 6 mod 7 root 3 weight 5
idft 9 mod 19 root 4 unroll 2
idft 11 mod 23 root 2 unroll 11
idft 15 mod 31 root 9
idft 16 mod 17 root 3 unroll 16 weight 2
idft 30 mod 31 root 3 unroll 2
idft 36 mod 1369 root 1258
wht 1 mod 2
wht 2 mod 2
wht 4 mod 5
wht 8 mod 10 unroll 2
wht 64 mod 97 unroll 4
wht 256 mod 4611686018427387903 unroll 2
"""

# Requests for processors, cache lines and lanes.
SPREAD = """
dft 1 mod 2 root 1 procs 2
dft 4 mod 17 root 4 procs 2 line 1
dft 4 mod 17 root 4 lanes 2
dft 4 mod 17 root 3 procs 2
dft 6 mod 7 root 3 lanes 2
dft 8 mod 17 root 2 procs 2 line 2
dft 16 mod 17 root 3 procs 2 line 2
dft 16 mod 17 root 3 procs 2 line 2 lanes 2
dft 16 mod 17 root 3 procs 2 line 2 lanes 2 weight 5
dft 36 mod 37 root 2 procs 2 line 3 unroll 2
dft 64 mod 193 root 125 lanes 8 unroll 2
dft 81 mod 163 root 38 procs 3 line 3 lanes 3
dft 144 mod 31 root 30 procs 3 line 4 unroll 3
dft 144 mod 17 root 1 procs 2 line 3 lanes 2
dft 225 mod 101 root 1 procs 3 line 5 unroll 2
dft 256 mod 257 root 3 procs 4 line 4 lanes 4
idft 4 mod 17 root 4 procs 2 line 1
idft 4 mod 10 root 3 procs 2 line 3 lanes 2
idft 16 mod 17 root 3 procs 2 line 2 lanes 2
idft 36 mod 37 root 2 procs 2 line 3 unroll 2
idft 64 mod 193 root 125 lanes 8 unroll 2
idft 81 mod 163 root 38 procs 3 line 3 lanes 3 weight 5
idft 144 mod 31 root 30 procs 3 line 4 unroll 3
idft 256 mod 257 root 3 procs 4 line 4 lanes 4
wht 4 mod 5 lanes 2
wht 16 mod 10 procs 4
wht 64 mod 97 procs 2 line 4 lanes 4 unroll 2
wht 256 mod 4611686018427387903 procs 2 line 8 lanes 2
"""

# Sizes for which only what needs no plain sum is compared.
LARGE = ["dft 65536 mod 65537 root 3", "wht 65536 mod 65536", "dft 30030 mod 30031 root 1 budget 1000000000000"]
LARGE += ["dft 65536 mod 65537 root 3 budget 1000000000000 weight 1000"]
LARGE += ["idft 65536 mod 65537 root 3", "wht 1048576 mod 5", "dft 1048576 mod 7340033 root 78125 budget 1000000000"]

UNROLLS = [2, 2, 3, 4, 5, 6, 7, 8, 8, 8, 9, 12, 16, 25, 32, 64]
WEIGHTS = [1, 2, 5, 1000]

# Moduli with roots of many orders, and an element whose powers give them.
RICH = [(17, 3), (97, 5), (257, 3), (2161, 23), (12289, 11), (65537, 3), (998244353, 3), (2**61 - 1, 37)]


class Numbers:
    def __init__(self, seed):
        self.value = seed

    def next(self):
        self.value = (self.value * 6364136223846793005 + 1442695040888963407) % 2**64
        return self.value

    def below(self, end):
        return (self.next() >> 33) % end

    def one_of(self, items):
        return items[self.below(len(items))]


def order(root, modulus):
    """The least power that is 1, where it is 256 or less."""
    value = root
    for power in range(1, 257):
        if value == 1:
            return power
        value = value * root % modulus
    return None


def any_root(numbers):
    """A request for any modulus, any unit of it, and any multiple of the unit's order."""
    while True:
        modulus = 2 + numbers.below(2000)
        root = 1 + numbers.below(modulus - 1)
        power = order(root, modulus) if gcd(root, modulus) == 1 else None
        if power:
            size = power * (1 + numbers.below(256 // power))
            return f"dft {size} mod {modulus} root {root} unroll {numbers.one_of(UNROLLS)}"


def rich_root(numbers):
    """A request for a root of any order that divides one less than a prime modulus."""
    modulus, element = numbers.one_of(RICH)
    size = numbers.one_of([n for n in range(2, 257) if (modulus - 1) % n == 0])
    root = pow(element, (modulus - 1) // size, modulus)
    return f"dft {size} mod {modulus} root {root} unroll {numbers.one_of(UNROLLS)}"


def power_of_two(numbers):
    """A request for a root 2^e modulo 2^62 - 1, which is no prime."""
    exponent = 1 + numbers.below(61)
    power = 62 // gcd(62, exponent)
    size = power * (1 + numbers.below(256 // power))
    return f"dft {size} mod {2**62 - 1} root {2**exponent} unroll {numbers.one_of(UNROLLS)}"


def hadamard(numbers):
    modulus = 2 + numbers.one_of([numbers.below(100), numbers.next() % (2**62 - 2)])
    return f"wht {2**numbers.below(9)} mod {modulus} unroll {numbers.one_of(UNROLLS)}"


def spread(numbers):
    """A request for processors and lanes, whose size is a product of two sizes that fit them."""
    while True:
        procs, line = numbers.one_of([1, 2, 2, 3, 4]), numbers.one_of([1, 1, 2, 3, 4])
        lanes = numbers.one_of([v for v in (1, 2, 3, 4) if procs == 1 or line % v == 0])
        part = lcm(procs * line if procs > 1 else 1, lanes)
        r, s = part * (1 + numbers.below(4)), part * (1 + numbers.below(4))
        if r == 1 or s == 1 or r * s > 256:
            continue
        modulus, element = numbers.one_of(RICH)
        root = pow(element, (modulus - 1) // gcd(r * s, modulus - 1), modulus)
        is_power = r & (r - 1) == 0 == s & (s - 1)
        first = f"wht {r * s} mod {modulus}" if is_power and numbers.below(2) else f"dft {r * s} mod {modulus} root {root}"
        return f"{first} procs {procs} line {line} lanes {lanes} unroll {numbers.one_of(UNROLLS)}"


def inverse(numbers, make=None):
    """A request for the inverse of a Fourier transform. Some sizes share a factor with the modulus."""
    line = (make or numbers.one_of([any_root, any_root, rich_root, power_of_two]))(numbers)
    return f"i{line}" if line.startswith("dft") else line


def weighed(numbers, line):
    """The request with a weight, or with none."""
    return line + numbers.one_of(["", *(f" weight {weight}" for weight in WEIGHTS)])


def spread_requests():
    numbers = Numbers(5)
    lines = [spread(numbers) for _ in range(40)] + [inverse(numbers, spread) for _ in range(40)]
    return SPREAD.split("\n")[1:-1] + [weighed(numbers, line) for line in lines]


def requests():
    numbers = Numbers(7)
    makers = [any_root] * 120 + [rich_root] * 100 + [power_of_two] * 20 + [hadamard] * 30 + [inverse] * 120
    return NAMED.split("\n")[1:-1] + [weighed(numbers, make(numbers)) for make in makers]


def straight(numbers):
    """A request for a root of small order, all of whose nodes are straight-line code. Its tree may hang on the weight."""
    modulus, element = numbers.one_of(RICH)
    power = numbers.one_of([n for n in range(2, 33) if (modulus - 1) % n == 0])
    root = pow(element, (modulus - 1) // power, modulus)
    return f"dft {power * (1 + numbers.below(64 // power))} mod {modulus} root {root} unroll 64"


def requests_at_each_weight():
    numbers = Numbers(13)
    makers = [any_root] * 20 + [rich_root] * 20 + [straight] * 60 + [hadamard] * 5 + [spread] * 15 + [inverse] * 15
    lines = ["dft 16 mod 17 root 2 unroll 16", *(make(numbers) for make in makers)]
    return [[f"{line} weight {weight}" for weight in WEIGHTS] for line in lines]


class Sweep:
    def __init__(self, program):
        self.program, self.passed, self.failed = program, 0, 0

    def call(self, words, text):
        done = subprocess.run([self.program, *words.split()], input=text.encode(), capture_output=True)
        return done.returncode, done.stdout.decode(), done.stderr.decode()

    def count(self, is_right, what):
        self.passed += is_right
        self.failed += not is_right
        if not is_right:
            print(f"differs: {what}")

    def compare(self, words, text, wanted):
        """Whether the program answers as it is wanted: a text with success, or the code and note of a refusal, perhaps
        with a text between them."""
        got = self.call(words, text)
        wanted = (0, wanted, "") if isinstance(wanted, str) else wanted
        code, *output, note = wanted
        wanted = (code, "".join(output), f"spiral: {note}\n" if note else "")
        self.count(got == wanted, f"{words}, {text[:200].splitlines()[:1]}")
        if got == wanted:
            return
        for mine, other in zip(map(str, wanted), map(str, got)):
            pairs = zip(mine.splitlines() + ["(end)"], other.splitlines() + ["(end)"])
            for pair in [pair for pair in pairs if pair[0] != pair[1]][:1]:
                print("  wanted {}\n  got    {}".format(*pair))


def wanted(command, line, *data, **options):
    try:
        return answer(command, read_request(line), *data, **options)
    except Refused as refused:
        return refused.args


def data_of(line, numbers):
    """Two vectors of words, and a text of them with white space of each kind."""
    data = [numbers.next() for _ in range(2 * read_request(line).size)]
    tokens = (f"{'000' * (at % 5 == 0) if x < 10**17 else ''}{x}{' ' * (at % 2)}" for at, x in enumerate(data))
    return data, "".join(token + numbers.one_of(" \t\n\r") for token in tokens)


def checks(sweep, line, numbers):
    """The certificate is accepted, and refused under another weight and at a row with another cost. Its first version is
    accepted where the weight is 1."""
    request = read_request(line)
    if isinstance(request, Several):
        lists_checked(sweep, line, numbers)
        return
    rows = list(certificate_rows(request))
    least, unreadable = f"least {rows[-1][1]}\n", (14, "certificate unreadable")
    sweep.compare("check", f"{line}\n{certificate(request, rows)}\n", least)
    older = least if request.weight == 1 else unreadable
    sweep.compare("check", f"{line}\n{certificate(request, rows, version=1)}", older)
    other = request._replace(weight=request.weight % 1000 + 1)
    sweep.compare("check", f"{line}\n{certificate(other, rows)}", unreadable)
    at = numbers.below(len(rows))
    size, cost, *rest = rows[at]
    rows[at] = (size, cost + 1, *rest)
    note = f"certificate row {size} gives {cost + 1}, found {cost}"
    sweep.compare("check", f"{line}\n{certificate(request, rows)}", (14, note))


def budgets(sweep, line, cost):
    """A budget of the least cost is enough, and one less is not."""
    line, weight = re.fullmatch(r"(.*?)(?: budget \d+)?( weight \d+)?", line).groups("")
    for budget in (cost, cost - 1):
        if budget > 0:
            bounded = f"{line} budget {budget}{weight}"
            sweep.compare("plan", bounded, wanted("plan", bounded))


def agrees_with_itself(request, cost, tree, data):
    """The plan is the first of the cheapest of all trees, and the listed program leaves the plain sums at its counts."""
    if isinstance(request, Several):
        choices = [min(every_tree(part, part.size)) for part in request.parts if part.size <= 24]
        assert all(choice[1] in tree for choice in choices)
    elif request.size <= 24:
        assert min(every_tree(forward(request), request.size)) == (cost - extra_cost(request), tree)
    if request.size <= 64:
        vector = next(vectors(request, data))
        program = Emitter(request, tree).program
        assert run(program, vector) == transform(request, vector)
        words = [word for _, (word, *_) in actions(program)]
        loads, stores = words.count("ld"), words.count("st")
        assert (request.lanes * loads, request.lanes * stores) == loads_and_stores(forward(request), tree)
        others = words.count("zero") + words.count("tile")
        weighted = len(words) - loads - stores - others + (request.weight - 1) * words.count("mul")
        assert request.lanes * weighted == cost


def swept(sweep, line, numbers):
    """All commands of a request. What the reference itself says of it is asked to agree first."""
    request = read_request(line)
    data, text = data_of(line, numbers)
    seed = numbers.next()
    for command in ("plan", "formula", "cert", "code", "c"):
        sweep.compare(command, line, wanted(command, line))
    sweep.compare(f"sample --seed {seed}", line, wanted("sample", line, seed=seed))
    for schedule in ("", " --schedule rr:3", f" --schedule seed:{seed}:1000"):
        sweep.compare(f"run{schedule}", f"{line}\n{text}", wanted("run", line, data))
    try:
        cost, tree = admitted(request)
    except Refused:
        return
    agrees_with_itself(request, cost, tree, data)
    sweep.compare(f"apply --mod {request.modulus}", wanted("formula", line) + text, wanted("run", line, data))
    budgets(sweep, line, cost)
    checks(sweep, line, numbers)
    if cost < 1500:
        sweep.compare("trace", f"{line}\n{text}", wanted("trace", line, data))


def undone(sweep, line, numbers):
    """The inverse takes the transform of a vector back, where the powers of the root sum to 0. Whether they do."""
    request = read_request(line)
    if request.kind != "idft" or not isinstance(wanted("plan", line), str) or bad_power(request):
        return False
    data = [numbers.next() % request.modulus for _ in range(request.size)]
    there = " ".join(map(str, transform(request._replace(kind="dft"), data)))
    sweep.compare("run", f"{line}\n{there}\n", " ".join(map(str, data)) + "\n")
    return True


def mix(numbers, procs):
    """Turns and drains, of which processors do many at a time."""
    events = []
    for _ in range(1 + numbers.below(12)):
        events += [numbers.one_of("ttd") + str(numbers.below(procs))] * (1 + numbers.below(6))
    return "mix:" + ",".join(events)


def runs(sweep, line, numbers):
    """Runs and traces under several schedules, with store buffers and without."""
    request = read_request(line)
    data, text = data_of(line, numbers)
    turns = ",".join(str(numbers.below(request.procs)) for _ in range(1 + numbers.below(40)))
    words = ["rr:2", f"turns:{turns}", f"seed:{numbers.next()}:30"]
    buffered = [*words, "seq", mix(numbers, request.procs), mix(numbers, request.procs)]
    for word, is_buffered in [(word, False) for word in words] + [(word, True) for word in buffered]:
        options = f" --buffers --schedule {word}" if is_buffered else f" --schedule {word}"
        sweep.compare(f"run{options}", f"{line}\n{text}", wanted("run", line, data))
        told = wanted("trace", line, data, schedule=word, is_buffered=is_buffered)
        sweep.compare(f"trace{options}", f"{line}\n{text}", told)


# Numbers that a listing's number is exchanged for, and what a byte is.
OTHERS = [0, 1, 2, 3, 4, 5, 7, 8, 12, 16, 17, 63, 64, 65, 2**20 - 1, 2**20, 2**32 - 1, 2**32, 2**62 - 1, 2**62]
BYTES = "0123456789 +*%/()[]rvqtXYABldstmunegzoifphacrk_\r\n"


def other_number(numbers, text):
    """The text with a number exchanged for a near one, for that of a limit, or with a zero before it."""
    found = numbers.one_of(list(re.finditer(r"[0-9]+", text)))
    value = numbers.one_of([int(found[0]) + 1, max(int(found[0]) - 1, 0), numbers.one_of(OTHERS), f"0{found[0]}"])
    return f"{text[: found.start()]}{value}{text[found.end() :]}"


def other_lines(numbers, text):
    """The text without a line, with one twice, or with two exchanged."""
    lines = text.splitlines(keepends=True)
    at, to = numbers.below(len(lines)), numbers.below(len(lines))
    lines[at : at + 1] = numbers.one_of([[], [lines[at]] * 2, [lines[to]]])
    return "".join(lines)


def other_byte(numbers, text):
    """The text cut off, or with another byte, or with one more."""
    at = numbers.below(len(text))
    byte = numbers.one_of(BYTES)
    return numbers.one_of([text[:at], text[:at] + byte + text[at + 1 :], text[:at] + byte + text[at:]])


def is_long(text):
    """Whether it would take long here to say what the listing's actions do."""
    try:
        program = read_listing(parts_of(text.encode())[0])
    except Lost:
        return False
    return 20_000 < program.request.procs * sum(map(count, program.phases)) <= MOST_ACTIONS


def strangers(sweep, line, numbers):
    """The request's listing is run as it stands, and what becomes of it by small changes is run or refused."""
    request = read_request(line)
    data, text = data_of(line, numbers)
    whole = listing(Emitter(request, admitted(request)[1]).program)
    sweep.compare(f"exec --schedule seed:{numbers.next()}:50", f"{whole}\n{text}", wanted("run", line, data))
    change = [other_number] * 5 + [other_lines, other_byte]
    for _ in range(14):
        changed = numbers.one_of(change)(numbers, whole)
        if numbers.below(4) == 0:
            changed = numbers.one_of(change)(numbers, changed if re.search("[0-9]", changed) else whole)
        given = numbers.one_of([f"{changed}\n{text}"] * 9 + [changed])
        if not is_long(given):
            sweep.compare("exec", given, executed(given.encode()))


def is_small(line):
    """Whether the request has a program of few actions."""
    try:
        return admitted(read_request(line))[0] < 600
    except Refused:
        return False


def plans(sweep, lines):
    """The plan and the certificate at each weight; the plan is the first of the cheapest of all trees. Whether the weight
    changes the tree."""
    trees = set()
    for line in lines:
        request = read_request(line)
        if tree_count(forward(request), request.size) < 20_000:
            cost, tree = best(forward(request), request.size)
            assert min(every_tree(forward(request), request.size)) == (cost, tree)
            trees.add(tree)
        for command in ("plan", "cert"):
            sweep.compare(command, line, wanted(command, line))
    return len(trees) > 1


def main():
    sweep = Sweep(subprocess.check_output([f"{TOP}/bin/build", "spiral"], text=True).strip())
    numbers = Numbers(11)
    several = dimension_requests(Numbers(23))
    for line in requests() + spread_requests() + several:
        swept(sweep, line, numbers)
    lines_read(sweep)
    taken_back = [undone(sweep, line, numbers) for line in requests() + spread_requests()]
    assert sum(taken_back) >= 40, "too few inverses take a transform back"
    for line in filter(is_small, NAMED.split("\n")[1:-1] + spread_requests() + several[:90]):
        runs(sweep, line, numbers)
        strangers(sweep, line, numbers)
    changed = [plans(sweep, lines) for lines in requests_at_each_weight()]
    assert sum(changed) >= 5, "the weights change too few trees"
    formulas_swept(sweep, Numbers(17))
    convolutions_swept(sweep, Numbers(19))
    for line in LARGE:
        for command in ("plan", "formula", "cert", "code"):
            sweep.compare(command, line, wanted(command, line))
    for line in LARGE[:2]:
        sweep.compare("sample", line, wanted("sample", line))
    print(f"sweep: {sweep.passed} passed, {sweep.failed} failed")
    sys.exit(sweep.failed != 0)


if __name__ == "__main__":
    main()
