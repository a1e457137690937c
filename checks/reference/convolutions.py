"""Cyclic convolutions: the line that asks for one, the plain sums, the program, and what `convolve` answers."""

import re
from functools import lru_cache
from math import gcd

from emission import Diagonal, Emitter, Program, all_passes, listing, nested
from machine import events_of
from transforms import Refused, Request, best, powers

# The line: words, numbers (a None), and named numbers that may be left out, each with its value then.
PARTS = ["conv ", None, " mod ", None, " root ", None, (" unroll ", 8), (" budget ", 10**8), (" weight ", 1)]
LIMITS = (("size", 1, 2**20), ("mod", 2, 2**62 - 1), ("root", 0, None))
LIMITS += (("unroll", 2, 64), ("budget", 1, 10**12), ("weight", 1, 1000))


def is_number(text):
    return re.fullmatch("0|[1-9][0-9]*", text) is not None and int(text) < 2**64


def front(text, at, parts):
    """How far the text from there is a front of the parts, and the numbers where the text is all of them."""
    if not parts:
        return at, [] if at == len(text) else None
    part, *others = parts
    if part is None:
        end = at
        while end < len(text) and is_number(text[at : end + 1]):
            end += 1
        if end == at:
            return at, None
        far, numbers = front(text, end, others)
        return far, None if numbers is None else [int(text[at:end]), *numbers]
    if isinstance(part, tuple):
        word, absent = part
        far, numbers = front(text, at, [word, None, *others])
        if numbers is not None:
            return far, numbers
        without, numbers = front(text, at, others)
        return max(far, without), None if numbers is None else [absent, *numbers]
    length = next((i for i, c in enumerate(part) if text[at + i : at + i + 1] != c), len(part))
    return front(text, at + length, others) if length == len(part) else (at + length, None)


def read_conv(line):
    far, numbers = front(line, 0, PARTS)
    if numbers is None:
        raise Refused(3, f"syntax at byte {far}")
    size, modulus, root, unroll, budget, weight = numbers
    for (word, least, most), value in zip(LIMITS, numbers):
        if not least <= value <= (modulus - 1 if most is None else most):
            raise Refused(4, f"{word} {value} is out of range")
    if gcd(size, modulus) > 1:
        raise Refused(15, f"size and modulus share the factor {gcd(size, modulus)}")
    return Request("dft", size, modulus, root, 1, 1, 1, unroll, budget, weight)


def power_sum(request, k):
    """The sum of w^(k*l) over all l. Where there are many, by halves."""
    size, modulus, step = request.size, request.modulus, pow(request.root, k, request.modulus)
    if size <= 512:
        return sum(pow(step, l, modulus) for l in range(size)) % modulus
    total, power = 0, 1
    for bit in bin(size)[2:]:
        total, power = total * (1 + power) % modulus, power * power % modulus
        if bit == "1":
            total, power = (total + power) % modulus, power * step % modulus
    return total


@lru_cache(maxsize=None)
def bad_power(request):
    """The least power of the root whose sum is not 0."""
    return next((k for k in range(1, request.size) if power_sum(request, k)), None)


def admitted_conv(request, schedule="seq"):
    """The cost and the chosen tree of a convolution that is done."""
    strangers = [q for _, q in events_of(schedule, 1) if q > 0]
    if strangers:
        raise Refused(5, f"turn names processor {strangers[0]} of 1")
    power = pow(request.root, request.size, request.modulus)
    if power != 1:
        raise Refused(6, f"root to the size is {power}, not 1")
    if bad_power(request):
        raise Refused(23, f"power sum {bad_power(request)} is not zero")
    least, tree = best(request, request.size)
    cost = 2 * least + request.size * request.weight
    if cost > request.budget:
        raise Refused(8, f"least cost {cost} is over budget {request.budget}")
    return cost, tree


def convolution(modulus, h, x):
    """At each place k the sum of h[l] * x[k - l], places counted round."""
    own = [(l, value) for l, value in enumerate(h) if value]
    return [sum(value * x[k - l] for l, value in own) % modulus for k in range(len(x))]


def factors(request, h):
    """The transform of h, divided by the size."""
    size, modulus, values = request.size, request.modulus, powers(request, request.size)
    own = [(l, value) for l, value in enumerate(h) if value]
    part = pow(size, -1, modulus)
    return [part * sum(value * values[k * l % size] for l, value in own) % modulus for k in range(size)]


class Convolver(Emitter):
    """The passes of a tree, a diagonal after the last of them, and the passes of the tree with the inverse root."""

    def __init__(self, request, tree, h):
        self.tables, self.registers = [], 0
        inverse = request._replace(root=pow(request.root, request.size - 1, request.modulus))
        forward, back = all_passes(request, tree), all_passes(inverse, tree)
        forward[-1] = forward[-1]._replace(diagonal=Diagonal(factors(request, h), forward[-1].stored))
        chain, statements, read = forward + back, [], "X"
        for at, one in enumerate(chain):
            written = "Y" if at + 1 == len(chain) else "AB"[at % 2]
            statements += nested(one.loops, self.body(one, read, written))
            read = written
        self.program = Program(request, self.registers, self.tables, [statements])


def good_tokens(text, modulus):
    """The numbers of the tokens before the first that is no number, and whether there is such a token."""
    tokens = [token for token in re.split("[ \t\n\r]", text) if token]
    numbers = []
    for token in tokens:
        if not re.fullmatch("[0-9]{1,20}", token) or int(token) >= 2**64:
            return numbers, True
        numbers.append(int(token) % modulus)
    return numbers, False


def result_lines(request, numbers):
    """The lines of the complete vectors, by the first of them."""
    size = request.size
    groups = [numbers[at : at + size] for at in range(0, len(numbers) - size + 1, size)]
    return "".join(" ".join(map(str, convolution(request.modulus, groups[0], x))) + "\n" for x in groups[1:])


def convolved(text, schedule="seq", is_code=False):
    """What `convolve` answers: status, output and note. The text has no more than an input may have."""
    line, _, data = text.partition("\n")
    try:
        request = read_conv(line)
        _, tree = admitted_conv(request, schedule)
    except Refused as refused:
        code, note = refused.args
        return code, "", note
    size = request.size
    numbers, has_bad = good_tokens(data, request.modulus)
    output = "" if is_code else result_lines(request, numbers)
    if is_code and len(numbers) >= size:
        return 0, listing(Convolver(request, tree, numbers[:size]).program), ""
    if has_bad:
        return 9, output, f"token {len(numbers) + 1} is not a number"
    if not numbers or len(numbers) % size:
        return 9, output, f"input ends with {len(numbers) % size} of {size} numbers"
    return 0, output, ""
