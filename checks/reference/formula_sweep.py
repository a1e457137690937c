"""Formulas for the sweep: those that documents and limits name, and random ones of every kind."""

from collections import Counter

from formulas import RING, answered, applied, operations, read_formula
from listings import read_listing
from machine import Machine
from strangers import Checked

MODULI = [2, 3, 7, 10, 17, 97, 256, 65537, 998244353, 2**61 - 1, 2**62 - 1]

NAMED = """
I(1)
I(7)
I(1048576)
DFT(1,0)
DFT(1,4611686018427387903)
DFT(2,3)
DFT(8,3)
DFT(9,2)
DFT(13,0)
WHT(1)
WHT(2)
WHT(64)
L(1,1)
L(12,3)
PERM(0)
PERM(2,0,1,3)
T(12,4,5)
T(6,1,3)
T(6,6,3)
DIAG(0)
DIAG(3,5)
DIAG(4611686018427387903,1,4611686018427387902)
GTIN(3,4)
GTOUT(3,4)
GTOUT(4,3)
SUM(I(1),DIAG(3,5))
SUM(WHT(8),I(3))
SUM(TIMES(DFT(3,2),DFT(3,4)),SUM(L(6,2),TIMES(DIAG(2,3,4,5),TIMES(WHT(4),TIMES(WHT(4),L(4,2))))))
TIMES(LEFT(DFT(2,16),2),L(4,2))
TIMES(DIAG(2,3,4),TIMES(DIAG(5,6,7),DIAG(8,9,1)))
TIMES(DFT(3,2),TIMES(DIAG(2,3,4),TIMES(DIAG(5,6,7),DIAG(8,9,1))))
TIMES(DIAG(5,6,7),TIMES(DIAG(2,3,4),DFT(3,2)))
TIMES(DIAG(2,3,4,5),TIMES(L(4,2),DFT(4,2)))
TIMES(L(12,3),TIMES(DIAG(1,2,3,4,5,6,7,8,9,10,11,12),TIMES(L(12,2),TIMES(T(12,4,3),L(12,4)))))
TIMES(GTOUT(3,5),TIMES(LEFT(DFT(3,2),5),TIMES(RIGHT(3,DFT(5,3)),GTIN(3,5))))
LEFT(SUM(DFT(2,3),DIAG(2,5)),3)
RIGHT(3,SUM(L(4,2),WHT(2)))
LEFT(RIGHT(2,LEFT(SUM(TIMES(DFT(2,3),DIAG(4,5)),PERM(1,2,0)),2)),2)
RIGHT(1,LEFT(DFT(3,2),1))
LEFT(PERM(1,2,0),4)
TIMES(LEFT(PERM(1,2,0),4),DFT(12,5))
TIMES(DFT(12,5),RIGHT(4,PERM(1,2,0)))
DFT(1000,0)
"""

FAULTS = """

I
I(0)
I(01)
I(1048577)
I(1048576
I(1)x
X(1)
DFT(2)
DFT(2,3
DFT(2,4611686018427387904)
DIAG()
DIAG(1,)
PERM(0,0)
PERM(1,2)
PERM(4611686018427387904)
L(6,4)
T(6,4,1)
GTIN(2,4)
GTIN(1,4)
GTOUT(6,3)
GTOUT(1100,1099)
WHT(6)
TIMES(I(2),I(3))
TIMES(I(2),TIMES(I(3),I(4)))
SUM(I(1048576),I(1))
LEFT(I(1048576),2)
RIGHT(1048576,LEFT(I(1),1048576))
RIGHT(0,I(1))
LEFT(I(1),0)
TIMES(I(2);I(2))
TIMES(I(2))
SUM(I(2),I(2)
 I(2)
I(2)\r
LEFTI(2)
DI
"""


def nested(depth):
    return "RIGHT(1," * (depth - 1) + "DFT(3,2)" + ")" * (depth - 1)


def chain(parts):
    """The product of the parts, by halves, since few parentheses may be open at once."""
    if len(parts) == 1:
        return parts[0]
    half = len(parts) // 2
    return f"TIMES({chain(parts[:half])},{chain(parts[half:])})"


def sums(parts):
    if len(parts) == 1:
        return parts[0]
    half = len(parts) // 2
    return f"SUM({sums(parts[:half])},{sums(parts[half:])})"


def long_ones():
    """Chains of permutations whose places grow at each step, deep texts, and parts of unequal length."""
    yield nested(127)
    yield nested(128)
    yield chain(["L(64,2)", "L(64,8)"] * 50)
    yield chain(["LEFT(L(12,2),5)", "RIGHT(5,L(12,3))", "GTIN(4,15)"] * 33)
    yield chain(["DFT(60,7)", *["GTOUT(5,12)", "L(60,5)", "PERM({})".format(",".join(map(str, range(59, -1, -1))))] * 8])
    yield chain([*["T(64,16,3)", "L(64,4)"] * 12, "WHT(64)"])
    yield sums(["WHT(16)", chain(["DFT(5,2)"] * 30), "I(3)", "PERM(1,2,0)", chain(["L(6,2)"] * 9)])
    yield chain(["WHT(2)"] * 2000)


class Maker:
    """Random formulas of a given size."""

    def __init__(self, numbers):
        self.numbers = numbers

    def value(self):
        return self.numbers.one_of([0, 1, 2, 3, 5, 16, self.numbers.below(1000), self.numbers.next() % RING])

    def listed(self, count):
        return ",".join(str(self.value()) for _ in range(count))

    def shuffled(self, count):
        places = list(range(count))
        for at in range(count - 1, 0, -1):
            to = self.numbers.below(at + 1)
            places[at], places[to] = places[to], places[at]
        return ",".join(map(str, places))

    def leaf(self, size):
        divisors = [d for d in range(1, size + 1) if size % d == 0]
        pick = self.numbers.one_of(divisors)
        coprime = [r for r in divisors if 1 < r < size and self.gcd(r, size // r) == 1]
        kinds = [f"I({size})", f"DFT({size},{self.value()})", f"L({size},{pick})", f"T({size},{pick},{self.value()})"]
        kinds += [f"DIAG({self.listed(size)})", f"PERM({self.shuffled(size)})", f"DFT({size},{self.value()})"]
        if coprime:
            r = self.numbers.one_of(coprime)
            kinds += [f"GTIN({r},{size // r})", f"GTOUT({r},{size // r})"]
        if size & (size - 1) == 0:
            kinds += [f"WHT({size})"]
        return self.numbers.one_of(kinds)

    @staticmethod
    def gcd(a, b):
        while b:
            a, b = b, a % b
        return a

    def formula(self, size, depth):
        if depth == 0 or self.numbers.below(8) == 0:
            return self.leaf(size)
        divisors = [d for d in range(1, size + 1) if size % d == 0]
        kind = self.numbers.below(8)
        if kind < 4:
            return f"TIMES({self.formula(size, depth - 1)},{self.formula(size, depth - 1)})"
        if kind < 6:
            k = self.numbers.one_of(divisors)
            part = self.formula(size // k, depth - 1)
            return f"LEFT({part},{k})" if kind == 4 else f"RIGHT({k},{part})"
        if size == 1:
            return self.leaf(1)
        first = 1 + self.numbers.below(size - 1)
        return f"SUM({self.formula(first, depth - 1)},{self.formula(size - first, depth - 1)})"


def random_formulas(numbers, count):
    maker = Maker(numbers)
    return [maker.formula(1 + numbers.below(36), 1 + numbers.below(6)) for _ in range(count)]


def listing_is_right(text, formula, modulus, vector):
    """The listing is for one processor, is no stranger to the check of listings, leaves the formula's product in one
    phase, and has the formula's operations."""
    program = read_listing(text.encode())
    request, checked = program.request, Checked(program)
    machine = Machine(request, program.registers, checked.lists, vector)
    for event in machine.completion():
        machine.event(*event)
    words = Counter(word for word, *_ in checked.lists[0][0])
    return (
        (request.size, request.modulus, request.procs, request.line, request.lanes) == (formula.size, modulus, 1, 1, 1)
        and checked.fault is None
        and len(checked.lists) == 1
        and machine.results() == applied(formula, vector, modulus)
        and words["add"] + words["sub"] + words["neg"] + words["mul"] == operations(formula, modulus)
    )


def vector_of(numbers, size, modulus):
    return [numbers.next() % modulus for _ in range(size)]


def formula_swept(sweep, text, modulus, numbers):
    """The program of the formula, as a listing that is run here and by `exec`, and the results that `apply` writes."""
    formula = read_formula(text)
    vectors = [vector_of(numbers, formula.size, modulus), [modulus - 1] * formula.size]
    data = "\n".join(" ".join(map(str, vector)) for vector in vectors)
    results = answered(f"{text}\n{data}", modulus)[1]
    sweep.compare(f"apply --mod {modulus}", f"{text}\n{data}", results)
    code, listing, _ = sweep.call(f"compile --mod {modulus}", text)
    is_right = code == 0 and (formula.size > 200 or listing_is_right(listing, formula, modulus, vectors[0]))
    sweep.count(is_right, f"compile --mod {modulus}, {text[:200]}")
    sweep.compare(f"exec --schedule seed:{numbers.next()}:20", f"{listing}\n{data}", results)


def changed(numbers, text):
    """The text with a byte changed, left out or put in, or cut off."""
    at = numbers.below(len(text) + 1)
    byte = numbers.one_of("0123456789(),IDFTWHLPERMGSUAQN x")
    return numbers.one_of([text[:at], text[:at] + byte + text[at + 1 :], text[:at] + text[at + 1 :], text[:at] + byte + text[at:]])


def formulas_swept(sweep, numbers):
    for text in NAMED.split("\n")[1:-1]:
        formula_swept(sweep, text, numbers.one_of(MODULI), numbers)
    for text in long_ones():
        formula_swept(sweep, text, numbers.one_of(MODULI), numbers)
    for text in random_formulas(numbers, 1000):
        formula_swept(sweep, text, numbers.one_of(MODULI), numbers)
    faults = FAULTS.replace("\\r", "\r").split("\n")[1:-1] + [nested(129), f"I(1){' ' * 65532}", f"I(1){' ' * 65533}"]
    faults += [changed(numbers, text) for text in random_formulas(numbers, 600)]
    for text in faults:
        for command in ("apply", "compile"):
            told = answered(text, 7)
            if told[0] or command == "apply":
                sweep.compare(f"{command} --mod 7", text, told)
    sweep.compare("apply --mod 7", "I(2)\n1 2 3", answered("I(2)\n1 2 3", 7))
