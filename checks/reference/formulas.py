"""Formulas: reading their text, what they do to a vector, their operations, and what `compile` and `apply` answer."""

from collections import namedtuple
from math import gcd
from operator import mul

SIZES, RING, DEEPEST = 2**20, 2**62, 128

# The arguments of each kind: a size (s), a ring value (r), a list of ring values (R), a formula (F).
KINDS = {"I": "s", "DFT": "sr", "WHT": "s", "L": "ss", "T": "ssr", "DIAG": "R", "PERM": "R", "GTIN": "ss", "GTOUT": "ss"}
KINDS |= {"TIMES": "FF", "LEFT": "Fs", "RIGHT": "sF", "SUM": "FF"}

Formula = namedtuple("Formula", "kind parts size")


class Fault(Exception):
    """The exit code and the note of a text that is no formula."""


def syntax(at):
    return Fault(3, f"syntax at byte {at}")


class Reader:
    def __init__(self, text):
        self.text, self.at, self.open = text, 0, 0

    def byte(self, wanted):
        if self.text[self.at : self.at + 1] != wanted:
            raise syntax(self.at)
        self.at += 1

    def number(self, least, most):
        """A number without a leading zero. No digit is taken with which it could not go on to be one."""
        start = self.at
        while self.text[self.at : self.at + 1].isdigit() and self.text[self.at] in "0123456789":
            digits = self.text[start : self.at + 1]
            if int(digits) > most or (digits == "0" and least > 0) or (len(digits) > 1 and digits[0] == "0"):
                break
            self.at += 1
        if start == self.at:
            raise syntax(self.at)
        return int(self.text[start : self.at])

    def kind(self):
        """The longest front of a kind and its parenthesis that stands here."""
        best = 0
        for kind in KINDS:
            word = kind + "("
            length = next((i for i, c in enumerate(word) if self.text[self.at + i : self.at + i + 1] != c), len(word))
            if length == len(word):
                if self.open == DEEPEST:
                    raise Fault(17, f"formula too deep at byte {self.at + len(kind)}")
                self.at += length
                return kind
            best = max(best, length)
        raise syntax(self.at + best)

    def argument(self, sort):
        if sort == "s":
            return self.number(1, SIZES)
        if sort == "r":
            return self.number(0, RING - 1)
        if sort == "F":
            return self.formula()
        values = [self.number(0, RING - 1)]
        while self.text[self.at : self.at + 1] == ",":
            self.at += 1
            values.append(self.number(0, RING - 1))
        return values

    def formula(self):
        start, kind = self.at, self.kind()
        self.open += 1
        parts = []
        for number, sort in enumerate(KINDS[kind]):
            if number:
                self.byte(",")
            parts.append(self.argument(sort))
        self.byte(")")
        self.open -= 1
        pair = misfit(kind, parts)
        if pair:
            raise Fault(16, f"formula shape at byte {start}: {pair[0]} and {pair[1]}")
        return Formula(kind, parts, size_of(kind, parts))


def size_of(kind, parts):
    if kind in ("DIAG", "PERM"):
        return len(parts[0])
    if kind in ("GTIN", "GTOUT"):
        return parts[0] * parts[1]
    if kind in ("TIMES", "LEFT", "RIGHT", "SUM"):
        a, b = (part.size if isinstance(part, Formula) else part for part in parts)
        return {"TIMES": a, "SUM": a + b}.get(kind, a * b)
    return parts[0]


def misfit(kind, parts):
    """The two numbers of the first test that the part fails."""
    if kind == "TIMES" and parts[0].size != parts[1].size:
        return parts[0].size, parts[1].size
    if kind in ("L", "T") and parts[0] % parts[1]:
        return parts[0], parts[1]
    if kind in ("GTIN", "GTOUT") and (gcd(*parts) != 1 or 1 in parts):
        return parts[0], parts[1]
    if kind == "WHT" and parts[0] & (parts[0] - 1):
        return parts[0], 2
    if kind == "PERM":
        length, seen = len(parts[0]), set()
        for entry in parts[0]:
            if entry >= length or entry in seen:
                return length, entry
            seen.add(entry)
    size = size_of(kind, parts)
    return (size, SIZES) if size > SIZES else None


def read_formula(text):
    reader = Reader(text)
    found = reader.formula()
    if reader.at < len(text):
        raise syntax(reader.at)
    return found


def coprime_places(r, s):
    """Where the two permutations of Good and Thomas take the item i * s + j from, and where they put it."""
    n = r * s
    taken = [(s * i + r * j) % n for i in range(r) for j in range(s)]
    back = [pow(s, -1, r) * s, pow(r, -1, s) * r]
    put = [(back[0] * i + back[1] * j) % n for i in range(r) for j in range(s)]
    return taken, put


def factors(kind, parts, modulus):
    """The values of a diagonal."""
    if kind == "DIAG":
        return parts[0]
    n, s, w = parts
    return [value for i in range(n // s) for value in powers(pow(w, i, modulus), s, modulus)]


def powers(root, count, modulus):
    values = [1 % modulus]
    for _ in range(count - 1):
        values.append(values[-1] * root % modulus)
    return values


def leaf(formula, x, modulus):
    kind, parts, n = formula
    if kind == "DFT":
        rows = (powers(pow(parts[1], k, modulus), n, modulus) for k in range(n))
        return [sum(map(mul, row, x)) % modulus for row in rows]
    if kind == "WHT":
        return [sum(-v if bin(k & l).count("1") % 2 else v for l, v in enumerate(x)) % modulus for k in range(n)]
    if kind in ("T", "DIAG"):
        return [f * v % modulus for f, v in zip(factors(kind, parts, modulus), x)]
    if kind == "L":
        r, s = parts[1], n // parts[1]
        return [x[j * r + i] for i in range(r) for j in range(s)]
    if kind == "PERM":
        return [x[k] for k in parts[0]]
    if kind == "GTIN":
        return [x[k] for k in coprime_places(*parts)[0]]
    if kind == "GTOUT":
        y = [0] * n
        for place, v in zip(coprime_places(*parts)[1], x):
            y[place] = v
        return y
    return x


def applied(formula, x, modulus):
    """The formula's matrix times the vector."""
    kind, parts, n = formula
    if kind == "TIMES":
        return applied(parts[0], applied(parts[1], x, modulus), modulus)
    if kind == "LEFT":
        columns = [applied(parts[0], x[c :: parts[1]], modulus) for c in range(parts[1])]
        return [v for row in zip(*columns) for v in row]
    if kind == "RIGHT":
        size = parts[1].size
        return [v for at in range(0, n, size) for v in applied(parts[1], x[at : at + size], modulus)]
    if kind == "SUM":
        size = parts[0].size
        return applied(parts[0], x[:size], modulus) + applied(parts[1], x[size:], modulus)
    return [v % modulus for v in leaf(formula, x, modulus)]


def operations(formula, modulus):
    kind, parts, n = formula
    if kind == "DFT":
        entries = (pow(parts[1], k * l, modulus) for k in range(n) for l in range(n))
        return 2 * n * n if n > 8 else n * (n - 1) + sum(entry not in (1, modulus - 1) for entry in entries)
    if kind == "WHT":
        return n * (n.bit_length() - 1)
    if kind in ("T", "DIAG"):
        return n
    if kind in ("LEFT", "RIGHT"):
        part, copies = parts if kind == "LEFT" else reversed(parts)
        return copies * operations(part, modulus)
    return sum(operations(part, modulus) for part in parts) if kind in ("TIMES", "SUM") else 0


def split(text):
    """The first line, and the data."""
    line, _, rest = text.partition("\n")
    return line, rest


def answered(text, modulus):
    """What `apply` answers where the data are good tokens: status, output and note."""
    line, rest = split(text)
    if len(line) > 65536:
        return 13, "", "more than 65536 bytes"
    try:
        formula = read_formula(line)
    except Fault as fault:
        return fault.args[0], "", fault.args[1]
    numbers, output = [int(token) % modulus for token in rest.split()], ""
    n = formula.size
    for at in range(0, len(numbers) - n + 1, n):
        output += " ".join(map(str, applied(formula, numbers[at : at + n], modulus))) + "\n"
    over = len(numbers) % n
    return (9, output, f"input ends with {over} of {n} numbers") if over else (0, output, "")
