"""Reading listings, line by line: the program of a text, or the first line after which no listing goes on."""

import re
from collections import namedtuple

from emission import Program
from transforms import Request

NUMBER = re.compile(r"0|[1-9][0-9]*")
WORD = 2**32
DEEPEST, MOST_PARTS = 64, 64

# A constant and parts. A part is a factor and what it multiplies: one loop's variable or two, given by their depths (the
# processor has depth -1), or the remainder or quotient of an expression by a divisor.
Expression = namedtuple("Expression", "constant variables divisions")
Division = namedtuple("Division", "inner sign divisor factor")

HEADER = (("size", 1, 2**20), ("mod", 2, 2**62 - 1), ("procs", 1, 16), ("line", 1, 64), ("lanes", 1, 16))
MOST_REGISTERS = 2**20 - 1


class Lost(Exception):
    """The number of a line."""


class Line:
    """What is left of a line. What does not stand there as it should is a ValueError."""

    def __init__(self, text):
        self.text = text

    def has(self, word):
        """Whether the word is next, which is then taken."""
        found = self.text.startswith(word)
        self.text = self.text[len(word) :] if found else self.text
        return found

    def word(self, word):
        if not self.has(word):
            raise ValueError(word)

    def number(self, least, most):
        found = NUMBER.match(self.text)
        if not found or not least <= int(found[0]) <= most:
            raise ValueError("number")
        self.text = self.text[found.end() :]
        return int(found[0])

    def register(self):
        self.word(" r")
        return self.number(0, WORD - 1)

    def end(self):
        if self.text:
            raise ValueError("end")


class Place:
    """The reader of one place, inside a number of loops. Parts count at every level."""

    def __init__(self, line, loops):
        self.line, self.loops, self.parts = line, loops, 0

    def variable(self):
        if self.line.has("q*"):
            return (-1,)
        self.line.word("v")
        first = self.line.number(0, self.loops - 1)
        self.line.word("*")
        if not self.line.has("v"):
            return (first,)
        second = self.line.number(first + 1, self.loops - 1)
        self.line.word("*")
        return first, second

    def division(self, depth):
        inner = self.expression(depth + 1)
        self.line.word(")")
        sign = "%" if self.line.has("%") else "/"
        if sign == "/":
            self.line.word("/")
        divisor = self.line.number(1, WORD - 1)
        self.line.word("*")
        return Division(inner, sign, divisor, self.line.number(1, WORD - 1))

    def expression(self, depth=0):
        if depth > DEEPEST:
            raise ValueError("too deep")
        found, last = Expression(self.line.number(0, WORD - 1), [], []), (0,)
        while self.line.has("+"):
            self.parts += 1
            if self.parts > MOST_PARTS:
                raise ValueError("too many parts")
            if self.line.has("("):
                division = self.division(depth)
                key = (3,) if division.sign == "%" else (4,)
                in_order = last <= key
                found.divisions.append(division)
            else:
                depths = self.variable()
                key = (len(depths), depths)
                in_order = last < key
                found.variables.append((self.line.number(1, WORD - 1), depths))
            if not in_order:
                raise ValueError("order")
            last = key
        return found


def place(line, loops):
    line.word("[")
    found = Place(line, loops).expression()
    line.word("]")
    return found


def array(line):
    for name in "XYAB":
        if line.has(f" {name}"):
            return name
    raise ValueError("array")


def product(line, modulus, loops):
    to, source = line.register(), line.register()
    line.word(" ")
    if not line.has("t"):
        return "mul", to, source, line.number(0, modulus - 1)
    table = line.number(0, WORD - 1)
    at = place(line, loops)
    line.word(" step ")
    return "mul by", to, source, table, at, line.number(0, 1)


def statement(line, modulus, loops):
    if line.has("ld"):
        return "ld", line.register(), array(line), place(line, loops)
    if line.has("st"):
        return "st", array(line), place(line, loops), line.register()
    if line.has("mul"):
        return product(line, modulus, loops)
    for word, registers in (("zero", 1), ("add", 3), ("sub", 3), ("neg", 2), ("tile", 2)):
        if line.has(word):
            return word, *(line.register() for _ in range(registers))
    raise ValueError("statement")


class Reader:
    """What has been read: the header, the tables, the phases, and the bodies that are open, the phase's first."""

    def __init__(self):
        self.program, self.open = None, []

    def header(self, line):
        line.word("program")
        numbers = []
        for name, least, most in HEADER:
            line.word(f" {name} ")
            numbers.append(line.number(least, most))
        line.word(" regs ")
        size, modulus, procs, words, lanes = numbers
        request = Request(None, size, modulus, None, procs, words, lanes, None, None, None)
        self.program = Program(request, line.number(0, MOST_REGISTERS), [], [])

    def table(self, line):
        program = self.program
        line.number(len(program.tables), len(program.tables))
        line.word(" values")
        values = []
        while not values or line.text:
            line.word(" ")
            values.append(line.number(0, program.request.modulus - 1))
        program.tables.append(values)

    def outside(self, line):
        if not self.program.phases and line.has("table "):
            self.table(line)
        else:
            line.word("phase")
            self.open.append([])
            self.program.phases.append(self.open[0])

    def inside(self, line):
        loops = len(self.open) - 1
        if line.has("end"):
            self.open.pop()
        elif line.has(f"for v{loops} "):
            body = []
            if loops == DEEPEST:
                raise ValueError("too deep")
            self.open[-1].append(("for", line.number(1, WORD - 1), body))
            self.open.append(body)
        else:
            self.open[-1].append(statement(line, self.program.request.modulus, loops))

    def line(self, text):
        line = Line(text)
        if self.program is None:
            self.header(line)
        elif self.open:
            self.inside(line)
        else:
            self.outside(line)
        line.end()

    def is_whole(self):
        return self.program is not None and bool(self.program.phases) and not self.open


def read_listing(text):
    """The program of a text of bytes."""
    *lines, last = text.decode("latin-1").split("\n")
    reader = Reader()
    for number, line in enumerate(lines, 1):
        try:
            reader.line(line)
        except ValueError:
            raise Lost(number) from None
    if last or not reader.is_whole():
        raise Lost(len(lines) + 1)
    return reader.program
