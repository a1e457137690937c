"""Listings that others wrote: what is wrong with one, and what `exec` answers."""

from emission import padded
from listings import Lost, read_listing
from machine import Machine

MOST_ACTIONS, WORD = 10**8, 2**64


class Outside(Exception):
    """A number on the way to a place is no word."""


def as_word(number):
    if number >= WORD:
        raise Outside
    return number


def value_of(place, values):
    """The place where the loops and the processor have these values, by depth. No number on the way passes a word."""
    total = place.constant
    for factor, depths in place.variables:
        for depth in depths:
            factor = as_word(factor * values[depth])
        total = as_word(total + factor)
    for inner, sign, divisor, factor in place.divisions:
        inside = value_of(inner, values)
        inside = inside % divisor if sign == "%" else inside // divisor
        total = as_word(total + as_word(inside * factor))
    return total


def count(statements):
    """How many actions a processor has there."""
    return sum(s[1] * count(s[2]) if s[0] == "for" else 1 for s in statements)


def steps(statements, values, depth=0):
    """Each statement as often as it is done, with the values of its loops. A loop without actions is passed over."""
    for statement in statements:
        if statement[0] != "for":
            yield statement, values
        elif count(statement[2]):
            for value in range(statement[1]):
                yield from steps(statement[2], {**values, depth: value}, depth + 1)


class Checked:
    """The lists of actions of a program, and its first fault."""

    def __init__(self, program):
        self.program, self.request, self.fault = program, program.request, None
        self.lists = []
        phases = range(len(program.phases))
        if self.request.procs * sum(map(count, program.phases)) > MOST_ACTIONS:
            self.fault = 22, f"more than {MOST_ACTIONS} actions"
        else:
            self.lists = [[self.actions(f, q) for q in range(self.request.procs)] for f in phases]
        for phase in phases if not self.fault else ():
            self.fault = self.fault or self.shared(phase)

    def actions(self, phase, q):
        found = []
        for number, (statement, values) in enumerate(steps(self.program.phases[phase], {-1: q})):
            if self.fault:
                break
            where = f"in phase {phase}, processor {q}, action {number}"
            try:
                action = self.action(statement, values)
            except Outside:
                self.fault = 19, f"bad place {where}"
                break
            if self.registers_meet_or_pass(*action):
                self.fault = 20, f"bad register {where}"
            found.append(action)
        return found

    def action(self, statement, values):
        """The action of a statement, with absolute addresses and the factors of all lanes."""
        word, *operands = statement
        lanes = self.request.lanes
        if word == "ld":
            return word, operands[0], self.address(*operands[1:], values)
        if word == "st":
            return word, self.address(*operands[:2], values), operands[2]
        if word == "mul":
            return word, *operands[:2], [operands[2]] * lanes
        if word == "mul by":
            to, source, table, place, step = operands
            at = value_of(place, values)
            places = [as_word(at + step * lane) for lane in range(lanes)]
            if table >= len(self.program.tables) or max(places) >= len(self.program.tables[table]):
                raise Outside
            return "mul", to, source, [self.program.tables[table][place] for place in places]
        return statement

    def address(self, array, place, values):
        at, room = value_of(place, values), padded(self.request)
        if at + self.request.lanes > room:
            raise Outside
        return "XYAB".index(array) * room + at

    def registers_meet_or_pass(self, word, *operands):
        lanes = self.request.lanes
        if word == "tile":
            to, source = operands
            return max(to, source) + lanes > self.program.registers or abs(to - source) < lanes
        named = {"ld": operands[:1], "st": operands[1:], "mul": operands[:2]}.get(word, operands)
        return any(register >= self.program.registers for register in named)

    def shared(self, phase):
        """The phase's first line that a processor writes and another touches."""
        written, touched = {}, {}
        for q, actions in enumerate(self.lists[phase]):
            for word, *operands in actions:
                if word in ("ld", "st"):
                    first = operands[1] if word == "ld" else operands[0]
                    lines = {(first + lane) // self.request.line for lane in range(self.request.lanes)}
                    for line in lines:
                        touched.setdefault(line, set()).add(q)
                        if word == "st":
                            written.setdefault(line, set()).add(q)
        for line in sorted(written):
            for a in sorted(written[line]):
                others = touched[line] - {a}
                if others:
                    return 21, f"phase {phase} line {line} is shared by {a} and {min(others)}"
        return None


def parts_of(text):
    """The lines before the first empty one, and what stands after it."""
    if text.startswith(b"\n"):
        return b"", text[1:]
    front, empty, data = text.partition(b"\n\n")
    return (front + b"\n", data) if empty else (text, b"")


def executed(text):
    """What `exec` answers: status, output and note. The data are good tokens."""
    front, data = parts_of(text)
    try:
        program = read_listing(front)
    except Lost as lost:
        return 18, "", f"listing syntax at line {lost.args[0]}"
    checked = Checked(program)
    if checked.fault:
        return checked.fault[0], "", checked.fault[1]
    request = program.request
    numbers = [int(token) % request.modulus for token in data.split()]
    output = ""
    for at in range(0, len(numbers) - request.size + 1, request.size):
        machine = Machine(request, program.registers, checked.lists, numbers[at : at + request.size])
        for event in machine.completion():
            machine.event(*event)
        output += " ".join(map(str, machine.results())) + "\n"
    over = len(numbers) % request.size
    return (9, output, f"input ends with {over} of {request.size} numbers") if over else (0, output, "")
