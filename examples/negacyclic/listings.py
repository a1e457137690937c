"""Listings as tables and lines, whose straight runs may be rewritten with registers of any number."""

import re
import sys

HEADER = re.compile(r"program size (\d+) mod (\d+) procs (\d+) line (\d+) lanes (\d+) regs (\d+)$")
PLACE = re.compile(r"([A-Z]|t\d+)\[(.*)\]$")
REGISTER = re.compile(r"r\d+$")
TERM = re.compile(r"(q|v\d+)\*(\d+)$")


class Listing:
    """A listing of `spiral code`: what its header says, its tables, and the words of each line after them."""

    def __init__(self, text, program):
        first, *rest = text.splitlines() or [""]
        found = HEADER.match(first)
        if not found:
            sys.exit(f"{program}: standard input is no listing of `spiral code`")
        self.size, self.modulus, self.procs, self.line, self.lanes, self.registers = map(int, found.groups())
        self.program = program
        self.tables = [list(map(int, line.split()[3:])) for line in rest if line.startswith("table ")]
        self.lines = [line.split() for line in rest[len(self.tables) :]]

    def fresh(self, count=1):
        """The first of so many registers that no line has yet."""
        self.registers += count
        return self.registers - count

    def refuse(self, why):
        sys.exit(f"{self.program}: {why}")

    def runs(self):
        """The straight runs, each with the counts of the loops round it; q has as many values as there are processors."""
        loops, run = {"q": self.procs}, []
        for words in self.lines:
            if words[0] in ("phase", "for", "end"):
                if run:
                    yield dict(loops), run
                    run = []
                if words[0] == "for":
                    loops[words[1]] = int(words[2])
                elif words[0] == "end" and len(loops) > 1:
                    loops.popitem()
            else:
                run.append(words)

    def rewritten(self, change):
        """The listing with what the change makes of each straight run, given the loops round it."""
        runs, lines, inside = self.runs(), [], False
        for words in self.lines:
            straight = words[0] not in ("phase", "for", "end")
            if straight and not inside:
                lines += change(*next(runs))
            elif not straight:
                lines.append(words)
            inside = straight
        self.lines = lines

    def numbered(self, run):
        """The run with registers from r0 on, in the order in which it puts them; none where a register has its value from
        before the run, or where the registers of a tile do not stay side by side."""
        numbers, count, lines = {}, 0, []
        for name, *words in run:
            put = [] if name == "st" else [int(words.pop(0)[1:])]
            taken = [int(word[1:]) for word in words if REGISTER.match(word)]
            if name == "tile":
                put, taken = ([first + k for k in range(self.lanes)] for first in (put[0], taken[0]))
            new = [numbers.get(register) for register in taken]
            if None in new or (name == "tile" and new != list(range(new[0], new[0] + self.lanes))):
                return None
            words = [f"r{numbers[int(word[1:])]}" if REGISTER.match(word) else word for word in words]
            lines.append([name, *([f"r{count}"] if put else []), *words])
            numbers.update((register, count + k) for k, register in enumerate(put))
            count += len(put)
        self.most = max(self.most, count)
        return lines

    def number(self):
        """Numbers the registers of each run anew, if that can be done in all of them."""
        self.most = 1
        new = [self.numbered(run) for _, run in self.runs()]
        if None not in new:
            runs = iter(new)
            self.rewritten(lambda loops, run: next(runs))
            self.registers = self.most

    def text(self):
        """The listing with its registers numbered anew, and without tables that it does not use."""
        self.number()
        used = sorted({int(PLACE.match(words[3])[1][1:]) for words in self.lines if by_table(words)})
        lines = [[table_moved(word, used) for word in words] for words in self.lines]
        header = f"program size {self.size} mod {self.modulus} procs {self.procs} line {self.line} lanes {self.lanes}"
        tables = [f"table {k} values {' '.join(map(str, self.tables[table]))}" for k, table in enumerate(used)]
        return "\n".join([f"{header} regs {self.registers}", *tables, *map(" ".join, lines)]) + "\n"


def by_table(words):
    return words[0] == "mul" and PLACE.match(words[3]) is not None


def table_moved(word, used):
    found = re.match(r"t(\d+)\[", word)
    return f"t{used.index(int(found[1]))}[{word[found.end() :]}" if found else word


def place_of(text):
    """The constant of a place, and its terms as pairs of a variable and its step; none where it has others."""
    constant, *terms = PLACE.match(text)[2].split("+")
    found = [TERM.match(term) for term in terms]
    return (int(constant), [(term[1], int(term[2])) for term in found]) if all(found) else None
