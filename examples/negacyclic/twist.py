#!/usr/bin/env python3
"""Multiplies the words of a transform's input, or of its result, by powers of a number.

    spiral code < REQUEST | twist.py in BASE             word k of the input is multiplied by BASE^k first
    spiral code < REQUEST | twist.py out BASE [SCALE]    word k of the result is multiplied by SCALE * BASE^k at last

The request is a `dft`. If its root is BASE^2 and BASE^N is -1, its twisted listing is the transform modulo x^N + 1.
The factors go into the tables that the listing has, and as constants to the loads of X or the stores of Y, so no pass
and no table is added. With BASE^j for j = a * r + b, where a table joins r transforms, row b of the table takes
BASE^b, and what is left is a twist by powers of BASE^r before each of these transforms. Results are twisted in the
same way, by columns. Where the size has another tree, as one of coprime parts, there is one table more, for all words.
"""

import argparse
import sys

from listings import PLACE, Listing, by_table, place_of


def powers(base, scale, count, modulus):
    values = [scale % modulus]
    while len(values) < count:
        values.append(values[-1] * base % modulus)
    return values


def columns_of(table, modulus):
    """How many columns a table of w^(row * column) has, or none where it is no such table."""
    columns = next((k for k, value in enumerate(table) if value != 1), 1) - 1
    if columns < 1 or len(table) % columns != 0:
        return None
    root, wanted = table[columns + 1], []
    for row in range(len(table) // columns):
        wanted += powers(pow(root, row, modulus), 1, columns, modulus)
    return columns if table == wanted else None


class Twist:
    def __init__(self, listing, side, base, scale):
        self.listing, self.side, self.base, self.scale = listing, side, base, scale % listing.modulus
        self.end = ("ld", "X") if side == "in" else ("st", "Y")

    def joining(self):
        """The lines that multiply by the tables to be twisted: from the twisted end on, each joins more words than all
        before it."""
        uses = [words for words in self.listing.lines if by_table(words)]
        most, found = 0, []
        for words in uses if self.side == "in" else reversed(uses):
            table = int(PLACE.match(words[3])[1][1:])
            if len(self.listing.tables[table]) >= most:
                most = len(self.listing.tables[table])
                found.append((words, table))
        return found

    def shifted(self, table, columns):
        """The table with the twist of its rows, or of its columns, and the scale where it joins all words."""
        size, modulus = self.listing.size, self.listing.modulus
        base = pow(self.base, size // len(table), modulus)
        scale = self.scale if len(table) == size else 1
        by_row = self.side == "in"
        factors = powers(base, scale, len(table) // columns if by_row else columns, modulus)
        return [value * factors[k // columns if by_row else k % columns] % modulus for k, value in enumerate(table)]

    def constant(self, loops, place, step):
        """The factor for all words of a load or store, or none: the words' places are one multiple of the step, and
        less than the step beside it."""
        found = place_of(place)
        if not found:
            return None
        first, terms = found
        most = first % step + sum(width * (loops[name] - 1) for name, width in terms) + self.listing.lanes
        return pow(self.base, first // step * step, self.listing.modulus) if most <= step else None

    def ends(self):
        """The loads or stores at the twisted end, with the loops round them."""
        for loops, run in self.listing.runs():
            yield from ((loops, words) for words in run if self.is_end(words))

    def is_end(self, words):
        return words[0] == self.end[0] and words[1 + (words[0] == "ld")].startswith(self.end[1])

    def put_in(self):
        """Puts the twist into tables and constants, and tells whether it could."""
        listing, joining = self.listing, self.joining()
        columns = {table: columns_of(listing.tables[table], listing.modulus) for _, table in joining}
        if None in columns.values() or any(listing.size % len(listing.tables[table]) for table in columns):
            return False
        parts = listing.size
        if joining:
            first = joining[0][1]
            parts = columns[first] if self.side == "in" else len(listing.tables[first]) // columns[first]
        step = listing.size // parts
        ends = [(words, self.constant(loops, words[1 + (words[0] == "ld")], step)) for loops, words in self.ends()]
        if any(constant is None for _, constant in ends):
            return False
        new = {table: len(listing.tables) + k for k, table in enumerate(columns)}
        listing.tables += [self.shifted(listing.tables[table], columns[table]) for table in new]
        for words, table in joining:
            words[3] = words[3].replace(f"t{table}[", f"t{new[table]}[")
        scale = 1 if joining else self.scale
        factors = {id(words): constant * scale % listing.modulus for words, constant in ends}
        listing.rewritten(lambda loops, run: self.multiplied(run, lambda words: [str(factors[id(words)])]))
        return True

    def put_table(self):
        """Puts the twist into one table more, for all words."""
        listing = self.listing
        listing.tables.append(powers(self.base, self.scale, listing.size, listing.modulus))

        def factor(words):
            place = PLACE.match(words[1 + (words[0] == "ld")])[2]
            return [f"t{len(listing.tables) - 1}[{place}]", "step", str(int(listing.lanes > 1))]

        listing.rewritten(lambda loops, run: self.multiplied(run, factor))

    def multiplied(self, run, factor):
        """The run with a product at each load or store, but none by one."""
        lines = []
        for words in run:
            by = factor(words) if self.is_end(words) else ["1"]
            if by == ["1"]:
                lines.append(words)
                continue
            new = f"r{self.listing.fresh()}"
            if words[0] == "ld":
                lines += [["ld", new, words[2]], ["mul", words[1], new, *by]]
            else:
                lines += [["mul", new, words[2], *by], ["st", words[1], new]]
        return lines


def twist(listing, side, base, scale=1):
    """Twists the listing in place."""
    way = Twist(listing, side, base % listing.modulus, scale)
    if not way.put_in():
        way.put_table()


def main():
    parser = argparse.ArgumentParser(description=__doc__, formatter_class=argparse.RawDescriptionHelpFormatter)
    parser.add_argument("side", choices=("in", "out"), help="the input or the result")
    parser.add_argument("base", type=int, metavar="BASE", help="the number whose powers are the factors")
    parser.add_argument("scale", type=int, metavar="SCALE", nargs="?", default=1, help="a factor of all words, 1")
    words = parser.parse_args()
    listing = Listing(sys.stdin.read(), "twist.py")
    twist(listing, words.side, words.base, words.scale)
    sys.stdout.write(listing.text())


if __name__ == "__main__":
    main()
