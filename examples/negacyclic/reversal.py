"""Listings whose input, or whose results, stand with the bits of their numbers turned round, as FIPS 204 has them.

Word k of a result goes to the place whose bits are those of k from the last to the first. With lanes, a register holds
words side by side, and their new places are far apart. But the words of the other registers that differ in the first
bits come to stand side by side: so a tile turns squares of such words.
"""

from listings import place_of


class Reversal:
    def __init__(self, listing, side):
        self.listing, self.lanes, self.size = listing, listing.lanes, listing.size
        self.into, self.at = (["ld"], 2) if side == "in" else (["st"], 1)
        self.array = "X" if side == "in" else "Y"
        if self.size & self.size - 1 or self.lanes & self.lanes - 1:
            listing.refuse("an order by bits is of a power of two")
        if listing.procs > 1:
            listing.refuse("an order by bits is of one processor, since words of all lines go to one")

    def turned(self, place):
        return int(f"{place:0{self.size.bit_length() - 1}b}"[::-1], 2) if self.size > 1 else 0

    def turned_terms(self, name, step, count):
        """The term of a variable with its bits turned round: a term for each bit, with its rank among those of a place."""
        if count & count - 1 or step & step - 1:
            self.listing.refuse("an order by bits is of loops whose counts are powers of two")
        bits = count.bit_length() - 1
        for bit in range(bits):
            new = self.turned(step << bit)
            higher = f"(0+{name}*1)/{1 << bit}*" if bit else f"{name}*"
            if bit < bits - 1:
                yield 1, f"+(0+{higher}1)%2*{new}"
            else:
                yield 2 if bit else 0, f"+{higher}{new}"

    def is_end(self, words):
        return words[0] in self.into and words[self.at].startswith(self.array)

    def place(self, first, terms, loops):
        turned = [term for name, step in terms for term in self.turned_terms(name, step, loops[name])]
        # those without a remainder come first, quotients last
        tail = "".join(term for _, term in sorted(turned, key=lambda ranked: ranked[0]))
        return f"{self.array}[{self.turned(first)}{tail}]"

    def squares(self, run):
        """The loads or stores of the run, V by V: those whose first bits alone differ, by these bits turned round."""
        rest, found = self.size // self.lanes, {}
        for words in run:
            if self.is_end(words):
                place = place_of(words[self.at])
                if place is None:
                    self.listing.refuse("an order by bits is of places that are sums of variables")
                found.setdefault((place[0] % rest, *place[1]), []).append((self.turned(place[0] // rest * rest), words))
        for (first, *terms), members in found.items():
            members.sort(key=lambda member: member[0])
            if [turned for turned, _ in members] != list(range(self.lanes)):
                self.listing.refuse("an order by bits is of parts of as many words as there are lanes, or more")
            yield first, terms, [words for _, words in members]

    def changed(self, loops, run):
        if not any(map(self.is_end, run)):
            return run
        return (self.loaded if self.at == 2 else self.stored)(loops, run)

    def loaded(self, loops, run):
        lines = []
        for first, terms, members in self.squares(run):
            source, target = (self.listing.fresh(self.lanes) for _ in range(2))
            lines += [["ld", f"r{source + k}", self.place(first + k, terms, loops)] for k in range(self.lanes)]
            lines += self.tile(target, source)
            for k, words in enumerate(members):
                run = renamed(run, words[1], f"r{(target if self.lanes > 1 else source) + k}")
        return lines + [words for words in run if not self.is_end(words)]

    def stored(self, loops, run):
        rest = [words for words in run if not self.is_end(words)]
        last, lines = [], []
        for first, terms, members in self.squares(run):
            source, target = (self.listing.fresh(self.lanes) for _ in range(2))
            for k, (_, _, register) in enumerate(members):
                made = [words for words in rest if words[1] == register]
                if len(made) != 1 or any(register in words[2:] for words in rest) or made[0][0] == "tile":
                    self.listing.refuse("an order by bits is of results that are used once")
                rest.remove(made[0])
                last.append([made[0][0], f"r{source + k}", *made[0][2:]])
            lines += self.tile(target, source)
            made = target if self.lanes > 1 else source
            lines += [["st", self.place(first + k, terms, loops), f"r{made + k}"] for k in range(self.lanes)]
        return rest + last + lines

    def tile(self, target, source):
        return [["tile", f"r{target}", f"r{source}"]] if self.lanes > 1 else []


def renamed(run, old, new):
    return [[new if word == old else word for word in words] for words in run]


def reverse(listing, side):
    """Turns the order of the input, or of the results, round in place."""
    listing.number()
    listing.rewritten(Reversal(listing, side).changed)
