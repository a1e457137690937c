"""Requests of several dimensions. Each dimension has a request of its own, on one processor and one lane."""

import re
from collections import namedtuple
from math import prod

import transforms
from transforms import LINE, NO_SPLIT, Request, best, check_budget, check_lanes, check_root, fits, is_plain

SIZES = r"\d+(?:x\d+){1,3}"
SEVERAL = re.compile(LINE.pattern.replace("(dft|idft|wht)", "dft").replace(r"(\d+)", f"({SIZES})", 1).replace(r"root (\d+)", f"root ({SIZES})"))


class Several(namedtuple("Several", "sizes roots modulus procs line lanes unroll budget weight")):
    kind = "dft"

    @property
    def size(self):
        return prod(self.sizes)

    @property
    def parts(self):
        rest = (self.unroll, self.budget, self.weight)
        return tuple(Request("dft", n, self.modulus, w, 1, 1, 1, *rest) for n, w in zip(self.sizes, self.roots))

    @property
    def others(self):
        """The dimensions after the first, on one processor and one lane."""
        return self._replace(sizes=self.sizes[1:], roots=self.roots[1:], procs=1, line=1, lanes=1)


def read_request(line):
    """A request of one size or of several dimensions."""
    found = SEVERAL.fullmatch(line)
    if not found:
        return transforms.read_request(line)
    sizes, modulus, roots, *options = found.groups()
    absent = (1, 1, 1, 8, 10**8, 1)
    numbers = (default if text is None else int(text) for text, default in zip(options, absent))
    return Several(*[tuple(map(int, text.split("x"))) for text in (sizes, roots)], int(modulus), *numbers)


def row(request, k):
    """Row k of the matrix: a digit of k for each size, the last size fastest, and the product of the roots' powers."""
    if not isinstance(request, Several):
        return transforms.row(request, k)
    digits = []
    for size in reversed(request.sizes):
        digits.insert(0, k % size)
        k //= size
    values = [1 % request.modulus]
    for size, root, digit in zip(request.sizes, request.roots, digits):
        powers = [pow(root, digit * l, request.modulus) for l in range(size)]
        values = [value * power % request.modulus for value in values for power in powers]
    return values


def transform(request, data):
    """The matrix times the data."""
    rows = (row(request, k) for k in range(request.size))
    return [sum(x * y for x, y in zip(values, data)) % request.modulus for values in rows]


def admitted(request):
    """The least cost and the chosen trees: of one size the tree, of several dimensions one for each."""
    if not isinstance(request, Several):
        return transforms.admitted(request)
    check_lanes(request)
    for part in request.parts:
        check_root(part)
    first = request.sizes[0]
    if not is_plain(request) and not fits(request, first, request.size // first):
        raise NO_SPLIT
    choices = [best(part, part.size) for part in request.parts]
    cost = sum(request.size // part.size * least for part, (least, _) in zip(request.parts, choices))
    check_budget(request, cost)
    return cost, tuple(tree for _, tree in choices)


def tree_text(request, tree):
    if not isinstance(request, Several):
        return transforms.tree_text(transforms.forward(request), tree)
    *others, text = [transforms.tree_text(part, one) for part, one in zip(request.parts, tree)]
    for other in reversed(others):
        text = f"dim({other},{text})"
    return text


def formula(request, tree):
    if not isinstance(request, Several):
        return transforms.formula(request, tree)
    *others, (last, text) = [(part.size, transforms.formula(part, one)) for part, one in zip(request.parts, tree)]
    size = last
    for r, other in reversed(others):
        text = f"TIMES(LEFT({other},{size}),RIGHT({r},{text}))"
        size *= r
    return text


def certificate(request):
    """The certificate that `cert` writes: of several dimensions a list of theirs."""
    if not isinstance(request, Several):
        return transforms.certificate(request, transforms.certificate_rows(request)) + "\n"
    return "[" + ",".join(certificate(part).rstrip("\n") for part in request.parts) + "]\n"
