"""Requests of one size, their matrices, and the trees by which their transforms are broken down."""

import re
from collections import namedtuple
from functools import lru_cache
from math import gcd
from operator import mul

WORDS = ("root", "procs", "line", "lanes", "unroll", "budget", "weight")
LINE = re.compile(r"(dft|idft|wht) (\d+) mod (\d+)" + "".join(rf"(?: {word} (\d+))?" for word in WORDS))

# A request's line. The root of a wht is 0.
Request = namedtuple("Request", "kind size modulus root procs line lanes unroll budget weight")


class Refused(Exception):
    """The exit code and the note of a request that is not done."""


def read_request(line):
    kind, *numbers = LINE.fullmatch(line).groups()
    absent = (None, None, 0, 1, 1, 1, 8, 10**8, 1)
    return Request(kind, *(default if text is None else int(text) for text, default in zip(numbers, absent)))


def forward(request):
    """The request whose trees and passes do the work: for an inverse that of the transform by the inverse root."""
    if request.kind != "idft":
        return request
    return request._replace(kind="dft", root=pow(request.root, request.size - 1, request.modulus))


def last_factor(request):
    """What the inverse multiplies each item by, at last; None for a transform."""
    return pow(request.size, -1, request.modulus) if request.kind == "idft" else None


def extra_cost(request):
    """What the inverse costs beside its tree."""
    return request.weight * request.size if request.kind == "idft" else 0


def is_plain(request):
    return request.procs == 1 and request.lanes == 1


# Matrices: a node of size d in a tree for DFT(n, w) computes DFT(d, w^(n/d)).


def root_of(request, d):
    return pow(request.root, request.size // d, request.modulus)


@lru_cache(maxsize=4)
def powers(request, d):
    """The powers of the root of a node of size d: all of them, since the power d is 1."""
    root, values = root_of(request, d), [1]
    for _ in range(d - 1):
        values.append(values[-1] * root % request.modulus)
    return values


def entry(request, d, k, l):
    """Row k, column l of the matrix of a node of size d."""
    if request.kind == "wht":
        return 1 if bin(k & l).count("1") % 2 == 0 else request.modulus - 1
    return powers(request, d)[k * l % d]


def row(request, k):
    """Row k of the request's matrix."""
    size = request.size
    if request.kind == "idft":
        return [last_factor(request) * value % request.modulus for value in row(forward(request), k)]
    if request.kind == "wht":
        return [entry(request, size, k, l) for l in range(size)]
    values = powers(request, size)
    return [values[k * l % size] for l in range(size)]


def transform(request, data):
    """The matrix times the data."""
    return [sum(map(mul, row(request, k), data)) % request.modulus for k in range(request.size)]


# Trees are tuples that sort in the order of trees: leaf, then gt, then ct or split; then the left part's size; then the
# left part; then the right part.

LEAF, GOOD_THOMAS, COOLEY_TUKEY = 0, 1, 2


def tree_size(tree):
    return tree[1] if tree[0] == LEAF else tree[1] * tree_size(tree[3])


def rule_name(request, tree):
    return "split" if request.kind == "wht" and tree[0] != LEAF else ("leaf", "gt", "ct")[tree[0]]


def tree_text(request, tree):
    if tree[0] == LEAF:
        return f"leaf({tree[1]})"
    return f"{rule_name(request, tree)}({tree_text(request, tree[2])},{tree_text(request, tree[3])})"


def is_whole(request, d):
    """Whether the node is a root whose parts are spread over processors or lanes."""
    return d == request.size and not is_plain(request)


def is_kernel(request, d):
    """Whether a node of size d becomes straight-line code."""
    return d <= request.unroll and not is_whole(request, d)


def fits(request, r, s):
    """Whether processors take whole lines of both parts, and lanes whole vectors."""
    lines = request.procs * request.line if request.procs > 1 else 1
    return all(part % lines == 0 and part % request.lanes == 0 for part in (r, s))


def splits(request, d):
    """The rules, and the sizes of their left and right parts, that a node of size d may have."""
    for r in range(2, d // 2 + 1):
        if d % r == 0:
            if request.kind == "dft" and gcd(r, d // r) == 1 and not is_whole(request, d):
                yield GOOD_THOMAS, r, d // r
            if not is_whole(request, d) or fits(request, r, d // r):
                yield COOLEY_TUKEY, r, d // r


def has_leaf(request, d):
    return (request.kind == "dft" or d <= 2) and not is_whole(request, d)


# A product counts as the request weighs it, and each other operation counts 1.


@lru_cache(maxsize=None)
def leaf_cost(request, d):
    """A difference or sum for each entry but the first of a row, and a product for those that are neither 1 nor -1."""
    if not is_kernel(request, d):
        return d * d * (1 + request.weight)
    entries = (entry(request, d, k, l) for k in range(d) for l in range(d))
    return d * (d - 1) + request.weight * sum(value not in (1, request.modulus - 1) for value in entries)


def product_cost(request, factor):
    """By 1 there is nothing to do, and by -1 a negation."""
    if factor == 1:
        return 0
    return 1 if factor == request.modulus - 1 else request.weight


@lru_cache(maxsize=None)
def twiddle_cost(request, d, r, s):
    """In straight-line code what each twiddle costs, else a product for each."""
    if request.kind == "wht":
        return 0
    if not is_kernel(request, d):
        return request.weight * d
    return sum(product_cost(request, powers(request, d)[i * k]) for i in range(r) for k in range(s))


def split_cost(request, rule, d, r, s, left_cost, right_cost):
    twiddles = twiddle_cost(request, d, r, s) if rule == COOLEY_TUKEY else 0
    return s * left_cost + r * right_cost + twiddles


@lru_cache(maxsize=None)
def best(request, d):
    """The least cost of a tree of size d, and the first of the trees that have it; None where there is no tree."""
    choices = [(leaf_cost(request, d), (LEAF, d))] if has_leaf(request, d) else []
    for rule, r, s in splits(request, d):
        (left_cost, left), (right_cost, right) = best(request, r), best(request, s)
        choices.append((split_cost(request, rule, d, r, s, left_cost, right_cost), (rule, r, left, right)))
    return min(choices, default=None)


@lru_cache(maxsize=None)
def tree_count(request, d):
    """How many trees of size d there are."""
    pairs = (tree_count(request, r) * tree_count(request, s) for _, r, s in splits(request, d))
    return has_leaf(request, d) + sum(pairs)


def every_tree(request, d):
    """The cost of each tree of size d, with the tree."""
    if has_leaf(request, d):
        yield leaf_cost(request, d), (LEAF, d)
    for rule, r, s in splits(request, d):
        rights = list(every_tree(request, s))
        for left_cost, left in every_tree(request, r):
            for right_cost, right in rights:
                yield split_cost(request, rule, d, r, s, left_cost, right_cost), (rule, r, left, right)


def check_lanes(request):
    if request.procs > 1 and request.line % request.lanes:
        raise Refused(4, f"lanes {request.lanes} do not divide line {request.line}")


def check_root(request):
    power = pow(request.root, request.size, request.modulus)
    if request.kind != "wht" and power != 1:
        raise Refused(6, f"root to the size is {power}, not 1")


def check_budget(request, cost):
    if cost > request.budget:
        raise Refused(8, f"least cost {cost} is over budget {request.budget}")


NO_SPLIT = Refused(7, "no split fits procs, line and lanes")


def admitted(request):
    """The least cost and the chosen tree of a request that is done. The tree of an inverse is that of `forward`."""
    check_lanes(request)
    shared = gcd(request.size, request.modulus)
    if request.kind == "idft" and shared != 1:
        raise Refused(15, f"size and modulus share the factor {shared}")
    check_root(request)
    choice = best(forward(request), request.size)
    if choice is None:
        raise NO_SPLIT
    cost, tree = choice[0] + extra_cost(request), choice[1]
    check_budget(request, cost)
    return cost, tree


def formula(request, tree):
    d = tree_size(tree)
    if request.kind == "idft":
        return f"TIMES(RIGHT({d},DIAG({last_factor(request)})),{formula(forward(request), tree)})"
    if tree[0] == LEAF:
        return f"WHT({d})" if request.kind == "wht" else f"DFT({d},{root_of(request, d)})"
    rule, r, left, right = tree
    s = d // r
    left, right = f"LEFT({formula(request, left)},{s})", f"RIGHT({r},{formula(request, right)})"
    if request.kind == "wht":
        return f"TIMES({left},{right})"
    if rule == GOOD_THOMAS:
        return f"TIMES(GTOUT({r},{s}),TIMES({left},TIMES({right},GTIN({r},{s}))))"
    return f"TIMES({left},TIMES(T({d},{s},{root_of(request, d)}),TIMES({right},L({d},{r}))))"


def certificate_rows(request):
    """Size, least cost, rule and parts of each divisor of the size."""
    for d in range(min(request.size, 2), request.size + 1):
        if request.size % d == 0:
            cost, tree = best(forward(request), d)
            cost += extra_cost(request) if d == request.size else 0
            parts = (0, 0) if tree[0] == LEAF else (tree[1], d // tree[1])
            yield d, cost, rule_name(request, tree), *parts


def certificate(request, rows, version=2):
    """Version 1 is of weight 1 and does not say so."""
    texts = (f'[{d},{cost},"{rule}",{r},{s}]' for d, cost, rule, r, s in rows)
    weight = f',"weight":{request.weight}' if version == 2 else ""
    return f'{{"rows":[{",".join(texts)}],"size":{request.size},"version":{version}{weight}}}'
