"""Requests of several dimensions for the sweep: their lines, good and bad, and their certificates."""

from math import gcd, lcm, prod

from dimensions import read_request
from transforms import certificate, certificate_rows

NAMED = """
dft 2x2 mod 17 root 16x16
dft 2x2 mod 17 root 16x16 procs 2 line 1
dft 2x2 mod 17 root 16x16 budget 7
dft 2x2 mod 17 root 16x16 budget 8
dft 2x2 mod 17 root 16x4
dft 2x2 mod 17 root 4x16
dft 2x3 mod 7 root 6x2
dft 3x2 mod 7 root 2x6
dft 2x3 mod 7 root 6x2 procs 2
dft 2x3 mod 7 root 6x2 lanes 2
dft 4x4 mod 17 root 4x13 lanes 2 unroll 2
dft 4x6 mod 13 root 8x4 procs 2 line 1
dft 4x6 mod 13 root 8x4 procs 2 line 2 lanes 2
dft 8x8 mod 17 root 2x2 procs 2 line 4 lanes 4 weight 3
dft 2x2x2 mod 2 root 1x1x1
dft 2x3x5 mod 31 root 30x5x2
dft 5x3x2 mod 31 root 2x5x30 unroll 2 weight 5
dft 9x9 mod 19 root 4x5 unroll 2
dft 6x6 mod 7 root 3x5 unroll 3
dft 11x4 mod 23 root 2x22 unroll 11
dft 2x2x2x2 mod 15 root 4x11x14x1
dft 4x4x4x4 mod 17 root 4x13x1x16
dft 4x2x2x4 mod 4611686018427387903 root 1x4611686018427387902x1x4611686018427387902 procs 2 line 2 lanes 2
dft 64x4 mod 257 root 249x16
dft 4x64 mod 257 root 16x249
dft 16x16 mod 257 root 2x129 procs 4 line 4 lanes 4
"""

# Those that are, or are not, straight-line code of several dimensions.
KERNELS = """
dft 2x2 mod 17 root 16x16 unroll 2
dft 2x3 mod 7 root 6x2 unroll 5
dft 2x3 mod 7 root 6x2 unroll 6 weight 5
dft 2x2x2 mod 17 root 16x16x16
dft 2x2x2 mod 17 root 16x16x16 unroll 7
dft 2x2x2x2 mod 15 root 4x11x14x1 unroll 16
dft 16x2x4 mod 17 root 3x16x4
dft 2x16x2x3 mod 97 root 96x8x1x35 weight 5
dft 8x8 mod 17 root 2x9 unroll 63
dft 8x8 mod 17 root 2x9 unroll 64
dft 4x4x4 mod 17 root 4x13x1 unroll 64
dft 11x2x2 mod 23 root 2x22x22 unroll 4
dft 4x2x2 mod 17 root 4x16x1 lanes 2
dft 4x2x2 mod 17 root 4x16x1 procs 2 line 2 lanes 2
dft 4x2x2 mod 17 root 4x16x1 procs 2 line 2 lanes 2 unroll 3
dft 4x4 mod 17 root 4x13 procs 2 unroll 16
"""

# Lines that are refused, with status and note.
REFUSED = [
    ("dft 2x2 mod 17 root 16", 3, "syntax at byte 22"),
    ("dft 2x2 mod 17 root 16x16x16", 3, "syntax at byte 25"),
    ("dft 2 mod 17 root 16x16", 3, "syntax at byte 20"),
    ("dft 2x2x2x2x2 mod 17 root 16x16x16x16x16", 3, "syntax at byte 11"),
    ("idft 2x2 mod 17 root 16x16", 3, "syntax at byte 6"),
    ("wht 2x2 mod 17", 3, "syntax at byte 5"),
    ("dft 2x mod 17 root 16x16", 3, "syntax at byte 6"),
    ("dft 2x02 mod 17 root 16x16", 3, "syntax at byte 7"),
    ("dft 2X2 mod 17 root 16x16", 3, "syntax at byte 5"),
    ("dft 1x2 mod 17 root 1x16", 4, "size 1 is out of range"),
    ("dft 2x1 mod 17 root 16x1", 4, "size 1 is out of range"),
    ("dft 2x0 mod 17 root 16x1", 4, "size 0 is out of range"),
    ("dft 2x1048577 mod 17 root 16x1", 4, "size 1048577 is out of range"),
    ("dft 1024x1024x2x2 mod 17 root 1x1x1x1", 4, "size 2097152 is out of range"),
    ("dft 1048576x1048576 mod 17 root 1x1", 4, "size 1099511627776 is out of range"),
    ("dft 1048576x1048576x1 mod 17 root 1x1x1", 4, "size 1 is out of range"),
    ("dft 2x2 mod 1 root 0x0", 4, "mod 1 is out of range"),
    ("dft 2x2 mod 17 root 16x17", 4, "root 17 is out of range"),
    ("dft 2x2 mod 17 root 18x17", 4, "root 18 is out of range"),
    ("dft 2x2 mod 17 root 16x16 procs 17", 4, "procs 17 is out of range"),
    ("dft 2x2 mod 17 root 16x16 procs 2 line 3 lanes 2", 4, "lanes 2 do not divide line 3"),
]

# Moduli with units of small orders, prime and composite, and an element whose powers give them where it is prime.
PRIMES = [(17, 3), (97, 5), (257, 3), (2161, 23), (12289, 11), (998244353, 3), (2**61 - 1, 37)]
COMPOSITES = [15, 16, 21, 32, 63, 65, 91, 100, 255, 341, 1023, 1729, 2**32 - 1, 2**62 - 1]
UNROLLS = [2, 2, 3, 4, 6, 8, 8, 12, 16, 32]
WEIGHTS = ["", "", " weight 1", " weight 5", " weight 1000"]


def unit(numbers, modulus, size):
    """A number whose power of the size is 1."""
    for _ in range(40):
        value = numbers.next() % modulus
        if gcd(value, modulus) == 1 and pow(value, size, modulus) == 1:
            return value
    return numbers.one_of([1, modulus - 1] if size % 2 == 0 else [1]) % modulus


def root(numbers, modulus, element, size):
    if element is None:
        return unit(numbers, modulus, size)
    return pow(element, (modulus - 1) // gcd(modulus - 1, size) * (1 + numbers.below(size)), modulus)


def sizes(numbers, first, others):
    """Two to four sizes, whose product is small: multiples of these."""
    while True:
        count = 2 + numbers.below(3)
        found = [first * (1 + numbers.below(6))] + [1 + numbers.below(8) for _ in range(count - 1)]
        found[1] *= others
        if min(found) > 1 and prod(found) <= 256:
            return found


def dimension_request(numbers, is_spread):
    modulus, element = numbers.one_of([*PRIMES, *((m, None) for m in COMPOSITES)])
    procs, line, lanes = 1, 1, 1
    if is_spread:
        procs, line = numbers.one_of([1, 2, 2, 3, 4]), numbers.one_of([1, 1, 2, 3])
        lanes = numbers.one_of([v for v in (1, 2, 2, 3, 4) if procs == 1 or line % v == 0])
    least = lcm(procs * line if procs > 1 else 1, lanes)
    found = sizes(numbers, least, least)
    words = "x".join(map(str, found)), "x".join(str(root(numbers, modulus, element, n)) for n in found)
    options = f"procs {procs} line {line} lanes {lanes} " if is_spread else ""
    unroll = numbers.one_of(UNROLLS)
    return f"dft {words[0]} mod {modulus} root {words[1]} {options}unroll {unroll}{numbers.one_of(WEIGHTS)}"


def kernel_request(numbers, is_spread):
    """A request of at most 64 words, which unrolls as much as some of its last dimensions have, or one less. Where the whole
    is shared, these are not all."""
    procs, line, lanes = numbers.one_of([(1, 1, 2), (2, 1, 1), (2, 2, 2), (2, 2, 1)]) if is_spread else (1, 1, 1)
    least = lcm(procs * line if procs > 1 else 1, lanes)
    found = sizes(numbers, least, least)
    while prod(found) > 64 or len(found) < 2 + is_spread:
        found = sizes(numbers, least, least)
    words = prod(found[numbers.below(len(found) - 1 - is_spread) + is_spread :])
    unroll = words - numbers.below(2)
    modulus, element = numbers.one_of([*PRIMES, *((m, None) for m in COMPOSITES)])
    roots = [str(root(numbers, modulus, element, n)) for n in found]
    options = f"procs {procs} line {line} lanes {lanes} " if is_spread else ""
    weight = numbers.one_of(WEIGHTS)
    return f"dft {'x'.join(map(str, found))} mod {modulus} root {'x'.join(roots)} {options}unroll {unroll}{weight}"


def dimension_requests(numbers):
    random = [dimension_request(numbers, at % 2 == 1) for at in range(140)]
    kernels = [kernel_request(numbers, at % 3 == 2) for at in range(30)]
    return NAMED.split("\n")[1:-1] + KERNELS.split("\n")[1:-1] + kernels + random


def lines_read(sweep):
    for line, code, note in REFUSED:
        sweep.compare("plan", line, (code, note))
    for text in ("64x64x64 mod 257 root 16x16x16", "1024x1024 mod 7340033 root 1x1 budget 1000000000000"):
        code, _, note = sweep.call("plan", f"dft {text}")
        sweep.count((code, note) == (0, ""), f"plan of {text}")


def lists_checked(sweep, line, numbers):
    """The list of certificates is accepted; others are not: fewer or more, in another order, or with another cost."""
    request = read_request(line)
    rows = [list(certificate_rows(part)) for part in request.parts]
    size = prod(request.sizes)
    least = sum(size // own[-1][0] * own[-1][1] for own in rows)
    unreadable = (14, "certificate unreadable")

    def asked(texts, wanted):
        sweep.compare("check", f"{line}\n[{','.join(texts)}]\n", wanted)

    texts = [certificate(part, own) for part, own in zip(request.parts, rows)]
    asked(texts, f"least {least}\n")
    asked(texts[:-1], unreadable)
    asked(texts + texts[-1:], unreadable)
    older = [certificate(part, own, version=1) for part, own in zip(request.parts, rows)]
    asked(older, f"least {least}\n" if request.weight == 1 else unreadable)
    sweep.compare("check", f"{line}\n{texts[0]}", unreadable)
    if request.sizes != request.sizes[::-1]:
        asked(texts[::-1], unreadable)
    at = numbers.below(len(rows))
    row = numbers.below(len(rows[at]))
    divisor, cost, *rest = rows[at][row]
    rows[at][row] = (divisor, cost + 1, *rest)
    texts[at] = certificate(request.parts[at], rows[at])
    asked(texts, (14, f"certificate row {divisor} gives {cost + 1}, found {cost}"))
