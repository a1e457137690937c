"""Convolutions for the sweep: those that documents and limits name, and random ones of prime and composite moduli."""

from collections import Counter

from convolutions import admitted_conv, convolution, convolved, factors, power_sum, read_conv
from emission import loads_and_stores
from listings import read_listing
from machine import Machine
from strangers import Checked
from transforms import Refused, transform

# Roots that are principal, and roots whose first power sum that is not 0 is that of 1, of half the size, or in between.
# The power sums of k and of the size less k are the same, so none beyond half the size is the first.
NAMED = """
conv 4 mod 17 root 4
conv 4 mod 17 root 13
conv 4 mod 17 root 4 unroll 2
conv 4 mod 17 root 4 weight 5
conv 4 mod 17 root 4 unroll 3 weight 1000
conv 4 mod 15 root 4
conv 4 mod 17 root 1
conv 4 mod 17 root 16
conv 4 mod 17 root 3
conv 2 mod 10 root 9
conv 12 mod 13 root 2
conv 12 mod 13 root 12
conv 12 mod 13 root 3
conv 12 mod 13 root 5
conv 12 mod 13 root 4
conv 30 mod 31 root 2
conv 30 mod 31 root 5
conv 62 mod 4611686018427387903 root 2
conv 2 mod 4611686018427387903 root 4611686018427387902
conv 2 mod 15 root 14
conv 2 mod 15 root 11
conv 2 mod 15 root 4
conv 3 mod 15 root 1
conv 1 mod 2 root 1
conv 1 mod 2 root 0
conv 1 mod 4611686018427387903 root 1 weight 1000
conv 1 mod 4611686018427387903 root 2
conv 3 mod 7 root 2
conv 5 mod 11 root 3 unroll 2
conv 6 mod 7 root 3
conv 8 mod 17 root 2 unroll 2
conv 8 mod 17 root 2 unroll 64
conv 11 mod 23 root 2
conv 15 mod 31 root 9
conv 16 mod 257 root 2
conv 16 mod 17 root 2 unroll 16
conv 16 mod 17 root 3 unroll 16 weight 2
conv 30 mod 31 root 3 unroll 2
conv 32 mod 65537 root 2
conv 60 mod 61 root 2 unroll 2
conv 64 mod 4294967297 root 2
conv 64 mod 4294967297 root 2 unroll 64
conv 64 mod 193 root 125
conv 210 mod 211 root 2
conv 240 mod 241 root 7 unroll 64
conv 251 mod 503 root 2
conv 256 mod 257 root 3 unroll 64
"""

FAULTS = """

c
conv
conv 4
conv 4 mod 17 root
conv 04 mod 17 root 4
conv 4 mod 17 root 4 procs 1
conv 4 mod 17 root 4 line 1
conv 4 mod 17 root 4 lanes 1
conv 4 mod 17 root 4 unroll 8 unroll 8
conv 4 mod 17 root 4 weight 1 budget 9
conv 4 mod 17 root 4 budget 18446744073709551616
conv 4 mod 17 root 4 weight 5 x
conv 4 mod 17 root 4\r
conv 2x2 mod 17 root 16x16
convolve 4 mod 17 root 4
dft 4 mod 17 root 4
wht 4 mod 17
conv 0 mod 1 root 5 procs
conv 0 mod 17 root 1
conv 1048577 mod 17 root 1
conv 4 mod 1 root 0
conv 4 mod 4611686018427387904 root 0
conv 4 mod 17 root 17
conv 4 mod 17 root 4 unroll 1
conv 4 mod 17 root 4 unroll 65
conv 4 mod 17 root 4 budget 0
conv 4 mod 17 root 4 budget 1000000000001
conv 4 mod 17 root 4 weight 0
conv 4 mod 17 root 4 weight 1001
conv 6 mod 9 root 9
conv 6 mod 9 root 1
conv 6 mod 9 root 8 unroll 65
"""

# Sizes for which h has few items that are not 0. The listing of the last is longer than `exec` takes one.
LONGEST = 2**20
LARGE = ["conv 4096 mod 40961 root 18088", "conv 65536 mod 65537 root 3"]

PRIMES = [(17, 3), (97, 5), (257, 3), (2161, 23), (12289, 11), (65537, 3), (998244353, 3), (2**61 - 1, 37)]
UNROLLS = [2, 2, 3, 4, 6, 8, 8, 8, 9, 16, 64]


def rich_root(numbers):
    """A root of a prime modulus whose order is the size, or divides it."""
    modulus, element = numbers.one_of(PRIMES)
    size = numbers.one_of([n for n in range(1, 129) if (modulus - 1) % n == 0])
    order = numbers.one_of([size] * 5 + [n for n in range(1, size + 1) if size % n == 0])
    return size, modulus, pow(element, (modulus - 1) // order, modulus)


def by_remainders(parts):
    """The number below the product of the moduli that has these remainders, which are coprime."""
    value, modulus = 0, 1
    for root, own in parts:
        value += modulus * ((root - value) * pow(modulus, -1, own) % own)
        modulus *= own
    return value, modulus


def composite_root(numbers):
    """A root of a product of two or three primes, which is principal where its remainders are."""
    while True:
        primes = {numbers.one_of(PRIMES[:7]) for _ in range(2 + numbers.below(2))}
        size = numbers.one_of([n for n in range(2, 65) if all((p - 1) % n == 0 for p, _ in primes)])
        orders = [n for n in range(1, size + 1) if size % n == 0]
        parts = [(pow(g, (p - 1) // numbers.one_of([size] * 6 + orders), p), p) for p, g in sorted(primes)]
        root, modulus = by_remainders(parts)
        if len(primes) > 1 and modulus < 2**62:
            return size, modulus, root


def fermat_root(numbers):
    """A power of two modulo 2^e + 1, prime or not: some power of it is -1, so it is principal."""
    exponent = numbers.one_of([1, 2, 4, 8, 16, 32])
    step = numbers.one_of([d for d in (1, 2, 4, 8) if d <= exponent])
    return 2 * exponent // step, 2**exponent + 1, 2**step


def any_root(numbers):
    """Any unit of any modulus. Size and modulus may share a factor."""
    while True:
        modulus = 2 + numbers.below(400)
        root = 1 + numbers.below(modulus - 1)
        order = next((k for k in range(1, 65) if pow(root, k, modulus) == 1), None)
        if order:
            return order * (1 + numbers.below(64 // order)), modulus, root


def random_lines(numbers, count):
    makers = [rich_root] * 6 + [composite_root] * 4 + [fermat_root] * 2 + [any_root] * 3
    for _ in range(count):
        size, modulus, root = numbers.one_of(makers)(numbers)
        weight = numbers.one_of(["", "", " weight 2", " weight 1000"])
        yield f"conv {size} mod {modulus} root {root} unroll {numbers.one_of(UNROLLS)}{weight}"


def vector_of(numbers, size, modulus):
    """Words of any size, few of which are not 0 where there are many."""
    full = [numbers.next() for _ in range(size)]
    return [value if size <= 256 or numbers.below(size) < 20 else 0 for value in full]


def separated(numbers, values):
    return "".join(f"{value}{numbers.one_of([' ', '  ', chr(10), chr(9), chr(13) + chr(10)])}" for value in values)


def listing_is_right(text, request, h, x):
    """The listing is for one processor, is no stranger to the check of listings, and leaves the convolution in one
    phase, in the operations of two transforms and a product for each place."""
    cost, tree = admitted_conv(request)
    program = read_listing(text.encode())
    own, checked = program.request, Checked(program)
    machine = Machine(own, program.registers, checked.lists, x)
    for event in machine.completion():
        machine.event(*event)
    words = Counter(word for word, *_ in checked.lists[0][0])
    operations = words["add"] + words["sub"] + words["neg"] + request.weight * words["mul"]
    loads, stores = loads_and_stores(request, tree)
    return (
        (own.size, own.modulus, own.procs, own.line, own.lanes) == (request.size, request.modulus, 1, 1, 1)
        and checked.fault is None
        and len(checked.lists) == 1
        and machine.results() == convolution(request.modulus, h, x)
        and operations == cost
        and (words["ld"], words["st"]) == (2 * loads, 2 * stores)
    )


def agrees_with_itself(request, h, x):
    """The transform of the convolution is the product of the transforms, and the factors are those of one."""
    back = pow(request.size, -1, request.modulus)
    one, other = transform(request, h), transform(request, x)
    both = transform(request, convolution(request.modulus, h, x))
    assert both == [a * b % request.modulus for a, b in zip(one, other)]
    assert factors(request, h) == [back * a % request.modulus for a in one]
    assert not any(power_sum(request, k) for k in range(1, request.size))


def faulty_data(sweep, line, h, x):
    """Data that end too early or have a fault, in h and after it. What stands after h does not matter to --code."""
    size = len(h)
    bad = ["x", "-1", "1,2", "18446744073709551616", "000000000000000000001"]
    whole = list(map(str, h + x))
    for at in (0, size - 1, size, 2 * size - 1):
        for token in bad[at % 2 :: 2]:
            data = " ".join([*whole[:at], token, *whole[at + 1 :]])
            for words, is_code in (("convolve", False), ("convolve --code", True)):
                sweep.compare(words, f"{line}\n{data}", convolved(f"{line}\n{data}", is_code=is_code))
        data = " ".join(whole[:at])
        for words, is_code in (("convolve", False), ("convolve --code", True)):
            sweep.compare(words, f"{line}\n{data}", convolved(f"{line}\n{data}", is_code=is_code))


def budgets(sweep, line, data, cost):
    """A budget of the cost is enough, and one less is not."""
    front, weight, number = line.partition(" weight ")
    for budget in (cost, cost - 1):
        if budget > 0:
            asked = f"{front} budget {budget}{weight}{number}\n{data}"
            sweep.compare("convolve", asked, convolved(asked))


def convolution_swept(sweep, line, numbers):
    """The results, under a schedule too, and the listing, which is run here and by `exec`."""
    request = read_conv(line)
    h, x, other = (vector_of(numbers, request.size, request.modulus) for _ in range(3))
    asked = f"{line}\n{separated(numbers, h + x + other)}"
    sweep.compare("convolve", asked, convolved(asked))
    for schedule in (f"seed:{numbers.next()}:50", "turns:0,0,0", "turns:0,1"):
        sweep.compare(f"convolve --schedule {schedule}", asked, convolved(asked, schedule))
    sweep.compare("convolve --code", asked, convolved(asked, is_code=True))
    try:
        cost, _ = admitted_conv(request)
    except Refused:
        return
    budgets(sweep, line, separated(numbers, h + x), cost)
    h, x, other = ([value % request.modulus for value in vector] for vector in (h, x, other))
    listing = convolved(asked, is_code=True)[1]
    if request.size <= 64:
        agrees_with_itself(request, h, x)
        sweep.count(listing_is_right(listing, request, h, x), f"the listing of {line}")
        faulty_data(sweep, line, h, x)
    run = convolved(asked)[1] if len(listing) <= LONGEST else (13, f"more than {LONGEST} bytes")
    sweep.compare(f"exec --schedule seed:{numbers.next()}:20", f"{listing}\n{separated(numbers, x + other)}", run)


def is_read(line):
    """Whether the line asks for a convolution, though its root may be none."""
    try:
        read_conv(line)
    except Refused:
        return False
    return True


def convolutions_swept(sweep, numbers):
    lines = NAMED.split("\n")[1:-1] + list(random_lines(numbers, 300))
    for line in filter(is_read, lines + LARGE):
        convolution_swept(sweep, line, numbers)
    faults = FAULTS.replace("\\r", "\r").split("\n")[1:-1]
    for line in faults + [line for line in lines if not is_read(line)]:
        for option in ("", " --code", " --schedule turns:1"):
            sweep.compare(f"convolve{option}", f"{line}\n1 2 3", convolved(f"{line}\n1 2 3"))
    for command in ("plan", "run", "code", "check", "trace", "apply --mod 17"):
        sweep.compare(command, "conv 4 mod 17 root 4\n1 2 3 4", (3, "syntax at byte 0"))
    usage = sweep.call("sing", "")[2].removeprefix("spiral: ").removesuffix("\n")
    for words in ("convolve --schedule seq1", "convolve --code --schedule turns:", "convolve --buffers", "code --code"):
        sweep.compare(words, "conv 4 mod 17 root 4\n1 2 0 0\n1 2 3 4", (2, usage))
