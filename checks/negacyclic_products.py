#!/usr/bin/env python3
"""Compares products modulo x^n + 1 with their definition, by listings that `spiral exec` verifies and by C.

    checks/negacyclic_products.py

Kyber's transform is compared with the remainders that define it, forward, back and for products, and Dilithium's with
FIPS 204's algorithm, in its order and in the natural one. CC names the compiler (cc).
"""

import os
import random
import subprocess
import sys
import tempfile
from operator import mul

TOP = os.path.dirname(os.path.dirname(os.path.abspath(__file__)))
EXAMPLE = f"{TOP}/examples/negacyclic"
os.environ["PATH"] = f"{TOP}/bin{os.pathsep}{os.environ['PATH']}"
sys.path.insert(0, EXAMPLE)

from kyber import MODULUS as KYBER_MODULUS  # noqa: E402
from kyber import SIZE as KYBER_SIZE  # noqa: E402
from kyber import ZETA, transform  # noqa: E402
from negacyclic import listing, twist_for  # noqa: E402
from residues import join  # noqa: E402

SIXTY_BITS = 1152921504606748673
PRIMES = (1152921504606830593, 1152921504606791681, SIXTY_BITS)
LISTINGS = [  # size, modulus, further words of the request
    *((size, modulus, "") for size in (4, 8, 16, 32, 64, 128, 256, 512, 1024) for modulus in (12289, 8380417)),
    (64, 12289, "lanes 4 unroll 4"),
    (256, 8380417, "procs 2 line 8 lanes 8"),
    (1024, 12289, "procs 4 line 8 lanes 8 unroll 16"),
    (4096, SIXTY_BITS, ""),
    (4096, SIXTY_BITS, "lanes 8 unroll 16"),
    (12, 97, "unroll 4"),  # coprime parts, a table for all words
    (36, 73, "lanes 2"),
    (64, 12289, "unroll 64"),
]
DILITHIUM_SIZE, DILITHIUM, DILITHIUM_TWIST = 256, 8380417, 1753
DILITHIUM_WORDS = ("", "unroll 16", "unroll 2", "lanes 2", "lanes 8 unroll 16", "lanes 16 unroll 16")
# What is refused, with the reason.
REFUSED = [
    (("forward", "256", "8380417", "--twist", "1754"), "negacyclic.py: the power 256 of 1754 is not -1 modulo 8380417"),
    (
        ("back", "256", "8380417", "--twist", "1753", "--root", "5"),
        "negacyclic.py: the square of 1753 is 3073009 modulo 8380417, not 5",
    ),
    (
        ("forward", "256", "8380417", "procs 2 line 8", "--order", "reversed"),
        "negacyclic.py: an order by bits is of one processor, since words of all lines go to one",
    ),
    (("forward", "12", "97", "--order", "reversed"), "negacyclic.py: an order by bits is of a power of two"),
]
PROGRAMS = [  # size, modulus, further words of the request, options of negacyclic.py and of spiral-fast
    (4, 12289, "", "", ""),
    (1024, 12289, "lanes 8", "", ""),
    (1024, 12289, "unroll 16", "", "--lanes 16"),
    (256, 8380417, "", "", ""),
    (256, 8380417, "lanes 8 unroll 16", "--twist 1753 --order reversed", ""),
    (4096, SIXTY_BITS, "lanes 4", "", ""),
    (1024, 1125899906826241, "unroll 16", "", "--words 52 --lanes 8"),
    # rings of 4096 words, of 60 and of 50 bits
    (4096, SIXTY_BITS, "unroll 16", "", "--lanes 8"),
    (4096, 1125899906826241, "unroll 16", "", "--words 52 --lanes 8"),
    # the rings of Falcon and NewHope in words of 16 bits
    (512, 12289, "unroll 16", "", "--words 16 --lanes 16"),
    (1024, 12289, "lanes 16 unroll 16", "", "--words 16"),
]


def output(words, text):
    done = subprocess.run(words, input=text, capture_output=True, text=True)
    if done.returncode != 0:
        sys.exit(f"negacyclic_products: {' '.join(words)}: status {done.returncode}\n{done.stderr}")
    return done.stdout


def lines(vectors):
    return "".join(" ".join(map(str, vector)) + "\n" for vector in vectors)


def read_vectors(text):
    return [list(map(int, line.split())) for line in text.splitlines()]


def whole_product(a, b):
    """The terms of a * b, those from x^n on subtracted from the first."""
    size = len(a)
    signed = b[::-1] + [-x for x in reversed(b)]
    return [sum(map(mul, a, signed[size - 1 - k : 2 * size - 1 - k])) for k in range(size)]


def wanted_product(a, b, modulus):
    return [term % modulus for term in whole_product(a, b)]


def pairs(size, modulus):
    """Polynomials to multiply: at random, and the greatest."""
    rng = random.Random(size + modulus)
    a, b = ([rng.randrange(modulus) for _ in range(size)] for _ in range(2))
    return [(a, b), ([modulus - 1] * size, b)] if size < 4096 else [(a, b)]


def check(condition, what):
    if not condition:
        sys.exit(f"negacyclic_products: {what} differs")


def exec_listing(text, vectors):
    return read_vectors(output(["spiral", "exec"], f"{text}\n{lines(vectors)}"))


def products_by_listings(given, modulus, words):
    """The products of the pairs of polynomials, by the two listings."""
    size = len(given[0][0])
    flat = exec_listing(listing("forward", size, modulus, words), [x for pair in given for x in pair])
    places = [[x * y % modulus for x, y in zip(a, b)] for a, b in zip(flat[::2], flat[1::2])]
    return exec_listing(listing("back", size, modulus, words), places)


def check_listings(size, modulus, words):
    given = pairs(size, modulus)
    wanted = [wanted_product(a, b, modulus) for a, b in given]
    check(products_by_listings(given, modulus, words) == wanted, f"{size} terms modulo {modulus} {words}")


def check_residues():
    """Three primes of 60 bits suffice for the product of polynomials with terms of 64 bits."""
    given = pairs(64, 1 << 64)[0]
    rows = [products_by_listings([given], prime, "")[0] for prime in PRIMES]
    check(join(PRIMES, rows) == whole_product(*given), "the product by three primes")
    return 1


def remainders(terms):
    """What is left of the polynomial modulo x^2 - gamma, for each gamma in the order of the standard."""
    result = []
    for gamma in gammas():
        powers = [pow(gamma, j, KYBER_MODULUS) for j in range(KYBER_SIZE // 2)]
        result += [sum(map(mul, terms[odd::2], powers)) % KYBER_MODULUS for odd in (0, 1)]
    return result


def gammas():
    return [pow(ZETA, 2 * int(f"{i:07b}"[::-1], 2) + 1, KYBER_MODULUS) for i in range(KYBER_SIZE // 2)]


def products_of_remainders(a, b):
    result = []
    for i, gamma in enumerate(gammas()):
        (a0, a1), (b0, b1) = a[2 * i : 2 * i + 2], b[2 * i : 2 * i + 2]
        result += [(a0 * b0 + a1 * b1 * gamma) % KYBER_MODULUS, (a0 * b1 + a1 * b0) % KYBER_MODULUS]
    return result


def check_kyber():
    (a, b), (most, _) = pairs(KYBER_SIZE, KYBER_MODULUS)
    words = ["spiral", "compile", "--mod", str(KYBER_MODULUS)]
    compiled = [output(words, transform(way) + "\n") for way in ("forward", "back")]
    got = exec_listing(compiled[0], [a, b, most])
    check(got == [remainders(x) for x in (a, b, most)], "Kyber's transform")
    check(exec_listing(compiled[1], got) == [a, b, most], "Kyber's way back")
    product = exec_listing(compiled[1], [products_of_remainders(got[0], got[1])])
    check(product == [wanted_product(a, b, KYBER_MODULUS)], "Kyber's product")
    return 3


def fips_transform(terms):
    """Algorithm 41 of FIPS 204, NTT."""
    result, layer, length = list(terms), 0, DILITHIUM_SIZE // 2
    while length >= 1:
        for start in range(0, DILITHIUM_SIZE, 2 * length):
            layer += 1
            zeta = pow(DILITHIUM_TWIST, int(f"{layer:08b}"[::-1], 2), DILITHIUM)
            for j in range(start, start + length):
                t = zeta * result[j + length] % DILITHIUM
                result[j + length] = (result[j] - t) % DILITHIUM
                result[j] = (result[j] + t) % DILITHIUM
        length //= 2
    return result


def check_dilithium():
    """Each transform and its inverse, in FIPS 204's order and in the natural one."""
    (a, b), (most, _) = pairs(DILITHIUM_SIZE, DILITHIUM)
    transforms = [fips_transform(terms) for terms in (a, b, most)]
    natural = [[row[int(f"{k:08b}"[::-1], 2)] for k in range(DILITHIUM_SIZE)] for row in transforms]
    cases = [(words, order) for words in DILITHIUM_WORDS for order in ("natural", "reversed")]
    for words, order in cases:
        wanted = transforms if order == "reversed" else natural
        ways = [listing(way, DILITHIUM_SIZE, DILITHIUM, words, DILITHIUM_TWIST, None, order) for way in ("forward", "back")]
        check(exec_listing(ways[0], [a, b, most]) == wanted, f"Dilithium's transform, {words}, {order}")
        check(exec_listing(ways[1], wanted) == [a, b, most], f"Dilithium's way back, {words}, {order}")
    return 2 * len(cases)


def check_tables():
    """On one processor a size that is a power of two gets no table more than its request has."""
    for size, modulus, words in ((1024, 12289, "unroll 16"), (256, 8380417, "lanes 8")):
        request = f"dft {size} mod {modulus} root {pow(twist_for(size, modulus), 2, modulus)} {words}\n"
        tables = [text.count("\ntable ") for text in (output(["spiral", "code"], request), listing("forward", size, modulus, words))]
        check(tables[0] == tables[1], f"the number of tables of {size} terms")
    return 2


def check_refused():
    for words, why in REFUSED:
        done = subprocess.run([f"{EXAMPLE}/negacyclic.py", *words], capture_output=True, text=True)
        check((done.returncode, done.stdout, done.stderr) == (1, "", why + "\n"), f"what refuses {' '.join(words)}")
    return len(REFUSED)


def check_program(program, words, size, modulus, options="", fast=""):
    done = subprocess.run(
        [f"{EXAMPLE}/build.sh", *words, program, "-O1"],
        capture_output=True,
        text=True,
        env={**os.environ, "LISTING_OPTIONS": options, "FAST_OPTIONS": fast},
    )
    if done.returncode != 0:
        sys.exit(f"negacyclic_products: build.sh {' '.join(words)}: {done.stderr}")
    given = pairs(size, modulus)
    got = read_vectors(output([program], lines(x for pair in given for x in pair)))
    check(got == [wanted_product(a, b, modulus) for a, b in given], f"the program of {words}")


def check_programs():
    """Gives how many programs were right."""
    with tempfile.TemporaryDirectory() as folder:
        for size, modulus, words, options, fast in PROGRAMS:
            check_program(f"{folder}/product", [str(size), str(modulus), words], size, modulus, options, fast)
        for fast in ("", "--words 16"):
            check_program(f"{folder}/kyber", ["kyber"], KYBER_SIZE, KYBER_MODULUS, fast=fast)
    return len(PROGRAMS) + 2


def main():
    if len(sys.argv) > 1:
        sys.exit(__doc__)
    for case in LISTINGS:
        check_listings(*case)
    right = len(LISTINGS) + check_residues() + check_kyber() + check_dilithium() + check_tables() + check_refused()
    print(f"products modulo x^n + 1: {right} listings and {check_programs()} programs right")


if __name__ == "__main__":
    main()
