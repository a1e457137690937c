#!/usr/bin/env python3
"""Writes the number-theoretic transform of FIPS 203 (ML-KEM, Kyber) as a formula, or the way back.

    kyber.py forward    256 terms to 128 remainders modulo x^2 - zeta^(2 * r(i) + 1), in the order of the standard
    kyber.py back       the polynomial again

The modulus is 3329 and zeta is 17, whose order is 256, so a polynomial modulo x^256 + 1 is known by 128 remainders of
degree 1. r turns the seven bits of a number round. Each of the seven layers is a direct sum of butterflies, and these
multiply one half by a power of zeta.
"""

import argparse

MODULUS, ZETA, SIZE, BITS = 3329, 17, 256, 7
BUTTERFLY = f"DFT(2,{MODULUS - 1})"


def turned_round(number):
    return int(f"{number:0{BITS}b}"[::-1], 2)


def power(exponent):
    """A power of zeta, also of a negative exponent."""
    return pow(ZETA, exponent % SIZE, MODULUS)


def times_each(factor, count):
    """The diagonal with this factor at each of the places."""
    return f"I({count})" if factor == 1 else f"RIGHT({count},DIAG({factor}))"


def direct_sum(parts):
    """The parts side by side, put together by halves."""
    if len(parts) == 1:
        return parts[0]
    middle = len(parts) // 2
    return f"SUM({direct_sum(parts[:middle])},{direct_sum(parts[middle:])})"


def butterflies(length):
    """What each block of a layer does with the words that are length apart."""
    return f"LEFT({BUTTERFLY},{length})"


def forward_layer(length):
    """Each block of the layer: the second half times zeta^r(i), then sums and differences. i counts the blocks of all
    layers from 1."""
    blocks = SIZE // (2 * length)
    exponents = [turned_round(blocks + k) for k in range(blocks)]
    factors = [f"SUM(I({length}),{times_each(power(e), length)})" for e in exponents]
    return direct_sum([f"TIMES({butterflies(length)},{f})" for f in factors])


def inverse_layer(length):
    """The forward layer backwards: sums and differences, then the second half divided by zeta^r(i). The last layer
    divides all by 128, which the halves of seven layers come to."""
    blocks = SIZE // (2 * length)
    scale = pow(SIZE // 2, -1, MODULUS) if blocks == 1 else 1
    exponents = [-turned_round(blocks + k) for k in range(blocks)]
    first = times_each(scale, length)
    factors = [f"SUM({first},{times_each(scale * power(e) % MODULUS, length)})" for e in exponents]
    return direct_sum([f"TIMES({f},{butterflies(length)})" for f in factors])


def product(formulas):
    """The formulas one after the other, the first applied first."""
    whole = formulas[0]
    for formula in formulas[1:]:
        whole = f"TIMES({formula},{whole})"
    return whole


def transform(direction):
    lengths = [1 << k for k in range(BITS, 0, -1)]
    if direction == "forward":
        return product([forward_layer(length) for length in lengths])
    return product([inverse_layer(length) for length in reversed(lengths)])


def main():
    parser = argparse.ArgumentParser(description=__doc__, formatter_class=argparse.RawDescriptionHelpFormatter)
    parser.add_argument("direction", choices=("forward", "back"))
    print(transform(parser.parse_args().direction))


if __name__ == "__main__":
    main()
