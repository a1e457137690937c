#!/usr/bin/env python3
"""Multiplies integers by `spiral convolve`: their digits are the two lists, and the carries come at the end.

    by_convolve.py ONE OTHER     two numbers in hexadecimal digits; writes their product

The program is the `spiral` of the path, or else bin/spiral.
"""

import argparse
import os
import subprocess
import sys
from array import array

HERE = os.path.dirname(os.path.abspath(__file__))
os.environ["PATH"] += f"{os.pathsep}{HERE}/../../bin"
sys.path.insert(0, f"{HERE}/..")

from choose import choose  # noqa: E402

DIGIT = 16  # bits: no sum of 65,536 products of digits reaches the moduli of 62 bits


def digits(number, count):
    cut = array("H", number.to_bytes(count * DIGIT // 8, sys.byteorder))
    return cut if sys.byteorder == "little" else cut[::-1]


def convolved(line, *lists):
    """What the program makes of the lists after the first."""
    text = "\n".join([line, *(" ".join(map(str, values)) for values in lists)])
    done = subprocess.run(["spiral", "convolve"], input=text, stdout=subprocess.PIPE, text=True, check=True)
    return [list(map(int, answer.split())) for answer in done.stdout.splitlines()]


def products(one, others):
    """The product of the one number with each of the others, by one program. The size is a power of two that has room
    for every digit of every product, so none is carried round."""
    bits = one.bit_length() + max(number.bit_length() for number in others)
    size = 1 << (bits // DIGIT + 1).bit_length()
    modulus, root, _ = choose(size)
    lists = [digits(number, size) for number in (one, *others)]
    sums = convolved(f"conv {size} mod {modulus} root {root}", *lists)
    return [sum(value << (DIGIT * k) for k, value in enumerate(values)) for values in sums]


def hexadecimal(text):
    if not text or set(text) - set("0123456789abcdefABCDEF"):
        raise argparse.ArgumentTypeError(f"{text} is not of hexadecimal digits alone")
    return int(text, 16)


def main():
    parser = argparse.ArgumentParser(description=__doc__, formatter_class=argparse.RawTextHelpFormatter)
    for name in ("ONE", "OTHER"):
        parser.add_argument(name, type=hexadecimal, help="hexadecimal digits")
    words = parser.parse_args()
    print(f"{products(words.ONE, [words.OTHER])[0]:x}")


if __name__ == "__main__":
    main()
