#!/usr/bin/env python3
"""Writes the listing of a transform modulo x^SIZE + 1, or of its inverse.

    negacyclic.py forward SIZE M [WORDS]     word k is the polynomial at twist^(2 * k + 1)
    negacyclic.py back SIZE M [WORDS]        the polynomial again

M is a prime with 2 * SIZE dividing it less one, and WORDS are further words of the request, as 'lanes 8 unroll 16'.
What forward makes of two polynomials is multiplied place by place, and back makes of it their product modulo
x^SIZE + 1.

    --twist P          the twist, in place of that of `choose.py SIZE mod M`; its power SIZE is -1
    --root W           refuses the twist if its square is another number
    --order reversed   word k of the transform is the polynomial at twist^(2 * r(k) + 1), where r turns the bits of k
                       round, as in FIPS 204; SIZE is a power of two, and there is one processor

The program is the `spiral` of the path, or else bin/spiral.
"""

import argparse
import os
import subprocess
import sys

from listings import Listing
from reversal import reverse
from twist import twist

HERE = os.path.dirname(os.path.abspath(__file__))
os.environ["PATH"] += f"{os.pathsep}{HERE}/../../bin"
sys.path.insert(0, f"{HERE}/..")

from choose import roots_of  # noqa: E402


def code(request):
    done = subprocess.run(["spiral", "code"], input=request + "\n", stdout=subprocess.PIPE, text=True)
    if done.returncode != 0:
        sys.exit(f"negacyclic.py: spiral does not take `{request}`")
    return done.stdout


def refuse(why):
    sys.exit(f"negacyclic.py: {why}")


def twist_for(size, modulus, given=None, root=None):
    """A number whose power SIZE is -1: the one that is given, or that of choose.py."""
    modulus, _, *chosen = roots_of(size, modulus)
    if given is None and not chosen:
        refuse(f"{modulus} has no root of order {2 * size}")
    found = chosen[0] if given is None else given % modulus
    if pow(found, size, modulus) != modulus - 1:
        refuse(f"the power {size} of {found} is not -1 modulo {modulus}")
    if root is not None and found * found % modulus != root:
        refuse(f"the square of {found} is {found * found % modulus} modulo {modulus}, not {root}")
    return found


def listing(direction, size, modulus, words="", given=None, root=None, order="natural"):
    base = twist_for(size, modulus, given, root)
    scale, inner = 1, "out"
    if direction == "back":
        base, scale, inner = pow(base, -1, modulus), pow(size, -1, modulus), "in"
    made = Listing(code(f"dft {size} mod {modulus} root {base * base % modulus} {words}".rstrip()), "negacyclic.py")
    if order == "reversed":
        reverse(made, inner)
    twist(made, "in" if inner == "out" else "out", base, scale)
    return made.text()


def main():
    parser = argparse.ArgumentParser(description=__doc__, formatter_class=argparse.RawDescriptionHelpFormatter)
    parser.add_argument("direction", choices=("forward", "back"))
    parser.add_argument("size", type=int, metavar="SIZE")
    parser.add_argument("modulus", type=int, metavar="M")
    parser.add_argument("words", nargs="?", default="", metavar="WORDS")
    parser.add_argument("--twist", type=int, metavar="P", help="a number whose power SIZE is -1")
    parser.add_argument("--root", type=int, metavar="W", help="the square of the twist")
    parser.add_argument("--order", choices=("natural", "reversed"), default="natural", help="of the transform's words")
    words = parser.parse_args()
    if words.size < 1 or words.modulus < 2:
        parser.error("SIZE is at least 1, and M at least 2")
    made = listing(words.direction, words.size, words.modulus, words.words, words.twist, words.root, words.order)
    sys.stdout.write(made)


if __name__ == "__main__":
    main()
