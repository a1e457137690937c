#!/usr/bin/env python3
"""Joins what several primes leave of numbers to the numbers.

    residues.py PRIMES < LINES

The file PRIMES has a prime at the beginning of each line, as `choose.py SIZE BITS COUNT` writes them. LINES has a line
of remainders for each of them. It writes the numbers that have these remainders: those from minus half
of the primes' product up to its half.
"""

import argparse
import sys


def join(primes, rows):
    """For each place the number with the remainder of each row modulo its prime, the least in amount."""
    whole, numbers = 1, [0] * len(rows[0])
    for prime, row in zip(primes, rows):
        inverse = pow(whole, -1, prime)
        numbers = [x + whole * ((r - x) * inverse % prime) for x, r in zip(numbers, row)]
        whole *= prime
    return [x - whole if 2 * x > whole else x for x in numbers]


def read_numbers(lines, what):
    try:
        return [list(map(int, line.split())) for line in lines if line.strip()]
    except ValueError:
        sys.exit(f"residues.py: {what} is not of numbers alone")


def main():
    parser = argparse.ArgumentParser(description=__doc__, formatter_class=argparse.RawDescriptionHelpFormatter)
    parser.add_argument("primes", metavar="PRIMES", type=argparse.FileType())
    primes = [line[0] for line in read_numbers(parser.parse_args().primes, "the file of primes")]
    rows = read_numbers(sys.stdin, "standard input")
    if not primes or len(rows) != len(primes) or len({len(row) for row in rows}) != 1:
        sys.exit(f"residues.py: {len(rows)} lines are not one line for each of {len(primes)} primes, all of one length")
    print(*join(primes, rows))


if __name__ == "__main__":
    main()
