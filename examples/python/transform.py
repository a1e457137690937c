"""Functions of C as functions of Python.

    forward = Transform("./libforward.so", "forward")
    forward([1, 2, 3, 4])

The library is a shared one, made of what `library.py NAME` or `spiral-fast --name NAME` writes, and the header NAME.h
stands beside it. Numbers are reduced below the modulus. Of an array of numpy the result is one, too.
"""

import ctypes
import os
import re

try:
    import numpy
except ImportError:
    numpy = None

LINE = 64  # bytes: where the arrays begin


class Transform:
    def __init__(self, library, name):
        with open(os.path.join(os.path.dirname(library) or ".", f"{name}.h")) as file:
            header = file.read()
        sizes = {word: int(value) for word, value in re.findall(r"^#define \w+_([A-Z]+) (\d+)", header, re.M)}
        self.size, self.words, self.work, self.modulus = (sizes[w] for w in ("SIZE", "WORDS", "WORK", "MODULUS"))
        bits = re.search(rf"^void {name}\(uint(\d+)_t", header, re.M)[1]
        self.word = getattr(ctypes, f"c_uint{bits}")
        self.function = getattr(ctypes.CDLL(os.path.abspath(library)), name)
        self.function.restype = None

    def array(self, words):
        """An array of C that begins at a line."""
        bytes_of = ctypes.create_string_buffer(words * ctypes.sizeof(self.word) + LINE)
        return (self.word * words).from_buffer(bytes_of, -ctypes.addressof(bytes_of) % LINE)

    def __call__(self, given):
        if len(given) != self.size:
            raise ValueError(f"{len(given)} numbers in place of {self.size}")
        out, inside, work = self.array(self.words), self.array(self.words), self.array(self.work)
        inside[: self.size] = [int(number) % self.modulus for number in given]
        self.function(out, inside, work)
        if numpy and isinstance(given, numpy.ndarray):
            return numpy.array(out[: self.size], dtype=given.dtype)
        return out[: self.size]
