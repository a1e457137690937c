#!/usr/bin/env python3
"""Looks at the addresses of C texts for several processors: in no phase does one processor touch a line of 64 bytes that another
one writes.

    checks/lines.py [COMPILER]      gcc, if none is named

The texts are those of `spiral c` and of `spiral-fast`, with arrays and as functions to link. Each request has lines of at least
64 bytes in the words of its text. That the log sees shared lines is tested, too: by texts whose words are made narrower, and by
requests without lines.
"""

import os
import re
import subprocess
import sys
import tempfile

TOP = os.path.dirname(os.path.dirname(os.path.abspath(__file__)))
os.environ["PATH"] = f"{TOP}/bin{os.pathsep}{os.environ['PATH']}"
PRIME_60 = "1152921504606830593"
# Requests with lines of 8 words, which are 64 bytes in words of 64 bits, or of 16, which are that in words of 32 bits.
REQUESTS = (
    "dft 1024 mod 12289 root 10302 procs 4 line 8",
    "dft 1024 mod 12289 root 10302 procs 2 line 16",
    "dft 256 mod 12289 root 8340 procs 2 line 8",
    f"dft 256 mod {PRIME_60} root 257058671398294284 procs 2 line 8 lanes 8",
    "dft 4096 mod 12289 root 1331 procs 4 line 16 lanes 8 unroll 16",
    "wht 4096 mod 17 procs 8 line 8 lanes 4",
    "idft 576 mod 577 root 5 procs 3 line 8",
)
# Requests and options by which some lines are shared.
CONTROLS = (
    ("dft 1024 mod 12289 root 10302 procs 4 line 8", ["--words", "32"]),
    ("dft 64 mod 193 root 11 procs 4", []),
)


def output(words, text=""):
    done = subprocess.run(words, input=text, capture_output=True, text=True)
    if done.returncode != 0:
        sys.exit(f"lines: {' '.join(words)}: status {done.returncode}\n{done.stderr}")
    return done.stdout


class Text:
    """A text for several processors in a folder: its file, its first line, and how to call its phases."""

    def __init__(self, folder, text, header=None):
        self.folder, self.header = folder, header
        size, self.procs, line = map(int, re.search(r"^/\* program size (\d+) mod \d+ procs (\d+) line (\d+) ", text, re.M).groups())
        self.words = (size + line - 1) // line * line
        self.phases = len(re.findall(r"^(?:static )?void \w*phase\d+\(", text, re.M))
        self.write("text.c", text)
        if header:
            self.write("text.h", header)
        self.write("logged.c", "\n".join(self.of_function() if header else self.of_arrays(text)) + "\n")

    def write(self, name, text):
        with open(f"{self.folder}/{name}", "w") as file:
            file.write(text)

    def of_arrays(self, text):
        memory = re.search(r"^static uint64_t W\[\d+\];$", text, re.M)
        yield from ("#include <stddef.h>", "#include <stdint.h>")
        if memory:
            yield "__attribute__((aligned(64))) " + memory[0]
        yield '#include "text.c"'
        calls = [f"phase{phase}(q)" for phase in range(self.phases)]
        yield from self.described({array: self.words for array in "XYAB"}, calls)

    def of_function(self):
        word = re.search(r"^void forward\((\w+) \*out", self.header, re.M)[1]
        yield from ("#include <stddef.h>", '#include "text.h"', '#include "text.c"')
        arrays = {"in": self.words, "out": self.words, "work": 2 * self.words}
        for name, words in arrays.items():
            yield f"static __attribute__((aligned(64))) {word} {name}_array[{words}];"
        arguments = "out_array, in_array, work_array"
        calls = [f"forward_phase({phase}, q, {arguments})" for phase in range(self.phases)]
        yield from self.described({f"{name}_array": words for name, words in arrays.items()}, calls)

    def described(self, arrays, calls):
        yield f"struct array {{ char *first; size_t bytes; }} arrays[{len(arrays)}];"
        yield f"const size_t array_count = {len(arrays)}, procs = {self.procs}, phases = {self.phases};"
        yield "void find_arrays(void) {"
        for number, (name, words) in enumerate(arrays.items()):
            yield f"arrays[{number}].first = (char *){name}; arrays[{number}].bytes = {words} * sizeof *{name};"
        yield "}\nvoid do_phase(uint64_t phase, uint64_t q) {\nswitch (phase) {"
        for number, call in enumerate(calls):
            yield f"case {number}: {call}; break;"
        yield "}\n}"

    def shared_lines(self, compiler):
        """How many lines of 64 bytes one processor writes and another touches, over all phases."""
        command = [compiler, "-std=gnu11", "-O1", "-Wno-psabi"]
        output([*command, "-fsanitize=thread", "-c", f"{self.folder}/logged.c", "-o", f"{self.folder}/logged.o"])
        output([*command, "-DLINE=64", "-c", f"{TOP}/checks/lines.c", "-o", f"{self.folder}/lines.o"])
        output([compiler, f"{self.folder}/logged.o", f"{self.folder}/lines.o", "-o", f"{self.folder}/program"])
        shared, accessed = re.match(r"(\d+) lines shared, (\d+) bytes", output([f"{self.folder}/program"])).groups()
        if int(accessed) < 2 * 4 * self.words:
            sys.exit(f"lines: too few accesses were seen: {accessed} bytes")
        return int(shared)


def fast(listing, options=()):
    return output(["spiral-fast", *options], listing)


def texts_of(request):
    """Name, text, and header of a function, of each text for the request."""
    listing, plain = output(["spiral", "code"], request + "\n"), output(["spiral", "c"], request + "\n")
    library = [f"{TOP}/examples/library.py", "forward"]
    yield "spiral c", plain, None
    yield "library.py", output(library, plain), output([*library, "--header"], plain)
    for words in ((), ("--words", "64")):
        name = " ".join(("spiral-fast", *words))
        yield name, fast(listing, words), None
        yield f"{name} --name", fast(listing, (*words, "--name", "forward")), fast(listing, (*words, "--name", "forward", "--header"))


def main():
    compiler = sys.argv[1] if len(sys.argv) > 1 else "gcc"
    faults, count = [], 0
    with tempfile.TemporaryDirectory() as folder:
        for request in REQUESTS:
            for name, text, header in texts_of(request):
                shared = Text(folder, text, header).shared_lines(compiler)
                count += 1
                faults += [f"{request}: {name}: {shared} lines are shared"] if shared else []
        for request, words in CONTROLS:
            text = fast(output(["spiral", "code"], request + "\n"), words)
            if not Text(folder, text).shared_lines(compiler):
                faults.append(f"{request}: {' '.join(words)}: no line is seen to be shared")
    for fault in faults:
        print(f"lines: {fault}")
    print(f"lines: {count} texts, {len(faults)} faults")
    sys.exit(bool(faults))


if __name__ == "__main__":
    main()
