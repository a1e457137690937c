#!/usr/bin/env python3
"""Makes a function of a C text of `spiral c`: a file of C that another program links, without arrays of its own.

    library.py NAME < TEXT > NAME.c             the function
    library.py NAME --header < TEXT > NAME.h    its header

    void NAME(uint64_t *out, const uint64_t *in, uint64_t *work)
    void NAME_phase(uint64_t k, uint64_t q, uint64_t *out, const uint64_t *in, uint64_t *work)

NAME computes the whole. NAME_phase computes phase k of processor q: a program on threads calls it for each k, with all
q at once and a barrier after each k. Constant tables are all that the file keeps, so calls with arrays of their own
may run at the same time. The header says how long the arrays are. `spiral-fast --name NAME` writes the same of its own
text.
"""

import argparse
import re
import sys

HEADER = re.compile(r"/\* program size (\d+) mod (\d+) procs (\d+) line (\d+) lanes (\d+) regs \d+ \*/$")
ARRAY = re.compile(r"#define ([XYAB]) \(W \+ (\d+)\)$")
MEMORY = re.compile(r"static uint64_t W\[\d+\];$")
FUNCTION = re.compile(r"static uint64_t (?:add|sub|mul)\(")
PHASE = re.compile(r"void phase(\d+)\(uint64_t q\) \{$")
NAME = re.compile(r"[A-Za-z_][A-Za-z0-9_]{0,63}$")
ARRAYS = "const uint64_t *restrict X, uint64_t *restrict Y, uint64_t *restrict A, uint64_t *restrict B"
HANDED_IN = "uint64_t *out, const uint64_t *in, uint64_t *work"


class Text:
    """What the text's first lines say, its lines, and how many phases there are."""

    def __init__(self, text):
        self.lines = text.splitlines()
        found = HEADER.match(self.lines[0]) if self.lines else None
        starts = dict(match.groups() for match in map(ARRAY.match, self.lines) if match)
        if not found or set(starts) != set("XYAB"):
            sys.exit("library.py: standard input is no C text of `spiral c`")
        self.size, self.modulus, self.procs, self.line = map(int, found.groups()[:4])
        self.words = int(starts["Y"])
        self.phases = sum(bool(PHASE.match(line)) for line in self.lines)


def rewritten(line, name):
    """The line of the text as a line of the function's file."""
    phase = PHASE.match(line)
    if phase:
        return f"static void {name}_phase{phase[1]}(uint64_t q, {ARRAYS}) {{\n(void)X; (void)Y; (void)A; (void)B;"
    if FUNCTION.match(line):
        return "__attribute__((unused)) " + line.replace("(unsigned __int128)", "(double_word)")
    return line


def function_file(text, name):
    lines = []
    for line in text.lines:
        if MEMORY.match(line):
            lines.append("__extension__ typedef unsigned __int128 double_word;")
        elif not ARRAY.match(line):
            lines.append(rewritten(line, name))
    arrays = f"in, out, work, work + {text.words}"
    check = f"#ifdef CHECK\nfor (uint64_t n = 0; n < {text.words}; n++) if (in[n] >= M) __builtin_trap();\n#endif"
    lines.append(f"void {name}_phase(uint64_t k, uint64_t q, {HANDED_IN}) {{\n{check}\nswitch (k) {{")
    lines += [f"case {k}: {name}_phase{k}(q, {arrays}); break;" for k in range(text.phases)]
    lines.append(f"}}\n}}\nvoid {name}({HANDED_IN}) {{\n{check}")
    each = f"for (uint64_t q = 0; q < {text.procs}; q++)"
    lines += [f"{each} {name}_phase{k}(q, {arrays});" for k in range(text.phases)]
    return "\n".join([*declared(lines, name), "}"]) + "\n"


def declared(lines, name):
    """The lines with the two declarations after the one that includes stdint.h."""
    at = lines.index("#include <stdint.h>") + 1
    return [*lines[:at], *declarations(name), *lines[at:]]


def declarations(name):
    return [f"void {name}({HANDED_IN});", f"void {name}_phase(uint64_t k, uint64_t q, {HANDED_IN});"]


def comment(name, upper):
    """What the header says of calls and arrays, as that of `spiral-fast --name` does."""
    return [
        f"/* {name} does all phases, of each phase one processor after another. Threads call {name}_phase(k, q, ..)",
        f" * for each phase k below {upper}_PHASES, with all q below {upper}_PROCS at once and a barrier after each k. Both leave the same.",
        f" * in: {upper}_WORDS words below {upper}_MODULUS, which stay as they are. With -DCHECK the functions stop at a greater one.",
        f" * out: {upper}_WORDS words. The first {upper}_SIZE get the results, in the order of the listing (the natural one for",
        f" * transforms), below {upper}_MODULUS.",
        f" * work: {upper}_WORK words. No two of the three arrays overlap.",
        " * out, work: any words before the first phase.",
        f" * A line has {upper}_LINE_BYTES bytes. Where each array begins at a multiple of that, no processor touches a line",
        " * that another one writes in the phase. Best at multiples of 64 bytes, too. */",
    ]


def header_file(text, name):
    upper = name.upper()
    values = {
        "SIZE": text.size,
        "WORDS": text.words,
        "WORK": 2 * text.words,
        "LINE_BYTES": 8 * text.line,
        "MODULUS": f"{text.modulus}ULL",
        "PROCS": text.procs,
        "PHASES": text.phases,
    }
    return "\n".join([
        text.lines[0],
        f"#ifndef {upper}_H",
        f"#define {upper}_H",
        "#include <stdint.h>",
        *(f"#define {upper}_{word} {value}" for word, value in values.items()),
        "#ifdef __cplusplus",
        'extern "C" {',
        "#endif",
        *comment(name, upper),
        *declarations(name),
        "#ifdef __cplusplus",
        "}",
        "#endif",
        "#endif",
    ]) + "\n"  # fmt: skip


def main():
    parser = argparse.ArgumentParser(description=__doc__, formatter_class=argparse.RawDescriptionHelpFormatter)
    parser.add_argument("name", metavar="NAME", help="the name of the function")
    parser.add_argument("--header", action="store_true", help="write the header in place of the function")
    words = parser.parse_args()
    if not NAME.match(words.name):
        parser.error(f"{words.name} is no name of C of at most 64 letters, digits and _")
    text = Text(sys.stdin.read())
    sys.stdout.write((header_file if words.header else function_file)(text, words.name))


if __name__ == "__main__":
    main()
