#!/usr/bin/env python3
"""Times `compile` on the largest formulas, a line for each. It judges nothing.

    bench/formulas.py [NAME ..]
"""
import os
import subprocess
import sys
import tempfile

TOP = os.path.dirname(os.path.dirname(os.path.abspath(__file__)))
LONGEST = 65536


def balanced(word, parts):
    """The parts joined two by two, by TIMES or SUM."""
    if len(parts) == 1:
        return parts[0]
    half = len(parts) // 2
    return f"{word}({balanced(word, parts[:half])},{balanced(word, parts[half:])})"


def chain(count, part="WHT(2)"):
    return balanced("TIMES", [part] * count)


def nested(word, parts):
    """The parts joined from the right."""
    text = parts[-1]
    for part in reversed(parts[:-1]):
        text = f"{word}({part},{text})"
    return text


def leftwards(word, parts):
    text = parts[0]
    for part in parts[1:]:
        text = f"{word}({text},{part})"
    return text


def diagonal(count):
    return f"DIAG({','.join(str(k % 9 + 1) for k in range(count))})"


def turned(count):
    return f"PERM({','.join(map(str, reversed(range(count))))})"


def lifted(depth, part):
    """The part under tensors of two copies, one in the other."""
    return "RIGHT(2," * depth + part + ")" * depth


FORMULAS = {
    "dft": lambda: "DFT(65536,3)",
    "wht": lambda: "WHT(65536)",
    "perm": lambda: turned(12000),
    "strides": lambda: chain(4000, "L(4,2)"),
    "thomas": lambda: chain(2700, "GTIN(255,257)"),
    "chain": lambda: chain(4600),
    "row": lambda: nested("TIMES", ["WHT(2)"] * 126),
    "diagonals": lambda: chain(3000, "DIAG(2,3)"),
    "summands": lambda: balanced("SUM", ["WHT(2)"] * 5400),
    "scaled": lambda: f"TIMES({diagonal(8800)},{balanced('SUM', ['WHT(4)'] * 2200)})",
    "twice": lambda: f"TIMES({diagonal(4400)},TIMES({diagonal(4400)},{balanced('SUM', ['WHT(2)'] * 2200)}))",
    "spread": lambda: balanced("SUM", ["TIMES(DIAG(2,3),WHT(2))"] * 2200),
    "permuted": lambda: f"TIMES(L(6000,2),{balanced('SUM', ['WHT(2)'] * 3000)})",
    "beside": lambda: balanced("SUM", ["WHT(2)"] * 1500 + [chain(3000)]),
    "between": lambda: balanced("SUM", ["WHT(2)"] * 750 + [chain(3000)] + ["WHT(2)"] * 750),
    "right": lambda: nested("SUM", ["I(1)"] * 110 + [chain(2500)]),
    "left": lambda: leftwards("SUM", [chain(2500)] + ["I(1)"] * 110),
    "right_alone": lambda: nested("SUM", ["WHT(2)"] * 110 + [chain(2500)]),
    "stairs": lambda: nested("SUM", [chain(k + 1) for k in range(95)]),
    "moved": lambda: f"TIMES({chain(1700, 'L(4600,2)')},{balanced('SUM', ['WHT(2)'] * 2300)})",
    "fetched": lambda: f"TIMES({balanced('SUM', ['WHT(2)'] * 2300)},{chain(1700, 'L(4600,2)')})",
    "scaled_deep": lambda: nested("SUM", ["I(1)"] * 100 + [f"TIMES({diagonal(9000)},{balanced('SUM', ['WHT(4)'] * 2250)})"]),
    "tensors": lambda: lifted(6, f"SUM({balanced('SUM', ['WHT(2)'] * 500)},{chain(2000)})"),
}


def measured(program, text):
    """Seconds of a processor, megabytes and lines of one call, and its status."""
    with tempfile.TemporaryFile() as source, tempfile.TemporaryFile() as target:
        source.write(text.encode() + b"\n")
        source.seek(0)
        child = subprocess.Popen([program, "compile", "--mod", "17"], stdin=source, stdout=target)
        _, status, usage = os.wait4(child.pid, 0)
        target.seek(0)
        lines = sum(block.count(b"\n") for block in iter(lambda: target.read(1 << 20), b""))
        return usage.ru_utime + usage.ru_stime, usage.ru_maxrss // 1024, lines, status


def main():
    program = subprocess.check_output([f"{TOP}/bin/build", "spiral"], text=True).strip()
    names = sys.argv[1:] or list(FORMULAS)
    for name in names:
        text = FORMULAS[name]()
        if len(text) > LONGEST:
            raise SystemExit(f"{name} has {len(text)} bytes")
        seconds, megabytes, lines, status = measured(program, text)
        print(f"{name:12} {len(text):6} bytes {lines:8} lines {seconds:8.2f} s {megabytes:6} MB {status}", flush=True)


main()
