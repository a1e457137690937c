#!/usr/bin/env python3
"""Compares the meaning of C in crates/c_meaning with GCC and Clang: the rows of its tables, which are proved of the meaning, with what
the compilers make of the same texts.

    checks/c_meaning.py [COMPILER..]      gcc and clang, if none is named

A row of specs/Rows.antt is an expression with its type and its value, or undefined. Where it has a value, it is compiled as it is; and
every row is compiled with its constants as variables that the compiler knows nothing of, under sanitizers, which have to stop exactly at
those that are undefined. A row of specs/Procedures.antt is a procedure with an argument and the words that it leaves, or undefined:
sanitizers have to stop there; a read of what was never set only Clang's can see.
"""

import os
import re
import subprocess
import sys
import tempfile

TOP = os.path.dirname(os.path.dirname(os.path.abspath(__file__)))
SPECS = f"{TOP}/crates/c_meaning/specs"
# Each type by its names: two types of 64 bits are one here.
TYPES = {
    "Short": ["uint16_t"],
    "Int": ["int"],
    "Half": ["uint32_t"],
    "Long": ["long", "long long"],
    "Word": ["unsigned long", "unsigned long long"],
    "Wide": ["unsigned __int128"],
}
EXPRESSION = re.compile(r'row \(codes "(.*?)"\) .* (\w+) (?:(Undefined)|\(is \((pos|negsuc) (\d+)\)\))$', re.M)
PROCEDURE = re.compile(r'row \(codes "(.*?)"\) .* (\d+) (?:(Undefined)|\(Defined \(([\d ∷]+)\[\]\)\))$', re.M)
UNDEFINED = ["-fsanitize=undefined", "-fno-sanitize-recover=all"]
SANITIZERS = {
    "gcc": [UNDEFINED + ["-fsanitize=bounds-strict"], ["-fsanitize=address"]],
    "clang": [UNDEFINED, ["-fsanitize=address"], ["-fsanitize=memory"]],
}


def rows_of(name, pattern):
    """The rows of a file, each of which the pattern has to know."""
    with open(f"{SPECS}/{name}.antt") as file:
        text = file.read()
    rows = pattern.findall(text)
    if not rows or len(rows) != text.count("row (codes "):
        sys.exit(f"c_meaning: {name}.antt: {len(rows)} rows are read, of {text.count('row (codes ')}")
    return rows


def compiled(compiler, text, options, folder, name="program"):
    """The program of a text."""
    with open(f"{folder}/text.c", "w") as file:
        file.write(text)
    command = [compiler, "-std=gnu11", "-w", *options, f"{folder}/text.c", "-o", f"{folder}/{name}"]
    done = subprocess.run(command, capture_output=True, text=True)
    if done.returncode != 0:
        sys.exit(f"c_meaning: {' '.join(command)}\n{done.stderr}{text}")
    return f"{folder}/{name}"


def outcome(program, *words):
    """What a program writes, or None if a sanitizer stops it."""
    done = subprocess.run([program, *words], capture_output=True, text=True)
    if done.returncode == 0:
        return done.stdout.split()
    if not re.search("runtime error|Sanitizer", done.stderr):
        sys.exit(f"c_meaning: status {done.returncode}: {done.stderr}")
    return None


def shown(expression, type_name):
    """Statements that write whether an expression has the type, and its value."""
    names = ", ".join(f"{name}: 1" for name in TYPES[type_name])
    return (
        f'printf("%d ", _Generic(({expression}), {names}, default: 0));\n'
        f"show((unsigned __int128)({expression}), ({expression}) < 0);\n"
    )


HEAD = """#include <stdint.h>
#include <stdio.h>
#include <stdlib.h>
static void show(unsigned __int128 x, int negative) {
    if (negative) { x = ~x; printf("negsuc "); } else printf("pos ");
    printf("%llx %llx\\n", (unsigned long long)(x >> 64), (unsigned long long)x);
}
"""


def with_variables(text):
    """The text with its constants as variables, and their declarations."""
    constants = []

    def variable(match):
        constants.append(match.group(0))
        return f"k{len(constants) - 1}"

    text = re.sub(r"(?<![\w])\d+(?:u|ULL)?\b", variable, text)
    return text, "".join(f"static volatile __typeof__({c}) k{i} = {c};\n" for i, c in enumerate(constants))


class Judge:
    def __init__(self):
        self.faults = 0

    def judge(self, place, found, expected):
        if found != expected:
            self.faults += 1
            print(f"c_meaning: {place}: {found} in place of {expected}")


def check_expressions(judge, compiler, folder):
    rows = rows_of("Rows", EXPRESSION)
    expected = {}
    for text, type_name, undefined, sign, number in rows:
        value = None
        if not undefined:
            value = ["1", sign, f"{int(number) >> 64:x}", f"{int(number) & (2**64 - 1):x}"]
        expected[text] = value
    defined = [row for row in rows if not row[2]]
    plain = HEAD + "int main(void) {\n" + "".join(shown(row[0], row[1]) for row in defined) + "}\n"
    for options in (["-O0"], ["-O2"]):
        found = outcome(compiled(compiler, plain, options, folder))
        for index, row in enumerate(defined):
            judge.judge(f"{compiler} {options[0]}: {row[0]}", found[4 * index : 4 * index + 4], expected[row[0]])
    functions, calls = "", ""
    for index, row in enumerate(rows):
        text, variables = with_variables(row[0])
        functions += re.sub(r"\bk(\d+)\b", rf"k{index}_\1", f"{variables}static void row{index}(void) {{\n{shown(text, row[1])}}}\n")
        calls += f"case {index}: row{index}(); break;\n"
    body = f"{HEAD}{functions}int main(int n, char **words) {{\nswitch (atoi(words[1])) {{\n{calls}}}\n}}\n"
    for options in (["-O0"], ["-O2"]):
        program = compiled(compiler, body, options + UNDEFINED, folder)
        for index, row in enumerate(rows):
            judge.judge(f"{compiler} {options[0]}, sanitized: {row[0]}", outcome(program, str(index)), expected[row[0]])
    return len(rows)


def check_procedures(judge, compiler, folder):
    with open(f"{SPECS}/Procedures.antt") as file:
        text = re.search(r'^front_lines = codes "(.*)"$', file.read(), re.M).group(1)
    rows = rows_of("Procedures", PROCEDURE)
    unset = [("X[0] = r[0][q];" in row[0], row[1]) for row in rows].index((True, "1"))
    for index, row in enumerate(rows):
        text += f"#define f f{index}\n{row[0]}#undef f\n"
    calls = "".join(f"case {index}: f{index}({row[1]}ULL); break;\n" for index, row in enumerate(rows))
    # Clang sees a read of what was never set where something depends on it.
    text = (
        "#include <stdio.h>\n#include <stdlib.h>\n" + text.replace("\\n", "\n") + "int main(int n, char **words) {\n"
        f"switch (atoi(words[1])) {{\n{calls}}}\n"
        'for (int i = 0; i < 8; i++) { if (W[i] == 99) return 1; printf("%llu ", (unsigned long long)W[i]); }\n}\n'
    )
    plain = compiled(compiler, text, ["-O2"], folder, "plain")
    sanitized = [
        compiled(compiler, text, options, folder, f"sanitized{number}") for number, options in enumerate(SANITIZERS[compiler])
    ]
    for index, (procedure, argument, undefined, left) in enumerate(rows):
        place = f"{compiler}: {procedure} of {argument}"
        outcomes = [outcome(program, str(index)) for program in sanitized]
        if undefined:
            judge.judge(f"{place}, sanitized", None in outcomes or (compiler, index) == ("gcc", unset), True)
        else:
            words = re.findall(r"\d+", left)
            judge.judge(place, outcome(plain, str(index)), words)
            judge.judge(f"{place}, sanitized", outcomes, [words] * len(outcomes))
    return len(rows)


def main():
    compilers = sys.argv[1:] or ["gcc", "clang"]
    judge = Judge()
    with tempfile.TemporaryDirectory() as folder:
        for compiler in compilers:
            count = check_expressions(judge, compiler, folder)
            procedures = check_procedures(judge, compiler, folder)
            print(f"c_meaning: {compiler}: {count} expressions and {procedures} procedures")
    sys.exit(1 if judge.faults else 0)


if __name__ == "__main__":
    main()
