#!/usr/bin/env python3
"""Writes the manual page of spiral and spiral-fast, made of docs/REFERENCE.md, in the language of `man`.

    bin/manual.py > spiral.1
"""

import pathlib
import re

TOP = pathlib.Path(__file__).resolve().parent.parent
TITLE = '.TH SPIRAL 1\n.SH NAME\nspiral, spiral\\-fast \\- programs for exact linear transforms\n.SH SYNOPSIS\n'
SYNOPSIS = ".B spiral\n.I command\n[\n.I option ..\n] < request\n.br\n.B spiral\\-fast\n[\n.I option ..\n] < listing\n"


def escaped(text):
    """Text in which nothing is a command of roff."""
    text = text.replace("\\", "\\e").replace("-", "\\-")
    return "\\&" + text if text[:1] in (".", "'") else text


def words(text):
    """A paragraph: links are their texts, and names of code are bold."""
    text = re.sub(r"\[([^\]]*)\]\([^)]*\)", r"\1", text)
    parts = re.split(r"`([^`]*)`|\*\*([^*]*)\*\*", text)
    out = ""
    for k in range(0, len(parts), 3):
        out += escaped(parts[k]) if k == 0 else parts[k].replace("\\", "\\e").replace("-", "\\-")
        bold = next((it for it in parts[k + 1 : k + 3] if it), None)
        out += f"\\fB{escaped(bold)}\\fR" if bold else ""
    return out


def cells(row):
    return [cell.strip().replace("\\|", "|") for cell in re.split(r"(?<!\\)\|", row.strip().strip("|"))]


def page(lines):
    """The lines of the page, block by block."""
    paragraph, is_code, row = [], False, -1

    def ended():
        text = " ".join(paragraph)
        paragraph.clear()
        if text.startswith("- "):
            return [".IP \\(bu 2", words(text[2:])]
        return [".PP", words(text)] if text else []

    for line in lines:
        if line.startswith("```"):
            yield from [*ended(), ".PP", ".nf"] if not is_code else [".fi"]
            is_code = not is_code
        elif is_code:
            yield escaped(line)
        elif line.startswith("|"):
            row = row + 1
            if row == 0:
                yield from ended()
            elif row > 1:
                first, *others = cells(line)
                yield from (".TP", words(first), words(": ".join(other for other in others if other)) or "\\&")
        else:
            row = -1
            if line.startswith("## "):
                yield from [*ended(), f".SH {escaped(line[3:].replace('`', '')).upper()}"]
            elif not line.strip():
                yield from ended()
            else:
                if line.startswith("- "):
                    yield from ended()
                paragraph.append(line.strip())
    yield from ended()


def main():
    _, text = (TOP / "docs" / "REFERENCE.md").read_text(encoding="utf-8").split("\n## ", 1)
    print(TITLE + SYNOPSIS + "\n".join(page(("## " + text).splitlines())))


if __name__ == "__main__":
    main()
