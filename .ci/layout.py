#!/usr/bin/env python3
"""What the merge gate asks of the text of the repository, beside its proofs.

- No line of a clause or of a ghost member (crates/*/src) is wider than 100 columns.
- No line of a definition (crates/*/specs) is wider than 120 columns. Imports, which `rt` writes, are left out.
- No text names a path of one machine.

Columns are characters. Nothing is printed where all is well; else a line for each place, and the status is 1.
`layout.py --list` prints the places and ends with 0.
"""

import os
import re
import subprocess
import sys

CLAUSE_WIDTH = 100
DEFINITION_WIDTH = 120

# Where a clause or a ghost member begins: the brace that opens its formula is the last character.
CLAUSE = re.compile(r"\b(?:requires|ensures|also_owns|also_shares)\b\*?(?:\s+[a-z_]\w*)?\s*\{")
GHOST_MEMBER = re.compile(r"\bghost\s+[A-Za-z_]\w*\s*[:=]\s*\{")

# What is left out of a line of code before braces are counted: comments, and text and byte literals.
LITERAL = re.compile(r'//[^\n]*|b?r(#*)".*?"\1|b?"(?:\\.|[^"\\])*"|b?\'(?:\\.[^\']*|[^\'\\])\'', re.DOTALL)

# A path that only one machine has.
OWN_PATH = re.compile(r"(?<![\w.])/(?:work|root|opt|home)/\w")


def masked(text):
    """The text with its comments and literals as blanks of the same length, so that places stay."""

    def blank(found):
        return re.sub(r"[^\n]", " ", found.group(0))

    return LITERAL.sub(blank, text)


def end_of_braces(text, begin):
    """The place after the brace that closes the one before `begin`."""
    depth = 1
    for place in range(begin, len(text)):
        if text[place] == "{":
            depth += 1
        elif text[place] == "}":
            depth -= 1
            if depth == 0:
                return place + 1
    return len(text)


def clause_lines(text):
    """The numbers, from 0, of the lines on which a clause or a ghost member stands."""
    plain = masked(text)
    lines = set()
    for pattern in (CLAUSE, GHOST_MEMBER):
        for found in pattern.finditer(plain):
            end = end_of_braces(plain, found.end())
            lines.update(range(plain.count("\n", 0, found.start()), plain.count("\n", 0, end) + 1))
    return lines


def is_import(line):
    return line.lstrip().startswith(("use ", "pub use "))


def wide_lines(path, text):
    """The lines of a file that are too wide, each with its number from 1, its width and the limit."""
    lines = text.split("\n")
    parts = path.split("/")
    if len(parts) < 4 or parts[0] != "crates":
        return
    if parts[2] == "src" and path.endswith(".rt"):
        for number in sorted(clause_lines(text)):
            if len(lines[number]) > CLAUSE_WIDTH:
                yield number + 1, len(lines[number]), CLAUSE_WIDTH
    if parts[2] == "specs" and path.endswith(".antt"):
        for number, line in enumerate(lines):
            if len(line) > DEFINITION_WIDTH and not is_import(line):
                yield number + 1, len(line), DEFINITION_WIDTH


def own_paths(text):
    """The paths of one machine in a file, each with its line's number."""
    for number, line in enumerate(text.split("\n")):
        found = OWN_PATH.search(line)
        if found:
            yield number + 1, found.group(0)


def files():
    """The files of the repository; those that a check made are left out."""
    named = subprocess.run(
        ["git", "ls-files", "--cached", "--others", "--exclude-standard"],
        capture_output=True,
        text=True,
        check=False,
    )
    if named.returncode == 0:
        return sorted(path for path in named.stdout.splitlines() if os.path.isfile(path))
    found = []
    for folder, below, names in os.walk("."):
        below[:] = [name for name in below if name not in (".git", "out")]
        found.extend(os.path.relpath(os.path.join(folder, name), ".") for name in names)
    return sorted(found)


def places():
    """A line for each place that is to be changed."""
    for path in files():
        try:
            with open(path, encoding="utf-8") as file:
                text = file.read()
        except UnicodeDecodeError:
            continue
        for number, width, limit in wide_lines(path, text):
            yield f"{path}:{number}: {width} columns, {limit} at most"
        if path != ".ci/layout.py":
            for number, word in own_paths(text):
                yield f"{path}:{number}: '{word}' is a path of one machine"


def main():
    os.chdir(os.path.join(os.path.dirname(os.path.abspath(__file__)), ".."))
    found = list(places())
    for place in found:
        print(place)
    return 1 if found and "--list" not in sys.argv[1:] else 0


if __name__ == "__main__":
    sys.exit(main())
