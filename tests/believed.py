#!/usr/bin/env python3
"""What is to be believed: the definitions, promises and statements in crates/*/specs.

    tests/believed.py    prints the lines of each crate, and ends with 1 where a file of specs/
                         has what does not belong there

A line is believed unless it is blank, a comment, of a `use` or a `mod` line, or stands in a file
that is inside its crate, on which nothing that is believed rests (tests/documents/inside.py). What
does not belong: a line over 120 characters; a definition's comment above the `use` lines, where
only the file's own sentence stands; and a lemma, told by a declaration that is no `abbrev`,
`unfoldable`, `record` or `data`, by an equality as a definition's type, or by a word that only
proofs have.
"""

import os
import re
import sys

sys.path.insert(0, os.path.dirname(os.path.abspath(__file__)))

from documents import inside  # noqa: E402
from documents.project import Project  # noqa: E402

TOP = os.path.dirname(os.path.dirname(os.path.abspath(__file__)))
LONGEST = 120
BELIEVED = re.compile(r"\s*(?!--|(?:pub )?use |(?:pub )?mod |$)\S")
# A `use` line may go on over others, up to its closing brace.
USES = re.compile(r"^(?:pub )?use [^\n]*\{[^}]*\}", re.M)
PROVING = re.compile(r"(?<![\w'.])(rw|rw⁻¹|grw|simp|omega|cc|hlevel|search|grind|assumption|ground|"
                     r"refl|sym|ap)(?![\w'])")
DEFINES = re.compile(r"^\s*(?:pub )?(?:(?:abbrev|unfoldable) (?:pub )?|(?:pub )?(?:record|data) )")
DECLARES = re.compile(r"^(?:(?:pub|abbrev|unfoldable) )*(\S+)(?: \{[^}]*\})? : ")


def files(project):
    """The files of specs/, by crate."""
    return {crate: project.found(f"crates/{crate}/specs/**/*.antt") for crate in project.crates()}


def lines_of(text):
    """The lines of a file; those in which a `use` line goes on are blank."""
    whole = USES.sub(lambda hit: hit[0].split("\n")[0] + "\n" * hit[0].count("\n"), text)
    return whole.splitlines()


def count(project):
    """The lines to be believed, by crate; crates without any left out."""
    found = {}
    for crate, paths in files(project).items():
        lines = [line for path in paths if not inside.is_inside(project, path)
                 for line in lines_of(project.text(path))]
        found[crate] = sum(bool(BELIEVED.match(line)) for line in lines)
    return {crate: lines for crate, lines in found.items() if lines}


def whole(project):
    """All lines of specs/, by crate."""
    return {crate: sum(len(project.text(path).splitlines()) for path in paths)
            for crate, paths in files(project).items()}


def misplaced(lines):
    """The line above the first `use` where a second comment begins; 0 for none."""
    before, blank = "", False
    for at, line in enumerate(lines, 1):
        if line and not line.startswith("--"):
            return 0
        ended = before.rstrip('"').endswith((".", "?"))
        if line and before and (blank or ended and line[3:4].islower()):
            return at
        before, blank = line or before, not line
    return 0


def claims(lines, at):
    """Whether a declaration's type ends in an equality: whether it is a lemma's."""
    text = lines[at].partition(" : ")[2]
    for line in lines[at + 1:]:
        if not line.startswith(" "):
            break
        text += " " + line.strip()
    depth, last = 0, 0
    for place, sign in enumerate(text):
        depth += (sign in "({") - (sign in ")}")
        last = place if sign == "→" and depth == 0 else last
    return "≡" in re.sub(r"\{[^{}]*\}|\([^()]*\)", "", text[last:])


def file_faults(lines):
    """What does not belong in one file, each with its line."""
    wrong = [(at, f"{len(line)} characters") for at, line in enumerate(lines, 1)
             if len(line) > LONGEST]
    if misplaced(lines):
        wrong.append((misplaced(lines), "a comment above the `use` lines that is a definition's"))
    for at, line in enumerate(lines):
        code = line.partition("--")[0] if BELIEVED.match(line) else ""
        word = PROVING.search(code)
        declared = DECLARES.match(line)
        if word:
            wrong.append((at + 1, f"`{word[1]}` is a word of proofs"))
        if declared and not DEFINES.match(line):
            wrong.append((at + 1, f"{declared[1]} is neither a definition nor a statement"))
        elif declared and claims(lines, at):
            wrong.append((at + 1, f"{declared[1]} is a lemma: its type is an equality"))
    return wrong


def faults(project):
    """What does not belong in specs/."""
    return [f"{path}:{at}: {what}" for paths in files(project).values() for path in paths
            for at, what in file_faults(lines_of(project.text(path)))] + inside.faults(project)


def main():
    """Prints the table and the faults."""
    project = Project(TOP)
    believed, lines = count(project), whole(project)
    print(f"{'crate':12}{'believed':>10}{'all lines':>12}")
    for crate, number in believed.items():
        print(f"{crate:12}{number:>10,}{lines[crate]:>12,}")
    print(f"{'together':12}{sum(believed.values()):>10,}{sum(lines.values()):>12,}")
    wrong = faults(project)
    for what in wrong:
        print(what)
    return 1 if wrong else 0


if __name__ == "__main__":
    sys.exit(main())
