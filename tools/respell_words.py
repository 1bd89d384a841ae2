#!/usr/bin/env python3
"""respell_words.py: the library's words for comparisons and lists, in definitions and clauses.

    tools/respell_words.py [TOP]    rewrites crates/*/specs and the clauses of crates/*/src below TOP

Run once, after tools/respell.py. `eqb a b` is written `a == b`, `ltb` and `leb` are `nat_lt` and
`nat_le`, `set` is `slice_set`, and `get_or xs i 0` is `slice_index xs i` (`slice_index_or` with any
other default): in each case the library declares the one to be the other. A file that does not
import the older word from the library stays as it is.
"""

import os
import re
import sys

OLD = {"eqb": "◌==◌", "ltb": "nat_lt", "leb": "nat_le", "set": "slice_set"}
IMPORT = re.compile(r"((?:ghost )?use Rattle\.std\.specs\.Prelude\.\{)([^}]*)(\})")
WORD = r"(?<![\w'\-◌·.]){}(?![\w'\-◌])"


def atom(text, at):
    """Where the atom that begins at a place ends: a name with its fields, a number or a group."""
    if text[at] == "(":
        deep = 0
        for i in range(at, len(text)):
            deep += (text[i] == "(") - (text[i] == ")")
            if not deep:
                break
        end = i + 1
        field = re.match(r"(?:\.\w+)+", text[end:])
        return end + (field.end() if field else 0)
    return at + re.match(r"[^\s(){},;]+", text[at:]).end()


def arguments(text, at, count):
    """The arguments from a place on, and where they end."""
    found = []
    for _ in range(count):
        at += len(text[at:]) - len(text[at:].lstrip())
        end = atom(text, at)
        found.append(text[at:end])
        at = end
    return found, at


def bare(group):
    """A group without its brackets, where what is in them is one application."""
    inside = group[1:-1]
    if group[0] == "(" and group[-1] == ")" and re.fullmatch(r"[\w'.]+(?: (?:[\w'.]+|\([^()]*\)))*", inside):
        return inside
    return group


def turned(text, names):
    for word in names & {"ltb", "leb", "set"}:
        text = re.sub(WORD.format(word), OLD[word], text)
    if "get_or" in names:
        while match := re.search(WORD.format("get_or"), text):
            (xs, i, other), end = arguments(text, match.end(), 3)
            new = f"slice_index {xs} {i}" if other == "0" else f"slice_index_or {xs} {i} {other}"
            text = text[:match.start()] + new + text[end:]
    if "eqb" in names:
        while match := re.search(WORD.format("eqb"), text):
            (a, b), end = arguments(text, match.end(), 2)
            text = text[:match.start()] + f"{bare(a)} == {bare(b)}" + text[end:]
    return text


def one_file(text, is_code):
    names = set()
    for match in IMPORT.finditer(text):
        names |= {part.strip() for part in match[2].split(",")} & (set(OLD) | {"get_or"})
    if not names:
        return text
    parts, last = [], 0
    for match in IMPORT.finditer(text):
        parts.append((text[last:match.start()], match))
        last = match.end()
    parts.append((text[last:], None))
    body = "\0".join(part for part, _ in parts)
    if is_code:
        body = re.sub(r"((?:ensures|requires)[^{\n]*)(\{(?:[^{}]|\{[^{}]*\})*\})",
                      lambda m: m[1] + turned(m[2], names), body)
    else:
        body = "\n".join(line if line.lstrip().startswith("--") else turned(line, names)
                         for line in body.split("\n"))
    new = {OLD[name] for name in names & set(OLD)}
    new |= {word for word in ("slice_index", "slice_index_or") if re.search(WORD.format(word), body)}
    pieces = body.split("\0")
    out = pieces[0]
    for at, (_, match) in enumerate(parts[:-1]):
        kept = [part.strip() for part in match[2].split(",")]
        kept = [part for part in kept if part not in names]
        if at == 0:
            kept += sorted(new - set(kept))
        out += match[1] + ", ".join(kept) + match[3] + pieces[at + 1]
    return out


def main(words):
    top = words[0] if words else os.path.dirname(os.path.dirname(os.path.abspath(__file__)))
    for folder, folders, files in os.walk(os.path.join(top, "crates")):
        folders[:] = sorted(name for name in folders if name not in ("out", ".git", "proofs"))
        for name in sorted(files):
            path = os.path.join(folder, name)
            in_specs = os.sep + "specs" in folder and name.endswith(".antt")
            if in_specs or name.endswith(".rt"):
                with open(path, encoding="utf-8") as file:
                    text = file.read()
                new = one_file(text, name.endswith(".rt"))
                if new != text:
                    with open(path, "w", encoding="utf-8") as file:
                        file.write(new)
    return 0


if __name__ == "__main__":
    sys.exit(main(sys.argv[1:]))
