#!/usr/bin/env python3
"""respell.py: definitions and lemmas in the spelling of today's Rattle.

    tools/respell.py [TOP]          rewrites crates/, README.md and docs/ below TOP (this repository)
    tools/respell.py --list [TOP]   prints each name with its new one, and rewrites nothing

It is run once, after the toolchain's own port.py. Words of specs/ and of the lemma files of proofs/
are in snake case, as Rust's are: `oneMore` becomes `one_more`, `chain-assoc` becomes `chain_assoc`;
a lemma that would have the name of a definition or of another lemma then ends in `_lem`. What stays:
types, constructors, modules and files; names that Rattle makes; names of code, which are Rust's;
strings; what a file imports from elsewhere under the same name; and docs/landings, which is history.
A place in which a new name already stands for something else is printed, to be looked at.
"""

import os
import re
import sys

NAME = r"[^\s(){}.,;:\"λ∷→×]+"
DECLARES = re.compile(
    r"^\s*(?:(?:abbrev|unfoldable|pub) )*(?P<name>" + NAME + r")(?: \{[^}]*\})? : ", re.M)
FUNCTION = re.compile(r"\bfn ([a-z_0-9]+)")
IMPORT = re.compile(r"^\s*(?:ghost )?(?:pub )?use ([\w.'◌-]+?)\.\{([^}]*)\}", re.M)
WHOLE = r"(?<![\w'\-◌·]){}(?![\w'\-◌])"
QUOTED = re.compile(r"\"(?:[^\"\\\n]|\\.)*\"")


def walk(top, *endings):
    for folder, folders, files in os.walk(top):
        folders[:] = sorted(name for name in folders if name not in ("out", ".git"))
        for name in sorted(files):
            if name.endswith(endings):
                yield os.path.join(folder, name)


def text_of(path):
    with open(path, encoding="utf-8") as file:
        return file.read()


def is_general(path):
    """A file of definitions or of lemmas: not the proof of one function."""
    parts = path.split(os.sep)
    return "specs" in parts or "proofs" in parts and parts[parts.index("proofs") + 1] == parts[-1]


def snake(name):
    if re.fullmatch(r"[a-z][A-Za-z0-9_']*", name):
        return re.sub(r"(?<=[a-z0-9])([A-Z])", lambda m: "_" + m[1].lower(), name)
    if re.fullmatch(r"[a-z0-9][a-z0-9_'-]*", name):
        return name.replace("-", "_")
    return name


def declared(top):
    """Each declared name, with whether a file of specs/ declares it."""
    found = {}
    for path in walk(os.path.join(top, "crates"), ".antt"):
        if is_general(path):
            for match in DECLARES.finditer(text_of(path)):
                name = match["name"]
                found[name] = found.get(name, False) or os.sep + "specs" + os.sep in path
    return found


def renamed(top):
    """Old names with their new ones. A definition has its word; a lemma of the same name gives way."""
    names = declared(top)
    words = {snake(name) for name in names if names[name]}
    new, taken = {}, set(words)
    for name in sorted(names, key=lambda n: (not names[n], snake(n) != n, n)):
        to = snake(name)
        if not names[name]:
            while to in taken:
                to += "_lem"
            taken.add(to)
        if to != name:
            new[name] = to
    return new


def foreign(text):
    """What a file imports from beyond this repository's crates."""
    names = set()
    for match in IMPORT.finditer(text):
        if not re.match(r"Rattle\.(?!std\b)", match[1]):
            names |= {part.split(" as ")[0].strip() for part in match[2].split(",")}
    return names


def outside_quotes(text, turn):
    last, parts = 0, []
    for match in QUOTED.finditer(text):
        parts += [turn(text[last:match.start()]), match[0]]
        last = match.end()
    return "".join(parts) + turn(text[last:])


def one_file(path, text, names, say):
    kept = foreign(text)
    used = [name for name in names
            if name not in kept and re.search(WHOLE.format(re.escape(name)), text)]
    if path.endswith(".rt"):
        used = [name for name in used if "-" not in name]
    for name in used:
        if re.search(WHOLE.format(re.escape(names[name])), text):
            say(f"{path}: {name} becomes {names[name]}, which stands there already")
    if not used:
        return text
    any_of = re.compile(WHOLE.format("(" + "|".join(
        re.escape(n) for n in sorted(used, key=len, reverse=True)) + ")"))
    return outside_quotes(text, lambda part: any_of.sub(lambda m: names[m[1]], part))


def as_ported(text, words):
    """An edit of specs/: projections tight and without brackets, and the words that port.py had
    respelled in the files, since it turns no edit."""
    tight = re.sub(r"(?<=[\w')]) (\.[a-z0-9])", r"\1", text)
    bare = re.sub(r"(?<= )\(([a-z]\w*(?:\.\w+)+)\)", r"\1", tight)
    return re.sub(WHOLE.format(r"([a-z]+[A-Z]\w*)"),
                  lambda m: snake(m[1]) if snake(m[1]) in words else m[1], bare)


def pages(top):
    yield os.path.join(top, "README.md")
    for path in walk(os.path.join(top, "docs"), ".md"):
        if os.sep + "landings" + os.sep not in path and not path.endswith("PORT.md"):
            yield path


def page(text, names):
    """A page names a definition between backquotes, after its module or alone."""
    def turn(match):
        inside = match[0]
        for name in sorted(names, key=len, reverse=True):
            if name in inside:
                inside = re.sub(WHOLE.format(re.escape(name)), names[name], inside)
        return inside
    return re.sub(r"`[^`\n]+`", turn, text)


def main(arguments):
    only_list = "--list" in arguments
    arguments = [word for word in arguments if not word.startswith("-")]
    top = arguments[0] if arguments else os.path.dirname(os.path.dirname(os.path.abspath(__file__)))
    names = renamed(top)
    if only_list:
        for name, to in names.items():
            print(name, to)
        return 0
    words = {snake(name) for name in declared(top)}
    for path in walk(os.path.join(top, "crates"), ".antt", ".rt", ".edit"):
        text = text_of(path)
        new = one_file(path, text, names, print)
        if path.endswith(".edit") and "file: specs/" in text:
            new = as_ported(new, words)
        if new != text:
            with open(path, "w", encoding="utf-8") as file:
                file.write(new)
    dotted = {name: to for name, to in names.items() if "-" not in name}
    for path in pages(top):
        text = text_of(path)
        new = page(text, dotted)
        if new != text:
            with open(path, "w", encoding="utf-8") as file:
                file.write(new)
    return 0


if __name__ == "__main__":
    sys.exit(main(sys.argv[1:]))
