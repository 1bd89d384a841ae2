"""The names of the antt files, read by their layout: what each file declares, the fields of its
records and the constructors of its data."""

import re
from dataclasses import dataclass, field

FOLDERS = ("specs", "proofs")
OPENING = re.compile(r"^( *)((?:(?:pub|abbrev|unfoldable) )*)(record |data |module )?([^\s:]+)")
UNNAMED = ("use", "mod", "unfolding", "where", "syntax", "infixl", "infixr", "infix", "}", "--")
CLAIMS = re.compile(r"OneAnswer|OneWith|≡")


@dataclass
class File:
    """What a file declares: each name's signature, and what each record or data has."""
    names: dict = field(default_factory=dict)
    members: dict = field(default_factory=dict)


def signature(lines, at, indent):
    """A declaration's first line with those that go on deeper below it."""
    whole = [lines[at]]
    for line in lines[at + 1:]:
        if not line.strip() or len(line) - len(line.lstrip()) <= indent:
            break
        whole.append(line)
    return "\n".join(whole)


def parse(source):
    """The declarations of a file: at its margin, and in its modules without a name."""
    found, lines = File(), source.splitlines()
    margins, holder = [0], None
    for at, line in enumerate(lines):
        opening = OPENING.match(line)
        if not opening or opening[4] in UNNAMED or opening[4].startswith("--"):
            continue
        indent, kind, name = len(opening[1]), (opening[3] or "").strip(), opening[4]
        margins = [margin for margin in margins if margin <= indent]
        if holder and indent <= holder[0]:
            holder = None
        if holder and indent == holder[0] + 2:
            found.members[holder[1]].add(name)
        elif not holder and indent == margins[-1]:
            found.names.setdefault(name, signature(lines, at, indent))
            if kind == "module":
                margins.append(indent + 2)
            elif kind:
                holder = (indent, name)
                found.members[name] = set()
    return found


class Antt:
    """The antt files of every crate of a project."""

    def __init__(self, project):
        self.project = project
        self.files = {}
        for crate in project.crates():
            for folder in FOLDERS:
                declared = set(re.findall(r"^(?:pub )?mod (\w+)",
                                          project.text("crates", crate, folder, "Lib.antt") or "",
                                          re.M))
                for path in project.found(f"crates/{crate}/{folder}/**/*.antt"):
                    parts = tuple(path[:-len(".antt")].split("/")[1:])
                    if len(parts) > 3 or parts[2] in declared:
                        self.files[parts] = parse(project.text(path))

    def split(self, parts):
        """The file that a name begins with, and what is left of the name."""
        for end in range(len(parts), 2, -1):
            if parts[:end] in self.files:
                return self.files[parts[:end]], parts[end:]
        return None, parts

    def exists(self, name):
        """Whether crate.specs.Module.name, its field or constructor, or the module, is declared."""
        file, rest = self.split(tuple(name.split(".")))
        return file is not None and within(file, rest)

    def known(self, name):
        """Whether some crate has Module.name or Record.field."""
        first, *rest = name.split(".")
        return any(parts[-1] == first and within(file, tuple(rest))
                   or within(file, (first, *rest)) for parts, file in self.files.items())

    def is_theorem(self, name):
        """Whether a name is that of a proof that something is equal, or the one answer."""
        file, rest = self.split(tuple(name.split(".")))
        stated = file.names.get(rest[0], "") if file and len(rest) == 1 else ""
        return name.split(".")[1:2] == ["proofs"] and CLAIMS.search(stated) is not None


def within(file, rest):
    """Whether a file has what is left of a name."""
    if len(rest) == 2:
        return rest[1] in file.members.get(rest[0], ())
    return not rest or len(rest) == 1 and rest[0] in file.names
