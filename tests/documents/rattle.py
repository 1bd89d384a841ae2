"""The items of the Rattle crates, read by the layout that `rt fmt` gives them: what each file
declares, what each module passes on by `pub use`, and what another crate can call."""

import re
from dataclasses import dataclass, field

QUIET = re.compile(r"""b'(?:\\.|[^'\\])'|b?"(?:\\.|[^"\\])*"|//[^\n]*|/\*.*?\*/""", re.S)
ITEM = re.compile(r"^(pub |pub\([\w ]+\) )?(fn|struct|enum|trait|const|type|mod|impl)(?:<[^>]*>)? "
                  r"(?:\w+::)*(\w+)")
USE = re.compile(r"^(pub(?:\([\w ]+\))? )use ([^;]+);", re.M)
BROUGHT = re.compile(r"^((?:pub(?:\([\w ]+\))? )?)use ([^;]+);", re.M)
METHOD = re.compile(r"^    (pub )?(?:pub\([\w ]+\) |final )?fn (\w+)")
MEMBER = re.compile(r"^    (?:pub )?(\w+)")
IMPL_FOR = re.compile(r"^impl\b.*? for (?:\w+::)*(\w+)")
CLAUSE = re.compile(r"\b(?:requires|ensures)\*?(?: \w+)?\s*$|\bghost \w+:\s*$")
STRANGE = re.compile(r'\bpub\s+(?:\w+\s+|""\s+)+fn\s+\w+|\bpub\s+extern\b|'
                     r'(?<!#\[cfg\(test\)\]\n)\bmod\s+\w+\s*\{|\bpub\s+use\s[^;]*\*|'
                     r'^(?:pub\s+)?unsafe\s+trait\s+\w+', re.M)
# A trait's impl: which trait, by the path that the file has, and of which type.
IMPL_OF = re.compile(r"^impl\b[^{;]*?\b((?:\w+::)*\w+)(?:<[^{;]*?>)?\s+for\s+(?:\w+::)*(\w+)", re.M)
TYPES = ("struct", "enum", "trait", "type")


@dataclass
class Module:
    """A file: its items with their kinds and whether they are public, what is passed on, and the
    modules below it."""
    path: tuple
    items: dict = field(default_factory=dict)
    passed: dict = field(default_factory=dict)
    children: dict = field(default_factory=dict)
    members: dict = field(default_factory=dict)
    methods: dict = field(default_factory=dict)
    headers: dict = field(default_factory=dict)
    text: str = ""

    def called(self, holder, name):
        """Where a function of the file is declared: its path, its type's name before its own."""
        return self.path + ((holder,) if holder else ()) + (name,)


def quiet(source):
    """A source without comments, its strings and byte characters emptied."""
    return QUIET.sub(lambda hit: "" if hit[0].startswith("/") else '""', source)


def header(lines, at):
    """A function from its line to the brace that opens its body: its arguments and its clauses."""
    text, depth, begun = "\n".join(lines[at:]), 0, 0
    for place, sign in enumerate(text):
        if sign == "{" and depth == 0 and not CLAUSE.search(text[begun:place]):
            return text[:place + 1]
        depth += (sign in "({[") - (sign in ")}]")
        begun = place + 1 if sign == "}" and depth == 0 else begun
        if sign == ";" and depth == 0:
            return text[:place + 1]
    return lines[at]


def opens(lines, at):
    """Whether an item has a body in braces, on whatever line its head ends."""
    heads = (line.rstrip() for line in lines[at:])
    return next((line for line in heads if line.endswith(("{", "}", ";"))), "").endswith("{")


def uses(text, pattern=USE):
    """What a file passes on: for each name whether to everyone, and the path it comes from; by
    BROUGHT, what it brings in besides."""
    for public, what in pattern.findall(text):
        stem, _, group = what.partition("{")
        parts = group.rstrip("} \n").split(",") if group else [""]
        for part in (part.strip() for part in parts if part.strip() or not group):
            path, _, alias = (stem.strip() + part).partition(" as ")
            yield alias.strip() or path.split("::")[-1].strip(), public == "pub ", path.strip()


def parse(path, source):
    """The items of a file."""
    module = Module(path, text=quiet(source))
    lines, holder = module.text.splitlines(), None
    for at, line in enumerate(lines):
        item, method = ITEM.match(line), METHOD.match(line)
        if line.startswith("}"):
            holder = None
        elif item:
            public, kind, name = item[1] == "pub ", item[2], item[3]
            name = IMPL_FOR.match(line)[1] if IMPL_FOR.match(line) else name
            holder = name if kind in (*TYPES, "impl") and opens(lines, at) else None
            if kind == "mod":
                module.children[name] = public
            elif kind != "impl":
                module.items[name] = (kind, public)
            if kind == "fn":
                module.headers[module.called(None, name)] = header(lines, at)
        elif holder and method:
            public = method[1] == "pub " or module.items.get(holder, ("",))[0] == "trait"
            known = module.methods.setdefault(holder, {})
            if public or not known.get(method[2]):
                module.headers[module.called(holder, method[2])] = header(lines, at)
            known[method[2]] = public or known.get(method[2], False)
        elif holder and MEMBER.match(line):
            module.members.setdefault(holder, set()).add(MEMBER.match(line)[1])
    module.passed = {name: (public, to) for name, public, to in uses(module.text)}
    return module


class Crates:
    """The Rattle items of every crate of a project."""

    def __init__(self, project):
        self.project = project
        self.modules = {}
        self.libraries = []
        for crate in project.crates():
            root = project.text("crates", crate, "src", "lib.rt")
            if root is not None:
                self.libraries.append(crate)
            self.load((crate,), root or project.text("crates", crate, "src", "main.rt"))

    def load(self, path, source):
        """Reads a module and those below it."""
        if source is None:
            return
        self.modules[path] = module = parse(path, source)
        for child in module.children:
            folder = ("crates", path[0], "src", *path[1:])
            below = self.project.text(*folder, child + ".rt")
            self.load(path + (child,), below or self.project.text(*folder, child, "mod.rt"))

    def absolute(self, module, path):
        """A path of a `use` line, from its crate on."""
        first, *rest = path.split("::")
        starts = {"crate": module.path[:1], "self": module.path, "super": module.path[:-1]}
        if first in starts:
            return starts[first] + tuple(rest)
        if first in module.children or (first,) not in self.modules:
            return module.path + (first, *rest)
        return (first, *rest)

    def of_type(self, crate, name, what):
        """What a type of a crate has: its `members`, or its `methods` with whether public."""
        found = {}
        for path, module in self.modules.items():
            if path[0] == crate and what == "members":
                found.update(dict.fromkeys(module.members.get(name, ())))
            elif path[0] == crate:
                found.update((method, public or found.get(method, False))
                             for method, public in module.methods.get(name, {}).items())
        return found

    def brought(self, module, path):
        """What a path leads to in a file, by what the file brings in."""
        first, *rest = path.split("::")
        whole = {name: at for name, _, at in uses(module.text, BROUGHT)}.get(first, first)
        return self.find(self.absolute(module, "::".join((whole, *rest))))

    def find(self, path):
        """What a path leads to: its kind, and where it is declared; None where to nothing."""
        module = self.modules.get(path[:1])
        for at in range(1, len(path)):
            name, rest = path[at], path[at + 1:]
            if module is None:
                return None
            if name in module.children:
                module = self.modules.get(module.path + (name,))
            elif name in module.passed:
                return self.find(self.absolute(module, module.passed[name][1]) + rest)
            else:
                return self.member(module, name, rest)
        return ("mod", module.path) if module else None

    def member(self, module, name, rest):
        """An item of a module, or what an item that is a type has."""
        kind = module.items.get(name, (None,))[0]
        where = module.path + (name,)
        if kind is None or len(rest) > 1:
            return None
        if not rest:
            return kind, where
        crate = module.path[0]
        known = self.of_type(crate, name, "members") | self.of_type(crate, name, "methods")
        return ("member", where + rest) if rest[0] in known else None

    def surface(self, crate):
        """What another crate can call: each function's name, and where it is declared."""
        found = {}
        if crate in self.libraries:
            self.gather(self.modules[(crate,)], (crate,), found)
        return found

    def gather(self, module, shown, found):
        """Adds what a public module offers, under the names it is seen by."""
        for name, (kind, public) in module.items.items():
            if public:
                self.offer(kind, module.path + (name,), shown + (name,), found)
        for name, public in module.children.items():
            if public and module.path + (name,) in self.modules:
                self.gather(self.modules[module.path + (name,)], shown + (name,), found)
        for name, (public, to) in module.passed.items():
            hit = self.find(self.absolute(module, to)) if public else None
            if hit:
                self.offer(*hit, shown + (name,), found)

    def offer(self, kind, where, shown, found):
        """Adds a function, the public methods of a type, or a module."""
        if kind == "fn":
            found[shown] = where
        elif kind == "mod":
            self.gather(self.modules[where], shown, found)
        elif kind in TYPES:
            for method, public in self.of_type(where[0], where[-1], "methods").items():
                if public:
                    found[shown + (method,)] = where + (method,)

    def header(self, where):
        """A function's name, arguments and contract."""
        for module in self.modules.values():
            if where in module.headers:
                return module.headers[where]
        bare = [text for module in self.modules.values() for path, text in module.headers.items()
                if path[0] == where[0] and path[-2:] == where[-2:]]
        return bare[0] if bare else ""
