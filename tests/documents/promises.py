"""docs/PROMISES.md: every function that another crate can call has a row, and the row holds.

Of a crate that no program reaches a row may leave its theorem open, and then says `none yet`.
"""

import re

from .pages import rows
from .rattle import IMPL_OF, STRANGE

PAGE = "docs/PROMISES.md"
COLUMNS = 4
NONE_YET = "none yet"
GHOST = re.compile(r"^ghost use Rattle\.(\w+)\.specs\.(?!declared\.)[\w.]+?"
                   r"(?: as ([\w']+)|\.\{([^}]*)\});", re.M)
ENSURES = re.compile(r"\bensures\b(.*)", re.S)


def surface(crates):
    """Every function that another crate can call, by its name, with where it is declared."""
    found = {}
    for crate in crates.libraries:
        found.update(("::".join(name), where) for name, where in crates.surface(crate).items())
    return found


def twice_named(public):
    """Functions that can be called by two names."""
    names = {}
    for name, where in public.items():
        names.setdefault(where, []).append(name)
    return [f"{' and '.join(sorted(both))} are two names of one function"
            for both in names.values() if len(both) > 1]


def strange(crates):
    """What could offer functions that no row is asked for: public ones that are no `pub fn`,
    modules inside a file, names passed on without being said, and a public type's impl of a trait
    that is none of the project's, but for `Model`, which is of proofs alone."""
    return [f"crates/{'/'.join(path)}: `{' '.join(hit.split())}`: a function must be a `pub fn` of "
            "a file, passed on by its name"
            for path, module in crates.modules.items() if path[0] in crates.libraries
            for hit in STRANGE.findall(module.text) + [
                f"impl {trait} for {name}" for trait, name in IMPL_OF.findall(module.text)
                if not is_ours(crates, module, trait) and is_public(crates, path[0], name)]]


def is_ours(crates, module, trait):
    """Whether a trait, by the path that a file has, is the project's, or `Model`."""
    found = crates.brought(module, trait)
    return trait.split("::")[-1] == "Model" or bool(found) and found[0] == "trait"


def is_public(crates, crate, name):
    """Whether a type of a crate, or one that the crate does not declare, is public."""
    kinds = [module.items[name][1] for path, module in crates.modules.items()
             if path[0] == crate and name in module.items]
    return any(kinds) or not kinds


def unreached(crates):
    """The crates with a function that another could call, which no program reaches."""
    reached = crates.project.reached()
    return [crate for crate in crates.libraries
            if crate not in reached and crates.surface(crate)]


def listed(page):
    """The page's rows by the function that each is of; None for a row of none."""
    found = []
    for row in rows(page):
        name = re.match(r"`([\w:]+)`$", row[0])
        found.append((name[1] if name else None, row))
    return found


def unpromised(crates, public):
    """Public functions that promise nothing, or ask something of their caller."""
    headers = {name: crates.header(where) for name, where in public.items()}
    return [f"{name} has no `ensures`" for name, text in headers.items()
            if not re.search(r"\bensures\b", text)] + [
        f"{name} has a `requires`" for name, text in headers.items()
        if re.search(r"\brequires\b", text)]


def row_faults(page, public):
    """Functions without a row, rows without a function, and functions with two rows."""
    have = [name for name, _ in listed(page)]
    wrong = [f"{PAGE} lacks {name}" for name in sorted(public) if name not in have]
    wrong += [f"{PAGE}: the row of {row[0][:60]} is of no function" for name, row in listed(page)
              if name is None]
    wrong += [f"{PAGE} has {name}, which is no public function" for name in have
              if name is not None and name not in public]
    return wrong + [f"{PAGE} has {name} twice" for name in sorted(set(filter(None, have)))
                    if have.count(name) > 1]


def cited(crates, where):
    """The definitions that a function's `ensures` cites, by the names that its file brings in."""
    home = next((module for module in crates.modules.values() if where in module.headers), None)
    ensures = ENSURES.search(home.headers[where]) if home else None
    if not ensures:
        return set()
    source = crates.project.text("crates", home.path[0], "src", *home.path[1:-1],
                                 home.path[-1] + ".rt") if len(home.path) > 1 else home.text
    found, words = set(), set(re.findall(r"[\w']+", ensures[1]))
    for crate, alias, group in GHOST.findall(source or ""):
        if alias:
            names = re.findall(rf"(?<![\w'.]){alias}\.([\w']+)", ensures[1])
        else:
            pairs = [name.strip().partition(" as ") for name in group.split(",")]
            names = [name for name, _, shown in pairs if (shown or name) in words]
        found.update(names if crate in crates.project.uses() else ())
    return found


def cell_faults(names, name, row, where, may_lack):
    """What is wrong with the promise, the wrong answers and the theorem of a row."""
    wrong = []
    promised = {text.split(".")[-1] for text in re.findall(r"`([^`]+)`", row[1]) if "." in text}
    wanted = cited(names.crates, where)
    if wanted and not promised & wanted:
        wrong.append(f"the promise names none of {', '.join(sorted(wanted))}")
    if ";" not in row[2]:
        wrong.append("fewer than two wrong answers")
    theorems = re.findall(r"`([^`]+)`", row[3])
    proved = theorems and all(names.antt.is_theorem(text) for text in theorems)
    if not proved and not (may_lack and row[3] == NONE_YET):
        wrong.append(f"'{row[3]}' names no theorem")
    return [f"{PAGE}: {name}: {what}" for what in wrong]


def faults(names, page):
    """All that is wrong with the page, and with what it is held to."""
    public, open_to = surface(names.crates), unreached(names.crates)
    wrong = strange(names.crates) + twice_named(public) + unpromised(names.crates, public)
    wrong += row_faults(page, public)
    for name, row in listed(page):
        if name in public and len(row) == COLUMNS:
            may_lack = name.split("::")[0] in open_to
            wrong += cell_faults(names, name, row, public[name], may_lack)
        elif len(row) != COLUMNS:
            wrong.append(f"{PAGE}: the row of {row[0][:60]} has {len(row)} cells")
    return wrong
