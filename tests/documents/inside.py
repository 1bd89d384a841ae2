"""Files of specs/ that are inside their crate: what private functions promise, as the code does it.

Such a file begins with the words below. It is not to be believed, and so nothing that is may rest
on it: no other file of specs/ cites it, and no public function's promise names what stands in it,
nor does a public trait or an impl of one.
"""

import re

SAYS = "-- Inside the crate: "
CITES = re.compile(r"\buse Rattle\.(\w+)\.specs\.(\w+)(?: as ([\w']+)|\.\{([^}]*)\})?")
PUBLIC = re.compile(r"^( *)pub fn (\w+).*?^\1\{", re.M | re.S)
TRAIT = re.compile(r"^pub (?:unsafe )?trait (\w+).*?^\}", re.M | re.S)
IMPL = re.compile(r"^impl\b[^{;]*?\b(\w+)(?:<[^{;]*?>)?\s+for\s.*?^\}", re.M | re.S)


def is_inside(project, path):
    """Whether a file of specs/ is inside its crate."""
    return project.text(path).startswith(SAYS)


def modules(project):
    """The files inside their crates, each as crate and module."""
    return {tuple(re.fullmatch(r"crates/(\w+)/specs/(\w+)\.antt", path).groups())
            for path in project.found("crates/*/specs/*.antt") if is_inside(project, path)}


def cited(text, hidden):
    """What a text cites of hidden modules: each module, with the names by which it does."""
    return [(crate, module, [alias] if alias else shown(group) or [module])
            for crate, module, alias, group in CITES.findall(text) if (crate, module) in hidden]


def shown(group):
    """The names that the braces of a `use` line bring in, as the file has them."""
    return [name.split(" as ")[-1].strip() for name in group.split(",") if name.strip()]


def promising(text, traits):
    """What of a file promises something to everyone, each with its name: public functions up to
    their bodies, and public traits and their impls whole."""
    return [(hit[2], hit[0]) for hit in PUBLIC.finditer(text)] + [
        (hit[1], hit[0]) for hit in TRAIT.finditer(text)] + [
        (hit[1], hit[0]) for hit in IMPL.finditer(text) if hit[1] in traits]


def faults(project):
    """What is to be believed and rests on a file inside a crate."""
    hidden, wrong = modules(project), []
    for path in project.found("crates/*/specs/*.antt"):
        if not is_inside(project, path):
            wrong += [f"{path}: cites {module}, which is inside {crate}"
                      for crate, module, _ in cited(project.text(path), hidden)]
    sources = {path: project.text(path) for path in project.found("crates/*/src/**/*.rt")}
    traits = {hit[1] for text in sources.values() for hit in TRAIT.finditer(text)}
    for path, text in sources.items():
        for crate, _, names in cited(text, hidden):
            wrong += [f"{path}: {who} promises by {name}, which is inside {crate}"
                      for who, said in promising(text, traits) for name in names
                      if re.search(rf"(?<![\w'.]){re.escape(name)}(?![\w'])", said)]
    return wrong
