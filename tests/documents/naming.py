"""Names and paths on the pages: whether each leads to something."""

import re

from .antt import Antt, FOLDERS
from .pages import code, links, quoted
from .rattle import Crates

CALLED = re.compile(r"\(.*\)$")
RATTLE = re.compile(r"^\w+(::\w+)+$")
ANTT = re.compile(rf"^[a-z]\w*\.(?:{'|'.join(FOLDERS)})(\.[^\s.]+)+$")
SHORT = re.compile(r"^[A-Z]\w*(\.[a-zA-Z][^\s.]*)+$")
PATH = re.compile(r"^(?:\./|\.\./)*[\w.+*-]+(?:/[\w.+*-]+)*/?$")
FILE = re.compile(r"^[\w*-]+\.(rt|antt|py|md|c|edit|hex|line|memory|mcs|answer|txt)$")
BARE = re.compile(r"^[a-z][a-z0-9]*(?:(?:_[a-z0-9]+)+|(?:-[a-z0-9]+)+|(?:[A-Z][a-z0-9]*)+)$")
# A word of Rattle or antt may end in primes; in another text a prime is a quote.
OURS, WORD = (".rt", ".antt"), {True: re.compile(r"[\w'-]+"), False: re.compile(r"[\w-]+")}
PLACEHOLDER = re.compile(r"\b(NAME|CRATE|MODULE|DIR|SEED|COUNT)\b")
MADE = re.compile(r"(^|/)(target|out)/")
OF_A_CRATE = ("src/", "specs/", "proofs/", "must-fail/", "out/")
ELSEWHERE = ("std",)
BARE_PAGES = ("README.md", "docs/TRACE.md", "docs/PROMISES.md", "docs/DECISIONS.md")
SOURCES = ("crates/**/*.rt", "crates/**/*.antt", "tests/[a-su-z]*.py", "tests/model/*.py",
           "tests/vectors/*.py", "tests/run_*", "tests/launch", "stores/make", "stores/*.txt",
           "sheets/*.hex", "benches/*")


class Names:
    """Every name of a project."""

    def __init__(self, project):
        self.project = project
        self.crates = Crates(project)
        self.antt = Antt(project)
        self.tops = {path.split("/")[0] for path in project.found("*") + project.found(".ci")}
        self.files = {path.split("/")[-1] for path in project.found("**/*")}
        self.words = set()
        for pattern in SOURCES:
            for path in project.found(pattern):
                self.words.add(path.split("/")[-1].split(".")[0])
                if not path.endswith(".hex"):
                    self.words.update(WORD[path.endswith(OURS)].findall(project.text(path) or ""))

    def has_rattle(self, name):
        """Whether crate::item, crate::module::item, crate::Type::method or Type::method exists."""
        path = tuple(name.split("::"))
        if path[0] in ELSEWHERE:
            return True
        if path[0][0].isupper():
            return any(self.crates.find((crate, *path)) or self.deep(crate, path)
                       for crate in self.project.crates())
        return self.crates.find(path) is not None

    def deep(self, crate, path):
        """Whether a module of a crate, at any depth, has a type with a member."""
        return any(self.crates.find(module + path) for module in self.crates.modules
                   if module[0] == crate)

    def has_path(self, path):
        """Whether a path, or a pattern of paths, leads to a file of the project."""
        plain = path[2:] if path.startswith("./") else path
        if plain.startswith(".."):
            return False
        return bool(self.project.found(plain)) if "*" in plain else self.project.exists(plain)

    def lacks(self, word):
        """Whether a word in backticks is a name or a path that leads to nothing."""
        if PLACEHOLDER.search(word):
            return False
        called = CALLED.sub("", word)
        if RATTLE.match(called):
            return not self.has_rattle(called)
        if ANTT.match(word):
            return not self.antt.exists(word)
        if FILE.match(word) and "*" not in word:
            return word not in self.files
        if "/" in word and PATH.match(word):
            return word not in OF_A_CRATE and not self.has_path(word)
        return bool(SHORT.match(word)) and not self.antt.known(word)

    def lacks_in_code(self, word):
        """The same of a word of a command: a path below a folder that the project has."""
        plain = word[2:] if word.startswith("./") else word
        below = "/" in plain and plain.split("/")[0] in self.tops and plain[0] != "/"
        started = word.startswith("./") and PATH.match(word)
        if not (below or started) or PLACEHOLDER.search(word) or MADE.search(word):
            return False
        return bool(PATH.match(word)) and not self.has_path(word)


def page_faults(names, name, page):
    """The names and paths of a page that lead to nothing."""
    found = []
    for text in quoted(page):
        words = text.split()
        if len(words) == 1:
            bare = name in BARE_PAGES and BARE.match(text) and text not in names.words
            found += [text] * bool(names.lacks(text) or bare)
        else:
            found += [word for word in words if names.lacks_in_code(word)]
    for line in code(page):
        found += [word for word in line.split("#")[0].split() if names.lacks_in_code(word)]
    folder = name.rpartition("/")[0]
    found += [to for to in links(page)
              if not names.has_path("/".join(filter(None, (folder, to))))]
    return [f"{name}: {word} names nothing" for word in dict.fromkeys(found)]
