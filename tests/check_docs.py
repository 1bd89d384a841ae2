#!/usr/bin/env python3
"""Holds the documents to the project.

    tests/check_docs.py [FOLDER]    prints each fault, and ends with 1 where there is one
    tests/check_docs.py --write     first makes the numbers in the README the true ones

Of the pages: each is there and has no heading with nothing below it; every section of document 01
and every landed item of document 02 has rows in docs/TRACE.md, and every rule, form, starred sample
and sentence of an item a row of its own; every name and every path in backticks leads to something;
docs/PROMISES.md has every function that another crate can call and no other, each with a promise
that its contract cites, two wrong answers and a theorem (which only the row of a crate that no
program reaches may leave open), and no such function lacks a promise or asks something of its
caller; every must-fail edit, sheet and store is named somewhere; the README's numbers are the true
ones.
Of specs/: what tests/believed.py holds it to.

A name is in backticks: `crate::item`, `crate::module::item` or `crate::Type::method` is Rattle,
`crate.specs.Module.name` or `crate.proofs.Module.name` is antt, with `.field` after a record.
"""

import os
import sys

sys.path.insert(0, os.path.dirname(os.path.abspath(__file__)))

import believed  # noqa: E402
from documents import counting, naming, promises, tracing  # noqa: E402
from documents.pages import bare_headings, rows  # noqa: E402, F401
from documents.project import Project  # noqa: E402

TOP = os.path.dirname(os.path.dirname(os.path.abspath(__file__)))
PAGES = ("README.md", "docs/TRACE.md", "docs/PROMISES.md", "docs/DECISIONS.md",
         "docs/REFERENCE.md", "docs/REPLAY.md", "docs/SPEED.md", "sheets/README.md",
         "stores/README.md")
HISTORY = ("docs/PORT.md", "docs/DESIGN-PASS.md")    # they name what was, beside what is


def texts(project):
    """The pages' texts by name, those of docs/ that are not asked for among them."""
    names = dict.fromkeys((*PAGES, *project.found("docs/*.md")))
    for page in HISTORY:
        names.pop(page, None)
    return {name: project.text(name) or "" for name in names}


def page_faults(name, page):
    """What is wrong with one page by itself."""
    if not page.strip():
        return [f"{name} is missing or empty"]
    return [f"{name}: nothing stands under '{title}'" for title in bare_headings(page)]


def faults(top):
    """All that is wrong with the documents of the project below a folder."""
    project = Project(top)
    names, pages, lines = naming.Names(project), texts(project), believed.count(project)
    wrong = [fault for name, page in pages.items() for fault in page_faults(name, page)]
    wrong += tracing.faults(pages["docs/TRACE.md"]) + tracing.nameless(pages["docs/TRACE.md"])
    for name in ("docs/TRACE.md", "docs/PROMISES.md"):
        wrong += tracing.empty_cells(name, pages[name])
    for name, page in pages.items():
        wrong += naming.page_faults(names, name, page)
    wrong += promises.faults(names, pages["docs/PROMISES.md"])
    wrong += counting.unnamed(project, pages)
    wrong += counting.number_faults(project, pages["README.md"], lines,
                                    promises.unreached(names.crates))
    wrong += counting.believed_faults(pages["README.md"], lines)
    wrong += counting.crate_faults(project, pages["README.md"])
    return wrong + believed.faults(project)


def write(top):
    """Makes the README's numbers the true ones."""
    project = Project(top)
    page = counting.numbered(project, project.text("README.md"), believed.count(project),
                             promises.unreached(naming.Names(project).crates))
    with open(project.path("README.md"), "w", encoding="utf-8") as file:
        file.write(page)


def main():
    """Prints what is wrong; the exit status says whether anything is."""
    top = TOP
    if sys.argv[1:] == ["--write"]:
        write(top)
    elif sys.argv[1:]:
        top = os.path.abspath(sys.argv[1])
    wrong = faults(top)
    for fault in wrong:
        print(fault)
    print(f"documents: {len(PAGES)} pages, {len(wrong)} faults")
    return 1 if wrong else 0


if __name__ == "__main__":
    sys.exit(main())
