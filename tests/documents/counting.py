"""Numbers in the README, and what some document must name: edits, sheets, stores, crates."""

import re

from .pages import cells_of, quoted, rows, tables

NUMBER = r"(\d[\d,]*)"
# What `watch` shows, which no other program needs.
SHOWN = ("page", "names", "meanings", "dump", "screen")
BELIEVED = "lines believed"


def vectors(project):
    """How many cases `replay` is given: the lines of its input, the last without a newline too."""
    text = project.octets("crates", "replay", "stdin")
    return text.count(b"\n") + (text[-1:] not in (b"", b"\n"))


def truths(project, believed, apart):
    """What the README must say, and what of it is true; `apart` are the crates that no program
    reaches."""
    return {
        "must-fail edits": len(project.found("crates/*/must-fail/*.edit")),
        "vectors": vectors(project),
        "sheets": len(project.names("sheets", ".hex")),
        "stores": len(project.names("stores", ".txt")),
        "crates": len(project.crates()),
        "lines are to be believed": sum(believed.values()),
        "of them without the crates that `watch` alone needs":
            sum(lines for crate, lines in believed.items() if crate not in SHOWN),
        "of them in crates that no program reaches":
            sum(lines for crate, lines in believed.items() if crate in apart),
    }


def number_faults(project, page, believed, apart):
    """Numbers in the README that are not the true ones, and those that it does not say."""
    wrong = []
    for what, true in truths(project, believed, apart).items():
        said = re.findall(rf"{NUMBER} {what}", page)
        wrong += [f"README.md: {number} {what}, and there are {true:,}" for number in said
                  if int(number.replace(",", "")) != true]
        if not said:
            wrong.append(f"README.md does not say how many {what}: {true:,}")
    return wrong


def believed_faults(page, believed):
    """Where the README's table of believed lines is not what stands in specs/."""
    said = {}
    for heading, below in tables(page):
        if BELIEVED in heading:
            at = heading.index(BELIEVED)
            said.update((row[0].strip("`"), row[at].replace(",", "")) for row in below)
    true = {crate: str(count) for crate, count in believed.items()}
    return [f"README.md: {said.get(crate, 'no')} {BELIEVED} of {crate}, and they are "
            f"{true.get(crate, 'none')}"
            for crate in dict.fromkeys((*true, *said)) if said.get(crate) != true.get(crate)]


def numbered(project, page, believed, apart):
    """The README with every number that it is held to made the true one."""
    for what, true in truths(project, believed, apart).items():
        page = re.sub(rf"{NUMBER} {what}", f"{true:,} {what}", page)
    lines, inside = page.split("\n"), False
    for at, line in enumerate(lines):
        cells = cells_of(line)
        inside = line.startswith("|") and (inside or BELIEVED in cells)
        crate = cells[0].strip("`")
        if inside and crate in believed:
            lines[at] = re.sub(rf"^(\| `{crate}` \|) [\d,]+ ", rf"\1 {believed[crate]:,} ", line)
    return "\n".join(lines)


def crate_faults(project, page):
    """Crates that no table of the README has, and rows of its first table that are of none."""
    listed = [name for _, below in tables(page)[:1] for row in below
              for name in re.findall(r"`(\w+)`", row[0])]
    crates = project.crates()
    return [f"README.md: its first table lacks the crate {name}" for name in crates
            if name not in listed] + [
        f"README.md: its first table has {name}, which is no crate" for name in listed
        if name not in crates]


def told(project, folder):
    """The names that a folder's own page has: first in a row, or before a bracket."""
    page = project.text(folder, "README.md") or ""
    return {row[0].strip("`") for row in rows(page)} | set(re.findall(r"([\w-]+) \(", page))


def unnamed(project, pages):
    """Edits, sheets and stores that no document names."""
    named = {word for page in pages.values() for text in quoted(page) for word in text.split()}
    wrong = [path for path in project.found("crates/*/must-fail/*.edit") if path not in named]
    for folder, ending in (("sheets", ".hex"), ("stores", ".txt")):
        listed = told(project, folder)
        wrong += [f"{folder}/{name}{ending}" for name in project.names(folder, ending)
                  if name not in listed and f"{folder}/{name}{ending}" not in named]
    return [f"no document names {path}" for path in wrong]
