"""Pages in Markdown: their sections, the rows of their tables, what stands in backticks."""

import re

HEADING = re.compile(r"^(#+) (.+)$")
QUOTED = re.compile(r"`([^`\n]+)`")
LINK = re.compile(r"\]\(([^)#\s]+)[^)\s]*\)")


def cells_of(line):
    """The cells of a table's line."""
    return [cell.strip() for cell in line.strip().strip("|").split("|")]


def is_rule(row):
    """Whether a row is the rule below a table's heading."""
    return all(set(cell) <= set("-: ") for cell in row)


def tables(page):
    """The tables of a page, each as its heading and its rows."""
    found, lines = [], page.splitlines() + [""]
    for at, line in enumerate(lines[1:], 1):
        if line.startswith("|") and is_rule(cells_of(line)):
            end = next(end for end in range(at, len(lines)) if not lines[end].startswith("|"))
            found.append((cells_of(lines[at - 1]), [cells_of(row) for row in lines[at + 1:end]]))
    return found


def rows(page):
    """The rows of a page's tables, each as its cells; rules and headings left out."""
    return [row for _, below in tables(page) for row in below]


def sections(page):
    """The sections of a page: what is under each heading of the second level, by its title."""
    found, title = {}, None
    for line in page.splitlines():
        heading = HEADING.match(line)
        if heading and len(heading[1]) <= 2:
            title = heading[2] if len(heading[1]) == 2 else None
            if title is not None:
                found[title] = ""
        elif title is not None:
            found[title] += line + "\n"
    return found


def is_code(line):
    """Whether a line is of a block of code, by its indentation."""
    return line.startswith("    ")


def prose(page):
    """A page without its blocks of code."""
    unfenced = re.sub(r"^```.*?^```$", "", page, flags=re.M | re.S)
    return "\n".join(line for line in unfenced.splitlines() if not is_code(line))


def code(page):
    """The lines of a page's blocks of code."""
    fenced = re.findall(r"^```\w*\n(.*?)^```$", page, flags=re.M | re.S)
    return [line for block in fenced for line in block.splitlines()] + [
        line for line in page.splitlines() if is_code(line)]


def quoted(page):
    """What stands in backticks on a page, code left out."""
    return QUOTED.findall(prose(page))


def links(page):
    """Where the links of a page go, those out of the project left out."""
    return [to for to in LINK.findall(prose(page)) if "://" not in to]


def bare_headings(page):
    """The headings of a page with nothing below them."""
    lines = [line for line in page.splitlines() if line.strip()] + ["# "]
    found = []
    for line, below in zip(lines, lines[1:]):
        heading, after = HEADING.match(line), re.match("(#+) ", below)
        if heading and after and len(after[1]) <= len(heading[1]):
            found.append(heading[2])
    return found
