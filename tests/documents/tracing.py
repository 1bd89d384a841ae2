"""docs/TRACE.md: every section of document 01 and every item of document 02 that has landed has
rows, and each rule, form, starred sample and sentence of an item a row of its own."""

from .pages import rows, sections

PAGE = "docs/TRACE.md"
# Of each item of document 02 that has landed, how its sentences begin.
ITEMS = {
    "Item 1: say where the address went wrong": (
        "Students cannot tell", "A memory access that is refused", "Every run hands",
        "and the two machines report", "the loader gives", "Refusals: none new"),
}
SECTIONS = (
    "Sources", "What the bench holds", "Instruction words", "One clock cycle", "Control",
    "Walks and the six rules", "Store file", 'Numbers for "no"', "What every answer owes",
    "Samples at the edges", "Matching forms to places", "Errors a builder will be drawn to",
    *ITEMS)
OWN_ROWS = {
    **ITEMS,
    "Walks and the six rules": (
        "1. State 0 has MemRead", "2. No other state", "3. No state has MemRead",
        "4. ALUOp and PCSource", "5. After a state", "6. No state is entered twice"),
    "Samples at the edges": (
        "* 8C01000C", "* 00211020", "* slt of 7FFFFFFF", "* Of 80000000", "* FFFFFFFF + 1",
        "* 1000FFFF", "* Field 8000", "* Jump target", "* Opcode 63", "* The fixed store",
        "* Its word 4", "* Its word 8", "* Its word 9"),
    "Matching forms to places": (
        '"All sums and differences', '"a constant ROM', '"Cycles, instructions, byte addresses',
        '"followed by recursion', '"the latter holding', '"An instruction is a kind',
        '"as one double division', '"part of the image', '"thirty-two 32-bit cells'),
}


def faults(page):
    """Sections without rows, and sentences without a row of their own."""
    found = {title: rows(text) for title, text in sections(page).items()}
    wrong = [f"{PAGE}: no row for the section '{title}'"
             for title in SECTIONS if not found.get(title)]
    for title, starts in OWN_ROWS.items():
        first = [row[0] for row in found.get(title, [])]
        wrong += [f"{PAGE}: no row of its own for '{start}'" for start in starts
                  if not any(cell.startswith(start) for cell in first)]
    return wrong


def nameless(page):
    """Rows that name nothing of the project."""
    return [f"{PAGE}: the row of {row[0][:60]} names nothing" for row in rows(page)
            if "`" not in "".join(row[1:])]


def empty_cells(name, page):
    """Rows of a page with nothing in a cell."""
    return [f"{name}: an empty cell in the row of {row[0][:60]}" for row in rows(page)
            if any(cell == "" for cell in row)]
