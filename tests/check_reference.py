"""Holds the tables of docs/REFERENCE.md to the model: instructions and their states, the control
word's bits, the ten words, the terms of the PLA, the refusals' numbers, and the stores it cites."""

import re
import sys

from check_docs import rows
from driving import UNFINISHED_REFUSALS, file_bytes
from model import control, refusal, store, words
from model.multicycle import SIGNALS

WHERE = ("fetch", "dispatch 1", "dispatch 2", "next")


def asserted(word):
    """The signals of a word, as the page and the texts of stores have them."""
    names, shift = [], 18
    for name, width in SIGNALS:
        shift -= width
        value = word >> shift & (1 << width) - 1
        if value:
            names.append(name if width == 1 else f"{name}={value}")
    return " ".join(names)


def word_rows():
    """State, word, signals and successor, for each of the ten words."""
    return [[str(state), f"`{word:05x}`", asserted(word), WHERE[word & 3]]
            for state, word in enumerate(control.CONTROL_WORDS)]


def term_rows():
    """Number, state, opcode and word, for each term of the PLA."""
    return [[str(at), str(int(state, 2)), "any" if "-" in opcode else str(int(opcode, 2)),
             f"`{int(outputs + following, 2):05x}`"]
            for at, (opcode, state, outputs, following) in enumerate(control.PLA_TERMS, 1)]


def bit_rows():
    """Bits and name of each signal, and AddrCtl."""
    found, high = [], 17
    for name, width in (*SIGNALS, ("AddrCtl", 2)):
        found.append([str(high) if width == 1 else f"{high}-{high - 1}", name])
        high -= width
    return found


def instruction_rows():
    """Name, opcode with function, states and cycles, for each instruction."""
    names = "add sub and or slt lw sw beq j".split()
    found = []
    for kind, name in enumerate(names):
        opcode = words.KIND_OPCODES.get(kind, 0)
        states = store.walk(store.fixed_store(), opcode).states
        function = words.KIND_FUNCTIONS.get(kind)
        word = f"opcode {opcode}" + (f", function {function}" if function else "")
        found.append([name, word, " ".join(map(str, states)), str(len(states))])
    return found


def breach_rows():
    """Rule, the store that breaks it and the answer of the check."""
    found = []
    for rule in store.RULES:
        octets = file_bytes("stores", f"rule-{rule}.mcs")
        opcode, state, broken = next(store.breaches(store.read_file(octets)))
        found.append([str(rule), f"rule-{rule}",
                      f"13: opcode {opcode}, state {state}, rule {broken}"])
    return found


def refusal_rows():
    """The number of each refusal that a program has, 0 for none before them."""
    numbers = sorted(value for name, value in vars(refusal).items()
                     if name.isupper() and isinstance(value, int)
                     and value not in UNFINISHED_REFUSALS)
    return [[str(number)] for number in (0, *numbers)]


def picked(page, title, pick):
    """What `pick` takes of each row of the first table below a title."""
    below = page.partition(f"\n## {title}\n")[2].split("\n## ")[0]
    tables = [block for block in below.strip().split("\n\n") if block.startswith("|")]
    return [pick(row) for row in rows(tables[0])] if tables else []


TABLES = (
    ("The nine instructions", instruction_rows,
     lambda row: [row[0].strip("`").split()[0], row[1], row[3], row[4]]),
    ("The control word, bit by bit", bit_rows, lambda row: row[:2]),
    ("The ten words", word_rows, lambda row: row[:4]),
    ("Four units", term_rows, lambda row: row),
    ("Stores, walks and the six rules", breach_rows,
     lambda row: [row[0], re.search(r"rule-\d", row[3])[0], row[4]]),
    ("Refusals", refusal_rows, lambda row: row[:1]))


def main():
    """Prints the rows that differ; the exit status says whether any does."""
    page = file_bytes("docs", "REFERENCE.md").decode()
    wrong = count = 0
    for title, made, pick in TABLES:
        wanted, found = made(), picked(page, title, pick)
        count += len(wanted)
        for at in range(max(len(wanted), len(found))):
            want, have = wanted[at:at + 1], found[at:at + 1]
            if want != have:
                wrong += 1
                print(f"docs/REFERENCE.md, {title}, row {at + 1}: {have}, and the model has {want}")
    print(f"reference: {count} rows, {wrong} wrong")
    return 1 if wrong else 0


if __name__ == "__main__":
    sys.exit(main())
