"""The assembler: a text into words, or the first thing that is wrong with it.

From document 02, item 2. A line is matched whole against patterns; nothing is
scanned by hand. What the item leaves open is said where it is decided.
"""

import re
from collections import namedtuple

from .refusal import (DEFINED_ABOVE, MISALIGNED, OUT_OF_REACH, OUTPUT_SHORT,
                      TOO_MANY_LINES, UNKNOWN_LABEL, UNREADABLE, Refusal)
from .words import (ADD, AND, BEQ, J, LW, MASK, OR, SLT, SUB, SW, Instruction,
                    encode, signed)

MOST_LINES = 4096
KINDS = {b"add": ADD, b"sub": SUB, b"and": AND, b"or": OR, b"slt": SLT,
         b"lw": LW, b"sw": SW, b"beq": BEQ, b"j": J}

# "A line is an optional label and colon, then nothing or one of these". A
# blank is a space or a tab; a label that begins a line is defined whatever
# stands after it. The first group is the label, the second all the rest.
LINE = re.compile(rb"[ \t]*(?:([A-Za-z]{1,16})[ \t]*:)?(.*)", re.DOTALL)
# A decimal has no leading zeros; "registers $0 to $31".
REGISTER = rb"\$(0|[1-9]|[12][0-9]|3[01])"
OFFSET = rb"(-?(?:0|[1-9][0-9]{0,4}))"
LABEL = rb"([A-Za-z]{1,16})"        # "labels of up to 16 letters"
DIGITS = rb"([0-9A-Fa-f]{8})"       # "eight hexadecimal digits"


def form(names, *parts):
    """The pattern of a statement: one of the names, a blank at least, and the
    other parts, "blanks free between parts"."""
    return re.compile(names + rb"[ \t]+" + rb"[ \t]*".join(parts))


COMMA, OPEN, CLOSE = rb",", rb"\(", rb"\)"
ARITHMETIC = form(rb"(add|sub|and|or|slt)",
                  REGISTER, COMMA, REGISTER, COMMA, REGISTER)
MEMORY = form(rb"(lw|sw)", REGISTER, COMMA, OFFSET, OPEN, REGISTER, CLOSE)
BRANCH = form(rb"beq", REGISTER, COMMA, REGISTER, COMMA, LABEL)
JUMP = form(rb"j", LABEL)
DIRECTIVE = form(rb"\.word", DIGITS)

# A statement read: its kind (None for a directive), its numbers (registers
# and offset in the order of Instruction, or the directive's word), and the
# label that it names, if any.
Statement = namedtuple("Statement", "kind numbers label")
# Where a label is defined first.
Place = namedtuple("Place", "line address")


def lines_of(text):
    """A newline ends a line; what stands after the last one is a line too."""
    lines = text.split(b"\n")
    return lines if lines[-1] else lines[:-1]


def parted(line):
    """A line's label, None where it has none, and its statement without the
    blanks about it."""
    label, rest = LINE.fullmatch(line).groups()
    return label, rest.strip(b" \t")


def read(statement):
    """A statement by its parts. "A decimal out of its field's range makes the
    line unreadable." """
    if found := ARITHMETIC.fullmatch(statement):
        name, *registers = found.groups()
        return Statement(KINDS[name], [int(one) for one in registers], None)
    if found := MEMORY.fullmatch(statement):
        name, target, offset, base = found.groups()
        if -32768 <= int(offset) <= 32767:
            numbers = [int(target), int(base), int(offset) & 0xFFFF]
            return Statement(KINDS[name], numbers, None)
    if found := BRANCH.fullmatch(statement):
        first, second, label = found.groups()
        return Statement(BEQ, [int(first), int(second)], label)
    if found := JUMP.fullmatch(statement):
        return Statement(J, [], found[1])
    if found := DIRECTIVE.fullmatch(statement):
        return Statement(None, [int(found[1], 16)], None)
    raise Refusal(UNREADABLE)


def layout(lines, address):
    """The address of each line, and of each label that of the first line that
    defines it, with that line's number: "addresses run modulo 2^32". A line
    with a statement has a word, readable or not."""
    addresses, labels = [], {}
    for number, (label, statement) in enumerate(lines, 1):
        addresses.append(address)
        if label is not None:
            labels.setdefault(label, Place(number, address))
        if statement:
            address = address + 4 & MASK
    return addresses, labels


def encoded(statement, following, labels):
    """The word of a statement, "with labels replaced by the distance or
    address they name"; `following` is the line's address plus 4. "a j target
    is out of reach when its upper four bits differ from those of the line's
    address plus 4"; 4,096 lines are never out of the reach of a beq."""
    kind, numbers, label = statement
    if kind is None:
        return numbers[0]
    if label is None:
        return encode(Instruction(kind, *numbers))
    if label not in labels:
        raise Refusal(UNKNOWN_LABEL)
    target = labels[label].address
    if kind == BEQ:
        distance = signed(target - following & MASK) // 4
        return encode(Instruction(BEQ, *numbers, distance & 0xFFFF))
    if target >> 28 != following >> 28:
        raise Refusal(OUT_OF_REACH)
    return encode(Instruction(J, target >> 2 & 0x3FFFFFF, 0, 0))


def line_words(number, line, address, labels):
    """The words of a line, one or none; "on one line 20, 21, 22, 23 apply in
    that order"."""
    label, text = line
    statement = read(text) if text else None
    if label is not None and labels[label].line < number:
        raise Refusal(DEFINED_ABOVE)
    return [encoded(statement, address + 4 & MASK, labels)] if text else []


def assemble(address, room, text):
    """The words of a text for the byte address of its first word. "24
    precedes all, then 1 for the given address"; "the first bad line is
    named"; "19, output shorter than the words to write, comes last"."""
    lines = [parted(line) for line in lines_of(text)]
    if len(lines) > MOST_LINES:
        raise Refusal(TOO_MANY_LINES)
    if address % 4 != 0:
        raise Refusal(MISALIGNED)
    addresses, labels = layout(lines, address)
    words = []
    for number, (line, at) in enumerate(zip(lines, addresses), 1):
        try:
            words += line_words(number, line, at, labels)
        except Refusal as no:
            raise Refusal(*no.numbers, number) from None
    if len(words) > room:
        raise Refusal(OUTPUT_SHORT)
    return words


# The program: for address 0, with room for a word a line.
LONGEST_TEXT = 1 << 20
TOO_LONG = b"text too long\n"
MEANINGS = {UNREADABLE: "line not readable", DEFINED_ABOVE: "label defined above",
            UNKNOWN_LABEL: "label unknown", OUT_OF_REACH: "target out of reach",
            TOO_MANY_LINES: "too many lines"}


def refused(text):
    """The one line that `assemble` prints for a text that it refuses; None
    where it assembles it."""
    if len(text) > LONGEST_TEXT:
        return TOO_LONG
    try:
        assemble(0, MOST_LINES, text)
    except Refusal as no:
        number, *line = no.numbers
        where = f"line {line[0]}: " if line else ""
        return f"{where}{number}, {MEANINGS[number]}\n".encode()
    return None


def printed(text):
    """What `assemble` prints: the words in eight lower-case hexadecimal
    digits, a line each, or the line of its refusal."""
    line = refused(text)
    if line is not None:
        return line
    return b"".join(b"%08x\n" % word for word in assemble(0, MOST_LINES, text))
