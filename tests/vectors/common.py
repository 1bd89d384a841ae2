"""Building lines: numbers, images, machines and a very small assembler."""

SIZES = (0, 1, 0x40, 0x4000, 0x4001)      # image sizes at the edges
BUDGETS = (0, 1, 2, 1000000, 1000001, 0xFFFFFFFF)
EDGE_WORDS = (0, 1, 0x7FFFFFFF, 0x80000000, 0x80000001, 0xFFFFFFFE,
              0xFFFFFFFF, 0x55555555)
FUNCTIONS = (32, 34, 36, 37, 42)          # add, sub, and, or, slt
OPCODES = (0, 2, 4, 35, 43)               # R-format, j, beq, lw, sw
UNKNOWN_OPCODE = 0xFC000000
LARGEST_BUDGET = 1000000


def flat(parts):
    """Parts of a line, lists of parts within it laid out in order."""
    for part in parts:
        if isinstance(part, (list, tuple)):
            yield from flat(part)
        elif isinstance(part, int):
            yield f"{part:x}"
        else:
            yield part


def line(word, *parts):
    """One line: the case's word, then its numbers in hexadecimal."""
    return " ".join([word, *flat(parts)]).encode("latin-1")


def image(size, cells=()):
    """`IMAGE` of `size` words from pairs or a dict of index and word."""
    pairs = list(cells.items() if isinstance(cells, dict) else cells)
    return [size, len(pairs), *pairs]


def program(words, base=0):
    """The cells of a program that stands at word `base`."""
    return {base + at: word for at, word in enumerate(words)}


def registers(cells=None):
    """Thirty-two cells, 0 but for those given."""
    return [(cells or {}).get(number, 0) for number in range(32)]


def single(budget, pc, cells, size, words, base=0):
    """A `single` line: registers by number, a program at a base word."""
    held = words if isinstance(words, dict) else program(words, base)
    return line("single", budget, pc, registers(cells), image(size, held))


def machine(state=0, cells=None, PC=0, IR=0, MDR=0, A=0, B=0, ALUOut=0):
    """`MACHINE` from its latches and its registers by number."""
    return [PC, IR, MDR, A, B, ALUOut, state, registers(cells)]


def run(unit, budget, start, size, words, base=0):
    """A `run` line on one of the four units."""
    held = words if isinstance(words, dict) else program(words, base)
    return line("run", unit, budget, start, image(size, held))


def r_format(function, rd, rs, rt):
    """An R-format word."""
    return rs << 21 | rt << 16 | rd << 11 | function


def add(rd, rs, rt):
    """add rd, rs, rt"""
    return r_format(32, rd, rs, rt)


def sub(rd, rs, rt):
    """sub rd, rs, rt"""
    return r_format(34, rd, rs, rt)


def slt(rd, rs, rt):
    """slt rd, rs, rt"""
    return r_format(42, rd, rs, rt)


def i_format(opcode, rs, rt, field):
    """A word of lw, sw or beq; the field may be negative."""
    return opcode << 26 | rs << 21 | rt << 16 | field & 0xFFFF


def lw(rt, field, rs):
    """lw rt, field(rs)"""
    return i_format(35, rs, rt, field)


def sw(rt, field, rs):
    """sw rt, field(rs)"""
    return i_format(43, rs, rt, field)


def beq(rs, rt, field):
    """beq rs, rt, field"""
    return i_format(4, rs, rt, field)


def j(field):
    """j field"""
    return 2 << 26 | field & 0x3FFFFFF


def corrupted(rng, text):
    """A line with one thing wrong with it, as a rule: it answers `bad case`
    or, where the change left a good line, what that line says."""
    parts = text.split(b" ")
    at = rng.below(len(parts))
    way = rng.below(8)
    if way == 0:
        del parts[at]
    elif way == 1:
        parts.insert(at, b"%x" % rng.below(256))
    elif way == 2:
        parts.insert(at, b"")
    elif way == 3:
        parts[at] = parts[at].upper() or b"A"
    elif way == 4:
        parts[at] += rng.pick((b"\t", b"\r", b"\0", b"g", b"x", b"-", b"\xff"))
    elif way == 5:
        parts[at] = b"0" * (9 - len(parts[at])) + parts[at]
    elif way == 6:
        parts.append(b"")
    else:
        parts[at] = b"%x" % (rng.word() | 0x10000)
    return b" ".join(parts)
