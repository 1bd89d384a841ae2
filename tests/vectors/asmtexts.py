"""Building `assemble` lines: statements with their parts, texts, and random
programs that assemble."""

from .common import line

ROOM = 0x1000           # the most that a line may ask for
LONGEST = 65536         # bytes of a line of `replay`
ARITHMETIC = ("add", "sub", "and", "or", "slt")
MEMORY = ("lw", "sw")
NAMES = (*ARITHMETIC, *MEMORY, "beq", "j", ".word")
BORDERS = (0x10000000, 0x20000000, 0x80000000, 0xF0000000, 0)
FILLER = "lw $1,0($1)"
LETTERS = "ABCDEFGHIJKLMNOPQRSTUVWXYZabcdefghijklmnopqrstuvwxyz"


def assembled(text, address=0, room=ROOM):
    """An `assemble` line; a character of the text is a byte."""
    return line("assemble", address, room, text.encode("latin-1").hex() or "-")


def parts_of(name, first="$1", second="$2", third="$3", offset="4", label="x",
             word="01234567"):
    """A statement as the list of its parts."""
    if name in ARITHMETIC:
        return [name, first, ",", second, ",", third]
    if name in MEMORY:
        return [name, first, ",", offset, "(", second, ")"]
    if name == "beq":
        return [name, first, ",", second, ",", label]
    return [name, label if name == "j" else word]


def joined(parts):
    """Parts with a blank after the name and no other."""
    return " ".join((parts[0], "".join(parts[1:])))


def with_label(text):
    """A line between two others that define `x` and `y`, which it may name."""
    return f"x:\n{text}\ny:j x\n"


def random_name(rng):
    """A name: mostly short, one in eight of the most letters there may be,
    one in eight that of a statement."""
    if rng.chance(1, 8):
        return rng.pick(("add", "sub", "j", "beq", "word", "lw", "Add", "J"))
    count = 16 if rng.chance(1, 8) else rng.between(1, 5)
    return "".join(rng.pick(LETTERS) for _ in range(count))


def random_names(rng, count):
    """So many different names, some of which differ in one letter only."""
    names = {}
    while len(names) < count:
        name = random_name(rng)
        if names and rng.chance(1, 4):
            other = rng.pick(list(names))
            name = rng.pick((other[:-1] + name[:1], other + name[:1],
                             other.swapcase(), name[:1] + other[1:]))[:16]
        names[name] = True
    return list(names)


def random_parts(rng, names, statement=None):
    """A random statement; its offset and its word of every size."""
    statement = statement or rng.pick(NAMES)
    first, second, third = (f"${rng.below(32)}" for _ in range(3))
    offset = rng.pick((rng.between(-32768, 32767), rng.between(-9, 99),
                       4 * rng.below(64), -32768, 32767))
    word = f"{rng.word() >> rng.below(32):08x}"
    return parts_of(statement, first, second, third,
                    "-0" if offset == -3 else str(offset), rng.pick(names),
                    word.upper() if rng.chance(1, 3) else word)


def random_gaps(rng, parts):
    """Parts with blanks between, where there need be none too."""
    style = rng.below(4)
    if style == 0:
        return joined(parts)
    if style == 1:
        return joined(parts).replace(",", ", ")
    text = rng.pick(("", "", " ", "\t"))
    for at, part in enumerate(parts):
        gap = rng.pick(("", "", " ", "\t", "  ", " \t "))
        text += part + (gap or " " * (at == 0))
    return text


def random_lines(rng, most=12):
    """The lines of a text that assembles wherever no j is out of reach: every
    label that it names is defined once, before or after."""
    names = random_names(rng, rng.between(1, 4))
    count = rng.between(len(names), most)
    homes = {}
    while len(homes) < len(names):
        homes.setdefault(rng.below(count), names[len(homes)])
    lines = []
    for at in range(count):
        label = homes.get(at)
        text = "" if label is None else label + rng.pick((":", ":", " : ", "\t:"))
        if rng.chance(6, 7):
            text += random_gaps(rng, random_parts(rng, names))
        lines.append(text + rng.pick(("", "", "", " ", "\t")))
    return lines


def random_address(rng):
    """0, any multiple of 4, or one shortly before a border."""
    way = rng.below(4)
    if way == 0:
        return 0
    if way == 1:
        return rng.word() & ~3
    return rng.pick(BORDERS) - 4 * rng.below(10) & 0xFFFFFFFF


def text_of(rng, lines):
    """Lines as a text; one in three has no newline at its end."""
    return "\n".join(lines) + ("" if rng.chance(1, 3) else "\n")
