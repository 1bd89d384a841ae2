"""`assemble` lines of many lines or many bytes: 4,096 lines and 4,097, and
lines of `replay` as long as they may be."""

from .asmtexts import LETTERS, LONGEST, assembled

MOST = 4096
TEXT_BYTES = (LONGEST - len("assemble 0 1000 ")) // 2


def pairs():
    """The 2,704 labels of two letters."""
    return [one + two for one in LETTERS for two in LETTERS]


def full_text(rng):
    """4,096 lines with a word each: two in three have a label of their own,
    the others any statement; they name labels far and near."""
    names, lines = pairs(), []
    for name in names:
        lines.append(f"{name}:j {rng.pick(names)}")
    rest = ["add $1,$2,$3", "lw $9,-4($8)", ".word 89abCDEF", "sw $3,0($4)"]
    for at in range(MOST - len(names)):
        other = f"beq $0,$7,{rng.pick(names)}" if at % 8 else rng.pick(rest)
        lines.append(other if at % 3 == 0 else f"j {rng.pick(names)}")
    for at in range(MOST - 1, 0, -1):       # shuffled, the labelled among the others
        to = rng.below(at + 1)
        lines[at], lines[to] = lines[to], lines[at]
    return "\n".join(lines)


def full_sheets(rng):
    """Every word of room needed and written; room for one fewer."""
    text = full_text(rng)
    assert len(text) < TEXT_BYTES and text.count("\n") == MOST - 1
    return [assembled(text), assembled(text, 0x0FFFBFFC, MOST - 1)]


def far_apart(_):
    """The farthest that a beq and a j can go, forward and back, with a border
    right before the last line and right after it."""
    body = "j a\n" * (MOST - 2)
    return [assembled("beq $1,$2,z\na:" + body + "z:beq $1,$2,a"),
            assembled("a:beq $1,$2,a\n" + body + "j a", 0x10000000 - 4 * MOST),
            assembled("beq $1,$2,a\na:" + body + "beq $1,$2,a", 0xFFFFE000 - 0x1000)]


def many_lines(_):
    """4,096 lines and 4,097 by newlines alone, and with a last line that no
    newline ends; 24 before 1, before bad lines and before 19."""
    over = "\n" * (MOST + 1)
    lines = [assembled(text, address, 0) for text in ("\n" * MOST, over) for address in (0, 2)]
    lines += [assembled(text) for text in ("\n" * (MOST - 1) + "a:", "\n" * MOST + "a:",
                                           "?" + "\n" * (MOST - 1), "?" + over[1:] + "?")]
    return lines + [assembled("a:" + "j a\n" * (MOST + 1), 0, MOST - 1),
                    assembled("a:" + "j a\n" * MOST + "a:j b", 1)]


def bad_ends(_):
    """A bad line as the last of 4,096, or the last but one, past a border."""
    many = "\n" * (MOST - 3)
    return [assembled(f"a:beq $1,$2,a\n{many}{last}", 0x0FFFFFFC)
            for last in ("\n?", "\na:", "\nj b", "\nj a", "j a\na:", "a:\n?", "\nb:j b")]


def long_lines(_):
    """The longest lines of `replay`, and one that is too long by a byte: much
    blank, a label without end, and the line after it read as usual."""
    gap = TEXT_BYTES - len("a:j a\n")
    text = "a:j" + " \t" * (gap // 2) + " " * (gap % 2 + 1) + "a\n"
    good = assembled(text)
    assert len(good) == LONGEST, len(good)
    return [good, good.replace(b"e 0 ", b"e 00 "), assembled("a:j a"),
            assembled("a:j a\n" + "a" * (TEXT_BYTES - 7) + ":")]


EDGES = (full_sheets, far_apart, many_lines, bad_ends, long_lines)
