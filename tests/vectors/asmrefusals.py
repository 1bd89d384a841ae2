"""`assemble` lines about refusals: each on every line, several at once, their
order, room, and the reach of j and beq about the borders."""

from .asmtexts import BORDERS, FILLER, assembled

BORDER = 0x10000000
# A bad line for each of 20 to 23, in a text whose first line defines `top`
# and which stands astride the border, so that a j to `top` is out of reach.
UNREADABLE, ABOVE, UNKNOWN, FAR = "add $1,$2", "top:", "j nowhere", "j top"
# Lines with several things wrong: the first of 20, 21, 22, 23 is named.
BAD_LINES = (UNREADABLE, ABOVE, UNKNOWN, FAR, "top:?", "top: j nowhere", "top: j top",
             "j nowhere x", "top: j top x", "top: j nowhere,", "new: j nowhere", "new: j top",
             "new:?", "top: beq $1,$2,nowhere", "beq $1,$2,nowhere", "top: beq $1,$2,top",
             "top: .word 0", "j top:", "new: top:", "top: new:")
LETTERS = "abcdefghij"
NO_BORDERS = (0x00010000, 0x04000000, 0x08000000, 0x18000000, 0x7FFE0000, 0xF8000000)


def before(border, words):
    """The address so many words before a border."""
    return border - 4 * words & 0xFFFFFFFF


def each_on_every_line(_):
    """Texts of 1 to 7 lines past the border with one bad line, on each."""
    lines = []
    for count in range(1, 8):
        for at in range(count):
            for bad in BAD_LINES:
                text = [FILLER] * count
                text[at] = bad
                lines.append(assembled("top:\n" + FILLER + "\n" + "\n".join(text),
                                       before(BORDER, 1 + count % 2)))
    return lines


def two_bad_lines(_):
    """Every two bad lines in either order, next to each other and apart: the
    first line is named, whatever its refusal."""
    return [assembled(f"top:{FILLER}\n{FILLER}\n{one}\n{between}{two}\n", before(BORDER, 2))
            for one in BAD_LINES for two in BAD_LINES[:8]
            for between in ("", f"{FILLER}\n\n")]


def bad_beside_room(_):
    """1 before every line, 19 after every line: each with each bad line."""
    return [assembled(f"top:{FILLER}\n{FILLER}\n{bad}", before(BORDER, 2) + off, room)
            for bad in (FILLER, *BAD_LINES) for off in (0, 1, 2, 3) for room in (0, 2, 3)]


def first_lines(_):
    """Bad lines as the first of their text, labels defined below."""
    return [assembled(f"{bad}\n{more}", before(BORDER, 0 if more else 1))
            for bad in (UNREADABLE, UNKNOWN, "a:?", "a:j b", "j a", "beq $1,$2,a", "a:j a",
                        "a:", "a:beq $1,$2,a", "b:j a", "")
            for more in ("", "a:", "a:\n", f"{FILLER}\na:\n", "a:?", f"{FILLER}\na:\na:")]


def rooms(_):
    """Every room about the words to write; lines without a word need none."""
    lines = []
    for text, words in (("", 0), ("\n\n", 0), ("a:\n \nb:", 0), ("a:j a", 1), ("a:\nj a\n\n", 1),
                        ("a:j a\nb:\nj b", 2), ("a:j b\n\n\nb:j a\n j a\nc:", 3),
                        ("a:" + "j a\n" * 16, 16), ("a:" + "j a\n" * 255, 255)):
        rest = {0, 1, max(words - 1, 0), words, words + 1, words + 2, 0xFFF, 0x1000}
        lines += [assembled(text, 8, room) for room in sorted(rest)]
    return lines


def misaligned(_):
    """Addresses that are no multiple of 4, over texts good and bad."""
    return [assembled(text, address, room)
            for address in (1, 2, 3, 5, 6, 7, 0x0FFFFFFD, 0x10000002, 0x80000001, 0xFFFFFFFD,
                            0xFFFFFFFE, 0xFFFFFFFF)
            for text, room in (("", 0), ("a:j a", 1), ("a:j a", 0), ("?", 1), ("j b", 0))]


def grid(statement, border, words, count=6):
    """A statement on each of so many lines to the label of each line and to
    one past the last, from an address so many words before a border."""
    lines = []
    for at in range(count):
        for to in range(count + 1):
            text = [FILLER] * count + [""]
            text[at] = statement + LETTERS[to]
            text = [f"{LETTERS[number]}:{body}" if number == to else body
                    for number, body in enumerate(text)]
            lines.append(assembled("\n".join(text), before(border, words), count))
    return lines


def reach_of_j(_):
    """A j before, on and past a border, forward, back and onto itself, and
    with its label just on either side; where a lower bit changes there is no
    border."""
    lines = [text for words in range(7) for text in grid("j ", BORDER, words)]
    lines += [text for words in (0, 1, 2, 4, 6) for text in grid("j ", 0, words, 4)]
    return lines + [text for border in (*BORDERS[1:-1], *NO_BORDERS) for words in (1, 2)
                    for text in grid("j ", border, words, 3)]


def reach_of_beq(_):
    """A beq over the same places is never out of reach."""
    return [text for border in (BORDER, 0, 0x80000000) for words in (0, 1, 3, 4)
            for text in grid("beq $1,$2,", border, words, 4)]


def second_definitions(_):
    """A label defined on both sides of a border: the first counts for every
    j, above it, between the two and below, and the second line is refused
    unless a j above it is."""
    lines = []
    for first in range(5):
        for second in range(first + 1, 6):
            for at in range(6):
                text = [FILLER] * 6
                text[at] = "j a"
                for home in (first, second):
                    text[home] = "a:" + text[home]
                lines += [assembled("\n".join(text), before(border, 3))
                          for border in (BORDER, 0)]
    return lines


def unreadable_between(_):
    """Lines that cannot be read count as words in the reach of a j above
    them, and define their labels."""
    lines = []
    for junk in ("?", "b:?", "add", "b: c:", "j 4", "b:j", "b:", "", "b :\t", ":"):
        for count in (1, 2, 3):
            between = f"{junk}\n" + (junk[2:] + "\n" if junk[:2] == "b:" else junk + "\n") * count
            for words in (count + 1, count + 2, count + 3):
                lines.append(assembled(f"j a\n{between}a:", before(BORDER, words)))
                lines.append(assembled(f"j b\n{FILLER}\n{between}", before(BORDER, words)))
    return lines


def used_before(_):
    """Labels that only an unreadable line defines, named above and below it."""
    return [assembled(text, address) for address in (0, before(BORDER, 1), before(0, 2))
            for text in ("j a\na:?", "beq $1,$2,a\na:add", "a:?\nj a", "j a\na:b:", "j b\na:b:",
                         "j a\nj b\na:?", "j a\na:?\na:", "j a\na?:", "j a\na:\r", "j a\na\r:",
                         f"j a\n{FILLER}\na:\0", f"{FILLER}\nj a\na:?", "j aa\na:?\naa:?")]


EDGES = (each_on_every_line, two_bad_lines, bad_beside_room, first_lines, rooms,
         misaligned, reach_of_j, reach_of_beq, second_definitions,
         unreadable_between, used_before)
