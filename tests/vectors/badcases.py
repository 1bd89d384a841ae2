"""Lines that are answered `bad case`, and lines that only look like it."""

from .common import image, line, registers

LONGEST = 65536


def other_words(_):
    """Another word, a word in other letters, a word alone, a word cut short."""
    known = ("run", "store", "single", "check", "read", "write", "decode",
             "encode", "load", "average")
    lines = [word.encode() for word in known]
    lines += [word.upper().encode() + b" 0" for word in known]
    lines += [word[:-1].encode() + b" 0" for word in known]
    lines += [(word + "s").encode() + b" 0" for word in known]
    lines += [b"bad case", b"0", b"quit", b"decode,0", b"decode0", b"#",
              b"help", b"decode=0", b"\xef\xbb\xbfdecode 0", b"d\xc3\xa9code 0"]
    return lines


def empty_lines(_):
    """An empty line is answered with an empty line; the next as usual."""
    return [b"", b"decode 8c01000c", b"", b"", b"decode fc000000"]


def blanks(_):
    """Blanks together, before, after, alone; and other white space."""
    return [b" ", b"  ", b" decode 0", b"decode  0", b"decode 0 ", b"decode ",
            b"decode\t0", b"decode 0\t", b"\tdecode 0", b"decode 0\r", b"\r",
            b"decode \r0", b"decode 0\0", b"\0", b"decode \x000",
            b"decode\xa00", b"decode\x0b0", b"decode 0\x0c",
            b"average d  3", b"average  d 3", b"average d 3 ",
            b"average d\t3", b" average d 3", b"encode 0 2 1 1 "]


def numbers(_):
    """Digits in upper case, signs, prefixes, points, too many digits."""
    wrong = ("A", "8C01000C", "aB", "g", "0x1", "-1", "+1", "1.0", "1_0",
             "000000000", "123456789", "000000001", "100000000", "1h", "#1",
             "'1'", "\xb2", "\uff11", "1,", "/", ":", "`", "@", "G")
    good = ("00000000", "00000001", "0ffffffff"[1:], "0", "9", "a", "f")
    texts = [text.encode("utf-8") for text in wrong + good]
    lines = [b"decode " + text for text in texts]
    lines += [b"average " + text + b" 3" for text in texts]
    return lines + [b"average d " + text for text in texts]


def counts_of_numbers(_):
    """A number missing, and a number too many, in every short case."""
    return [b"decode", b"decode 0 0", b"encode 0 2 1", b"encode 0 2 1 1 1",
            b"encode 8 0", b"encode 8 0 0", b"encode", b"encode 0",
            b"average", b"average 1", b"average 1 1 1", b"load", b"load 0",
            b"load 0 0", b"load 0 0 1", b"load 0 0 1 0 0", b"load 0 1 1 0",
            b"load 0 2 1 1 0", b"load 0 1 5 1 1 0", b"load 0 1 5 1 1 0 0 0",
            b"load 0 1 5 1 0", b"load 0 0 1 1 0 7", b"load 0 0 0 0",
            b"load 0 ffffffff 0 1 0", b"load 0 0 1 ffffffff 0 0",
            b"load 0 0 1 80000000", b"load 0 80000000 1 0",
            b"load 0 7fffffff 0", b"load 0 0 1 7fffffff 0 0"]


def single_shapes(_):
    """A `single` line with each kind of thing wrong with its parts."""
    cells = registers()
    good = [1, 0, cells, image(1, {0: 0x20})]
    lines = [line("single", good), line("single", good, 0),
             line("single", good[:2], cells[1:], good[3]),
             line("single", good[:2], cells, 0, good[3]),
             line("single", good[:3]), line("single", good[:3], 1),
             line("single", good[:3], 1, 1), line("single", good[:3], 1, 1, 0),
             line("single", good[:3], 1, 0, 0),
             line("single", good[:3], 1, 2, 0, 0x20)]
    for size, index in ((0, 0), (1, 1), (1, 0xFFFFFFFF), (0x40, 0x40),
                        (0x4000, 0x4000), (0x4001, 0x4001)):
        lines.append(line("single", good[:3], image(size, {index: 1})))
    for size in (0x4001, 0x4002, 0x10000, 0xFFFFFFFF):
        lines.append(line("single", good[:3], image(size)))
    return lines


def repeated_cells(_):
    """ "a later pair replaces an earlier one", more pairs than words too."""
    cells = registers({1: 5})
    pairs = [(0, 0xFC000000), (0, 0), (0, 0x00211020)]
    return [line("single", 1, 0, cells, image(1, pairs[:count]))
            for count in range(4)] + [
        line("load", 0, 1, 7, image(1, [(0, 7), (0, 8)])),
        line("load", 0, 1, 8, image(1, [(0, 7), (0, 8)]))]


def long_line(length):
    """A `load` line of exactly `length` bytes: its program is zeros of eight
    digits each, two shorter ones to fill, and one other word at the end."""
    tail = " 0000beef 4000 0"
    count, rest = divmod(length - len("load 0 ffff") - len(tail), 9)
    digits = [8] * count
    if rest:
        digits[-1:] = [(7 + rest) // 2, (8 + rest) // 2]
    words = "".join(" " + "0" * count for count in digits)
    return f"load 0 {len(digits) + 1:04x}{words}{tail}".encode()


def long_lines(_):
    """The longest line there may be, the same with one byte more, and a long
    one that is wrong besides; the next line is read as usual."""
    good = long_line(LONGEST)
    return [good, b"decode 0", b"load 0" + good[5:], b"decode 8c01000c",
            b"x" * (LONGEST + 1) + b" \r", b"average d 3"]


EDGES = (other_words, empty_lines, blanks, numbers, counts_of_numbers,
         single_shapes, repeated_cells, long_lines)
