"""`assemble` lines about what can be read: parts, registers, decimals,
digits, names, blanks, labels and every byte."""

from .asmtexts import (ARITHMETIC, FILLER, MEMORY, NAMES, assembled, joined,
                       parts_of, with_label)

MARKS = ",:()"
# The places of registers among the parts of a statement.
PLACES = [(name, at) for name in ARITHMETIC for at in (1, 3, 5)]
PLACES += [(name, at) for name in MEMORY for at in (1, 5)]
PLACES += [("beq", 1), ("beq", 3)]
BAD_REGISTERS = ("$32", "$33", "$39", "$40", "$99", "$100", "$00", "$01", "$031",
                 "$-1", "$-0", "$+1", "$", "$a", "$zero", "$t0", "$1a", "1", "$$1",
                 "$1$", "$ 1", "R1", "x", "$256", "$4294967297", "$1.0", "$0x1", "")
OFFSETS = ("0", "1", "-1", "9", "10", "-10", "99", "100", "-999", "1000", "9999",
           "10000", "19999", "29999", "30000", "32759", "32760", "32766", "32767",
           "-32767", "-32768", "-0", "-9", "-4")
BAD_OFFSETS = ("32768", "-32769", "32769", "32770", "33000", "40000", "-40000", "65535",
               "65536", "-65536", "99999", "100000", "327670", "00", "01", "-00", "-01",
               "-032768", "032767", "+1", "+0", "+", "-", "--1", "-+1", "+-1", "1-",
               "0x10", "1a", "a1", "1.0", "1_0", "1e1", "x", "$1", "- 4", "1 2", "",
               "4294967296", "4294967300", "4294934528", "-4294967296", "-4294967292",
               "8589934592", "18446744073709551616", "18446744073709551620",
               "-18446744073709551615", "9" * 40, "0" * 40 + "4", "\xb2", "\xef\xbc\x91")
WORDS = ("00000000", "ffffffff", "FFFFFFFF", "aBcDeF01", "89ABcdef", "01234567",
         "76543210", "fedcba98", "0000000F", "f0000000", "8c01000C", "80000000")
BAD_WORDS = ("", "0", "1234567", "123456789", "0000000000000000", "0x123456", "0x12345678",
             "1234 5678", "12345678,", "-1234567", "+1234567", "12345678h", "$1",
             "1234567 8", "12345678 12345678", "12345678,12345678", "(12345678)", "x")
OTHER_NAMES = ("addi $1,$2,4", "addu $1,$2,$3", "subu $1,$2,$3", "nor $1,$2,$3",
               "xor $1,$2,$3", "sltu $1,$2,$3", "lb $1,4($2)", "la $1,x", "bne $1,$2,x",
               "b x", "beqz $1,x", "jal x", "jr $1", "nop", "lui $1,4", "move $1,$2",
               ".data", ".text", ".word", ".byte 00", ".space 4", "word 00000000", "li $1,4")


def registers(_):
    """Every register in every place of every statement, a text a place."""
    lines = []
    for name, at in PLACES:
        parts = parts_of(name)
        texts = [joined(parts[:at] + [f"${number}"] + parts[at + 1:]) for number in range(32)]
        lines.append(assembled("x:" + "\n".join(texts)))
    return lines


def bad_registers(_):
    """What is no register in every place of every statement."""
    return [assembled(with_label(joined(parts[:at] + [register] + parts[at + 1:])))
            for name, at in PLACES for parts in [parts_of(name)] for register in BAD_REGISTERS]


def offsets(_):
    """Decimals at the edges of the field, and others."""
    return [assembled(joined(parts_of(name, offset=offset)))
            for name in MEMORY for offset in OFFSETS + BAD_OFFSETS]


def hexadecimal(_):
    """Words of eight digits, of more and fewer, and every byte beside the
    digits and letters in every place."""
    lines = [assembled(f".word {digits}") for digits in WORDS + BAD_WORDS]
    lines += [assembled(f".word 0000000{digit}\n.word {digit}0000000")
              for digit in "0123456789abcdefABCDEF"]
    return lines + [assembled(".word " + "1234567a"[:at] + other + "1234567a"[at + 1:])
                    for at in range(8) for other in "/:@G`gxz-$ "]


def names(_):
    """Names in other letters, cut short, longer, doubled; other names."""
    lines = [assembled(with_label(text)) for text in OTHER_NAMES]
    for name in NAMES:
        rest = joined(parts_of(name))[len(name):]
        lines += [assembled(with_label(other + rest)) for other in
                  (name.upper(), name.capitalize(), name[:-1] + name[-1].upper(), name[:-1],
                   name[1:], name + name[-1], name * 2, name + "s", "." + name, name + ".",
                   "$" + name, name + " " + name, name + ":", name + ",", name + "\0")]
    return lines


def parts_changed(_):
    """Every statement with each part left out, doubled, made each mark, made
    the next part, and changed about with the next."""
    lines = []
    for name in NAMES:
        parts = parts_of(name)
        for at, part in enumerate(parts):
            others = [[], [part, part], *([mark] for mark in MARKS), parts[at + 1:at + 2]]
            texts = [parts[:at] + other + parts[at + 1:] for other in others]
            texts.append(parts[:at] + parts[at:at + 2][::-1] + parts[at + 2:])
            lines += [assembled(with_label(" ".join(text))) for text in texts]
        lines += [assembled(with_label(joined(parts) + more)) for more in
                  (" x", " $1", ",", " ,$1", ")", ":", " # b", ";", " // b", "\\", ";j x")]
    return lines


def blanks(_):
    """Every gap of every statement: nothing, blanks of both kinds, and white
    space that is no blank; blanks inside a part."""
    lines = []
    for name in NAMES:
        parts = ["x", ":"] + parts_of(name)
        for gap in ("", " ", "\t", " \t\t  "):
            lines.append(assembled(gap + gap.join(parts) + gap))
            lines.append(assembled(gap.join(parts[:3]) + gap + " " + gap.join(parts[3:])))
        for at in range(len(parts) + 1):
            texts = [" ".join(parts[:at]) + other + " ".join(parts[at:])
                     for other in ("\t \t", "\r", "\x0b", "\x0c", "\0", "\xa0", "\n")]
            lines += [assembled(text) for text in texts]
        whole = joined(parts_of(name))
        lines += [assembled("x:" + whole[:at] + " " + whole[at:]) for at in range(1, len(whole))]
    return lines


def every_byte(_):
    """Each byte as a line, at the end of a label, within a label and a name,
    as a label, between two parts, and at the end of a line."""
    return [assembled(text) for byte in map(chr, range(256)) for text in
            (byte, f"a{byte}:", f"a{byte}b:j a{byte}b", f"{byte}:j {byte}", f"j{byte}x\nx:",
             f"x:j x{byte}\n")]


def labels(_):
    """Labels of 1 to 18 letters and of other characters, defined and named;
    labels that are nearly alike."""
    letters = "abcdefghijklmnopqr"
    lines = [assembled(text) for count in range(1, 19) for name in [letters[:count]]
             for text in (f"{name}:", f"j {name}\n{name}:", f"{name}:beq $1,$2,{name}",
                          f"{name}:\nj {name.upper()}\n", f"x:j {name}")]
    for name in ("a1", "1a", "1", "a_b", "_", "a.b", ".a", "a-b", "$1", "$a", "a$", "\xe9",
                 "a\xe9", "a b", "0x1", "-", "", "\"a\"", "a\0", "a\r"):
        lines += [assembled(f"{name}:j {name}"), assembled(f"j {name}\n{name}:\n")]
    long = "abcdefghijklmnop"
    for one, other in (("a", "b"), ("a", "A"), ("a", "aa"), ("ab", "ba"), ("loop", "loops"),
                       (long, long[:-1]), (long, long[:-1] + "P"), (long, "A" + long[1:]),
                       (long, long[:7] + "x" + long[8:]), (long[:8], long[8:])):
        lines += [assembled(f"{one}:j {other}\n{other}:j {one}"), assembled(f"{one}:j {other}"),
                  assembled(f"{one}:\n{FILLER}\n{other}:\nbeq $1,$2,{one}\nbeq $3,$4,{other}")]
    return lines


def label_lines(_):
    """Labels alone, with blanks, twice on a line, named as statements are,
    and colons where none may be."""
    texts = [f"{name}:{joined(parts_of(name, label=name))}\nj {name}" for name in NAMES[:-1]]
    texts += [f"j {name}\n{name}:" for name in (*NAMES[:-1], "word", "b")]
    texts += ["a:", "a :", " a:", "\ta\t:\t", "a: ", "a", ":", "::", "a::", ": a", ": j a",
              "a: b:", "a: b: j a", "a:a:", "a:b", "a b:", "a,b:", "a:,", "a:\nb:\nj a\nj b",
              "a:\nb:\n", "a::j a", "a:j a:", "a:j :a", "a:j (a)", "a:j a,", "a:j,a", "(a):j a",
              "a\n:j a", "a:\n\n\nj a", "j a\n\n\n a :\n\n", "a:j\na", "a:j \n a"]
    return [assembled(text, 0x40) for text in texts]


def ends(_):
    """Texts without a last newline, with one and with several, with carriage
    returns, of blanks alone, and the empty text."""
    bodies = ("", " ", "\t", "x:", "x:j x", "j x\nx:", "?", "x:\nx:", "j y", "\nx:j x", "\n?")
    return [assembled(body + end, 4, room) for body in bodies
            for end in ("", "\n", "\n\n", " ", "\n ", "\r", "\r\n", "\n\t\n") for room in (0, 2)]


EDGES = (registers, bad_registers, offsets, hexadecimal, names, parts_changed,
         blanks, every_byte, labels, label_lines, ends)
