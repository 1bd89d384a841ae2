"""The assembler of the model held against words and refusals worked out by
hand from document 02's item 2 and the encodings of document 01, and against
the model's decoder. Run by selftest.py, which lends its `same`.
"""

from . import words
from .assembler import assemble, printed
from .refusal import OUT_OF_REACH, Refusal
from .screen import mnemonic

# Texts of one line at address 8, and their word.
LINES = (
    ("lw $1,12($0)", 0x8C01000C), ("add $2,$1,$1", 0x00211020),
    ("sub $31,$0,$16", 0x0010F822), ("and $3,$1,$2", 0x00221824),
    ("or $3,$1,$2", 0x00221825), ("slt $3,$1,$2", 0x0022182A),
    ("sw $31,-4($30)", 0xAFDFFFFC), ("lw $1,-32768($2)", 0x8C418000),
    ("sw $0,32767($0)", 0xAC007FFF), ("lw $0,-0($0)", 0x8C000000),
    ("a:beq $0,$0,a", 0x1000FFFF), ("beq $4,$5,a\na:", 0x10850000),
    ("a: j a", 0x08000002), ("j a\n\na:", 0x08000003),
    (".word fc000000", 0xFC000000), (".word 0000AbCd", 0x0000ABCD),
    ("\tx :\t add\t$9 ,$10\t, $11  ", 0x014B4820),
    (" lw $1 , 12 ( $0 ) ", 0x8C01000C), ("add: j add", 0x08000002),
    ("abcdefghijklmnop:\n\nj abcdefghijklmnop\n", 0x08000002))
# Lines that cannot be read, whatever stands about them.
UNREADABLE = (
    "add$1,$2,$3", "add $1,$2", "add $1,$2,$3,", "add $1 $2,$3", "ADD $1,$2,$3",
    "add $1,$2,$32", "add $01,$2,$3", "add $ 1,$2,$3", "add 1,$2,$3", "addu $1,$2,$3",
    "lw $1,32768($0)", "lw $1,-32769($0)", "lw $1,+4($0)", "lw $1,04($0)",
    "lw $1,- 4($0)", "lw $1,-00($0)", "lw $1,0x4($0)", "lw $1,($0)", "lw $1,4",
    "lw $1,4($0", "lw $1,4 $0", "lw $1,a($0)", "lw $1,4294967296($0)",
    "beq $1,$2", "beq $1,$2,4", "j", "j 4", "j a b", "j abcdefghijklmnopq", "jb",
    ".word 0", ".word 00000000 0", ".word 000000000", ".word 0000000g", ".Word 00000000",
    ".word 0x000000", "word 00000000", ":", "a", "a::", "a: b:", "a b:", "a1: j a",
    "abcdefghijklmnopq:", "add $1,$2,$3\r", "\r", "\x00", "j\x0ba", "\xa0", "# b")
# Address, room, text, and what comes of it: words in a list, or the refusal.
TEXTS = (
    (0, 0, "", []), (0, 0, "\n \n\t\n", []), (0, 0, "a:\n b :", []),
    (0xFFFFFFFC, 2, "j a\na:.word 00000001", [0x08000000, 1]),
    (0x0FFFFFFC, 1, "j a\na:", [0x08000000]),
    (0x0FFFFFFC, 1, "a:j a", (23, 1)),
    (0x0FFFFFF8, 2, "b:j a\nj b\na:", (23, 1)),
    (0x0FFFFFF8, 2, "b:j b\nj b", (23, 2)),
    (0xFFFFFFF8, 2, "b:j b\nj b", (23, 2)),
    (0xFFFFFFF8, 3, "y:j y\nbeq $0,$0,z\nz:beq $0,$0,y", [0x0BFFFFFE, 0x10000000, 0x1000FFFD]),
    (0x0FFFFFF4, 9, "j a\n?\nb:?\na:", (23, 1)),
    (0x0FFFFFF4, 9, "j a\n\nb:\na:?", (20, 4)),
    (0x0FFFFFF4, 9, "a:.word 00000000\nj a\nj a\na:", (23, 3)),
    (0x0FFFFFF4, 9, "a:.word 00000000\nj a\na:\nj a", (21, 3)),
    (0, 9, "j a\na: b:", (20, 2)), (0, 9, "j a\na:\na:\nj b", (21, 3)),
    (0, 9, "a:\na:?\nj b", (20, 2)), (0, 9, "a:\na:j b", (21, 2)),
    (0, 9, "\nj A\na:?", (22, 2)), (0x0FFFFFFC, 9, "a:\na:j a", (21, 2)),
    (0, 1, "j a\na:j a", (19,)), (0, 1, "j a\na:j a\nj b", (22, 3)),
    (2, 0, "?", (1,)), (4, 0, "?", (20, 1)), (3, 0, "\n" * 4097, (24,)),
    (3, 0, "\n" * 4096, (1,)), (4, 0, "\n" * 4096, []), (0, 0, "\n" * 4096 + " ", (24,)),
    (0, 4095, "j a\n" * 4095 + "a:", [0x08000FFF] * 4095),
    (0, 4096, "a:" + "beq $0,$0,a\n" * 4096,
     [0x10000000 | -1 - at & 0xFFFF for at in range(4096)]))


def outcome(address, room, text):
    """The words in a list, or the numbers of the refusal."""
    try:
        return assemble(address, room, text.encode("latin-1"))
    except Refusal as no:
        return no.numbers


def samples(same):
    """Each line alone, each unreadable one on a first, a middle and a last
    line, each text, and what the program prints."""
    for text, word in LINES:
        same(text, outcome(8, 1, text), [word])
    for text in UNREADABLE:
        for before, after in (("", ""), ("\nj a\n", "\na:"), ("", "\na:j a\n")):
            same(text, outcome(0, 9, before + text + after), (20, 1 + before.count("\n")))
    for address, room, text, wanted in TEXTS:
        same(f"{text[:60]!r} at {address:x}", outcome(address, room, text), wanted)
    for text, wanted in ((b"", b""), (b"x:j x", b"08000000\n"),
                         (b"\n\nj b\n", b"line 3: 22, label unknown\n"),
                         (b"\n" * 4097, b"24, too many lines\n"),
                         (b" " * 1048576, b""), (b" " * 1048577, b"text too long\n")):
        same(f"printed for {text[:20]}", printed(text), wanted)


def mnemonics_agree(same, rng):
    """A word of R-format, lw or sw as `watch` would write it gives the word
    again, so the table of `watch` and the assembler read alike."""
    for _ in range(3000):
        word = rng.pick((0, 35, 43)) << 26 | rng.word() >> 6
        if word >> 26 == 0:
            word = word & ~0x7FF | rng.pick((32, 34, 36, 37, 42))
        same(mnemonic(word), outcome(0, 1, mnemonic(word)), [word])


def targets_agree(same, rng):
    """By document 01's targets a beq or j goes where its label stands, and a
    j is refused exactly where none of its fields would take it there."""
    reached = 0
    for _ in range(2000):
        start = rng.pick((0, 0x10000000, 0xF0000000, rng.word())) - 4 * rng.below(12) & ~3
        start, at, to, name = start & 0xFFFFFFFF, rng.below(9), rng.below(10), rng.below(2)
        lines = [".word 00000000"] * 9 + [""]
        lines[at] = ("beq $1,$2,x", "j x")[name]
        lines[to] = "x:" + lines[to]
        following, target = ((start + 4 * count) % 2**32 for count in (at + 1, to))
        got = outcome(start, 9, "\n".join(lines))
        if name and words.jump_target(following, target >> 2 & 0x3FFFFFF) != target:
            same("reach", got, (OUT_OF_REACH, at + 1))
            continue
        kind, *fields = words.decode(got[at])
        same("kind", kind, (words.BEQ, words.J)[name])
        same("target", words.jump_target(following, fields[0]) if name
             else words.branch_target(following, fields[2]), target)
        reached += 1
    same("worth", 1000 < reached < 1900, True)
