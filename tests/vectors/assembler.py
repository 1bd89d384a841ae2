"""Lines for the assembler: random texts, texts damaged at random and lines
that are no case, with those about reading, refusals and full sheets beside
them."""

import sys
from collections import Counter

from model.refusal import (DEFINED_ABOVE, MISALIGNED, OUT_OF_REACH,
                           OUTPUT_SHORT, TOO_MANY_LINES, UNKNOWN_LABEL,
                           UNREADABLE)
from model.replay import BAD_CASE, answer
from model.rng import Rng

from . import asmfull, asmreading, asmrefusals
from .asmtexts import (NAMES, ROOM, assembled, random_address, random_lines,
                       random_name, text_of)
from .common import corrupted

RANDOM_LINES = 600
SEED = 6
DAMAGES = 500
LEAST_TEXTS = 2500      # among the fixed lines
LEAST_BAD_CASES = 60
LEAST_OF_A_NAME = 300   # of a statement, in texts that are assembled
LEAST_IN_A_PLACE = 40   # of a refusal, on first, middle and last lines
# Of a refusal; 24 needs a text of 4,097 lines.
LEAST = {0: 700, MISALIGNED: 200, OUTPUT_SHORT: 50, UNREADABLE: 2000,
         DEFINED_ABOVE: 300, UNKNOWN_LABEL: 300, OUT_OF_REACH: 300,
         TOO_MANY_LINES: 6}
GOOD = b"assemble 0 2 613a6a20610a"     # `a:j a`


def bad_shapes(_):
    """Parts missing, too many, misspelt or out of range; and good lines that
    look odd."""
    tails = ("", " ", " 0", " 0 ", " 0 2", " 0 2 ", " 0 2  613a", "  0 2 613a", " 0  2 613a",
             " 0 2 613a ", " 0 2 613a 0", " 0 2 613a 613a", " 0 2 613a -", " 0 2 - ",
             " 0 2 - -", " 0 2 - 613a", " 0 2 --", " 0 2 -613a", " 0 2 613a-", " 0 2 6-13a",
             " 0 2 6", " 0 2 613", " 0 2 613a6", " 0 2 613A", " 0 2 6A", " 0 2 613g", " 0 2 0x61",
             " 0 2 61:3a", " 0 2 613a\r", " 0 2 61\t3a", " 0 2\t613a", " 0 2 61\x003a", " 0 2 +",
             " 0 1001 -", " 0 1001 613a", " 0 10000 -", " 0 ffffffff -", " 0 100000000 -",
             " 0 000001000 -", " 0 00001001 -", " 0 F -", " 0 -1 -", " 0 - -", " - 2 -",
             " 100000000 2 -", " 000000000 2 -", " A 2 -", " g 2 -", " 0x0 2 -", " -1 2 -",
             " 1 2 613", " 0 2 \xe9", " 0 1001 0", " 3 1001 -", " 0 2 613a,613a", " 0 2 'a'",
             " 0 2 a:", " 0 0 -", " 0 1000 -", " 00000000 00001000 -", " ffffffff 0 -",
             " fffffffc 1000 -", " 0 2 00", " 0 2 0a", " 0 2 ff", " 0 0 20", " 0 02 613a6a2061")
    lines = [b"assemble" + tail.encode("latin-1") for tail in tails]
    return lines + [word + GOOD[8:] for word in (b"Assemble", b"ASSEMBLE", b"assembl", b"assembles",
                                                 b" assemble", b"asm", b"assemble,", b"assemble\t")]


def damaged(rng, text, way=None):
    """A text with a byte changed, dropped, doubled or put in, or with two of
    its lines changed about."""
    at = rng.below(max(len(text), 1))
    other = chr(rng.pick((rng.below(256), ord(rng.pick("azAZ09$,:()-. \t\n\r")))))
    way = rng.below(5) if way is None else way
    if way == 4:
        lines = text.split("\n")
        one, two = rng.below(len(lines)), rng.below(len(lines))
        lines[one], lines[two] = lines[two], lines[one]
        return "\n".join(lines)
    new = (other, "", text[at:at + 1] * 2, text[at:at + 1] + other)[way]
    return text[:at] + new + text[at + 1:]


def random_good(rng):
    """A text that assembles, unless a j is out of reach or room is short."""
    lines = random_lines(rng)
    words = sum(bool(line.rpartition(":")[2].strip(" \t")) for line in lines)
    room = rng.pick((ROOM, ROOM, words, words + 1, max(words - 1, 0)))
    return assembled(text_of(rng, lines), random_address(rng), room)


def random_bad(rng):
    """A text with one to three bad lines put in or in the place of others."""
    lines = random_lines(rng)
    labels = [line.split(":")[0].strip() for line in lines if ":" in line]
    for _ in range(rng.between(1, 3)):
        label = rng.pick(labels)
        bad = rng.pick((f"{label}:", f"j {random_name(rng)}", f"{label}: j {label}", "?",
                        f"beq $1,$2,{random_name(rng)}", f"{label}:?", f"j {label} {label}",
                        f"j {label.swapcase()}", f"{random_name(rng)}: lw $1,32768($2)"))
        at = rng.below(len(lines) + 1)
        lines[at:at + rng.below(2)] = [bad]
    address = random_address(rng) + (rng.below(4) if rng.chance(1, 12) else 0)
    return assembled(text_of(rng, lines), address, rng.pick((ROOM, ROOM, 12, 6, 0)))


def random_damaged(rng, way=None):
    """A good text, damaged in one place, or seldom in two."""
    text = damaged(rng, text_of(rng, random_lines(rng)), way)
    if rng.chance(1, 8):
        text = damaged(rng, text)
    return assembled(text, random_address(rng))


def damages(rng):
    """So many texts damaged, each way as often."""
    return [random_damaged(rng, number % 5) for number in range(DAMAGES)]


def fresh(rng):
    """One random line of this module's mix."""
    text = rng.pick((random_good, random_good, random_bad, random_damaged))(rng)
    return corrupted(rng, text) if rng.chance(1, 24) else text


EDGES = (bad_shapes, damages)


def text_in(line):
    """The bytes that an `assemble` line holds."""
    digits = line.split(b" ")[3]
    return b"" if digits == b"-" else bytes.fromhex(digits.decode())


def place(lines, number):
    """Where a line of a text stands, by its number."""
    return "first" if number == 1 else "last" if number == lines else "middle"


def counted(made):
    """How often each refusal comes, with the place of its line where it has
    one, how often each name of a statement is assembled, and bad cases."""
    counts = Counter()
    for line in made:
        told = answer(line)
        if told == BAD_CASE:
            counts[BAD_CASE] += 1
            continue
        refusal, *numbers = (int(part, 16) for part in told.split())
        lines = text_in(line).removesuffix(b"\n").split(b"\n")
        counts[refusal] += 1
        if UNREADABLE <= refusal <= OUT_OF_REACH:
            counts[refusal, place(len(lines), *numbers)] += 1
        elif refusal == 0:
            statements = [text.rpartition(b":")[2].split() for text in lines]
            counts.update(parts[0].decode() for parts in statements if parts)
    return counts


def hold_to_their_worth(made):
    """Ends the making, saying why, where a refusal, its place or a statement
    is rare, or comes that cannot be. The first line has no line above."""
    counts = counted(made)
    least = {**LEAST, BAD_CASE: LEAST_BAD_CASES, **dict.fromkeys(NAMES, LEAST_OF_A_NAME)}
    least.update(((refusal, where), LEAST_IN_A_PLACE)
                 for refusal in range(UNREADABLE, TOO_MANY_LINES)
                 for where in ("first", "middle", "last")
                 if (refusal, where) != (DEFINED_ABOVE, "first"))
    wrong = [f"{what}: {counts[what]}" for what in (*least, *counts)
             if what not in least or counts[what] < least[what]]
    texts = sum(counts[refusal] for refusal in LEAST)
    if texts < LEAST_TEXTS:
        wrong.append(f"{texts} texts")
    if wrong:
        sys.exit("vectors of the assembler: " + "; ".join(wrong))


def lines():
    """The fixed vectors: every family of edges, then random lines; a line
    that two families make comes once."""
    rng = Rng(SEED)
    families = asmreading.EDGES + asmrefusals.EDGES + asmfull.EDGES + EDGES
    made = [text for family in families for text in family(rng)]
    made += [fresh(rng) for _ in range(RANDOM_LINES)]
    made = list(dict.fromkeys(made))
    hold_to_their_worth(made)
    return made
