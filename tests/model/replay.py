"""Answers one line of `replay`, as REPLAY.md has it."""

import re
import struct

from . import control, single, store as stores, words
from .assembler import assemble
from .image import load
from .multicycle import Machine
from .refusal import NO_INSTRUCTIONS, SPENT, Refusal

LONGEST_LINE = 65536
LARGEST_IMAGE_PART = 0x4001
LARGEST_BUFFER = 0x100
LARGEST_ROOM = 0x1000
BAD_CASE = b"bad case"
NUMBER = re.compile(rb"[0-9a-f]{1,8}")  # "one to eight digits", lower case
OCTETS = re.compile(rb"-|([0-9a-f]{2})+")   # "two digits a byte", or `-`


class BadCase(Exception):
    """ "Anything else is answered `bad case`" """


class Parts:
    """The numbers of a line, taken from left to right."""

    def __init__(self, parts):
        self.parts = parts
        self.taken = 0

    def number(self, most=0xFFFFFFFF):
        """The next number; a bad case if it is missing, misspelt or above
        `most`."""
        if self.taken == len(self.parts):
            raise BadCase
        part = self.parts[self.taken]
        self.taken += 1
        if not NUMBER.fullmatch(part) or int(part, 16) > most:
            raise BadCase
        return int(part, 16)

    def numbers(self, count, most=0xFFFFFFFF):
        """The next `count` numbers; the count is held against the line first,
        since it may be as large as ffffffff."""
        if count > len(self.parts) - self.taken:
            raise BadCase
        return [self.number(most) for _ in range(count)]

    def text(self):
        """ `TEXT`: "two digits a byte, or `-` where it is empty"; a bad case
        if it is missing or misspelt."""
        part = b"".join(self.parts[self.taken:self.taken + 1])
        self.taken += 1
        if not OCTETS.fullmatch(part):
            raise BadCase
        return bytes.fromhex(part.decode().replace("-", ""))

    def end(self):
        """A bad case if any number is left: "a number ... too many"."""
        if self.taken != len(self.parts):
            raise BadCase

    def machine(self):
        """ `MACHINE`: `pc ir mdr a b aluout state r0 .. r31` """
        return Machine(*self.numbers(7), tuple(self.numbers(32)))

    def image(self):
        """ `IMAGE`: `n k i1 v1 .. ik vk`, "a later pair replaces an earlier
        one; each `i` is below n"."""
        image = [0] * self.number(LARGEST_IMAGE_PART)
        pairs = self.numbers(2 * self.number())
        for index, value in zip(pairs[::2], pairs[1::2]):
            if index >= len(image):
                raise BadCase
            image[index] = value
        return image

    def store(self):
        """ `STORE`: `w0 .. w15 e0 .. e63 f0 .. f63`, an entry at most ff."""
        return stores.Store(tuple(self.numbers(16)),
                            tuple(self.numbers(64, 0xFF)),
                            tuple(self.numbers(64, 0xFF)))


def changes(before, after):
    """ `CHANGES`: "the words of the image that differ from those given, by
    rising index, with what they hold now"."""
    if before == after:
        return [0]
    pairs = [(index, new) for index, (old, new) in enumerate(zip(before, after))
             if old != new]
    return [len(pairs)] + [number for pair in pairs for number in pair]


def outcome_numbers(outcome, image):
    """ `REFUSAL cycles instructions MACHINE CHANGES` """
    machine = outcome.machine
    return [*outcome.refusal, outcome.cycles, outcome.instructions,
            *machine[:7], *machine.registers, *changes(image, outcome.image)]


def run_case(parts):
    """ `run U B MACHINE IMAGE` """
    unit, budget = parts.number(3), parts.number()
    machine, image = parts.machine(), parts.image()
    parts.end()
    return outcome_numbers(control.run(unit, budget, machine, image), image)


def store_case(parts):
    """ `store B STORE MACHINE IMAGE` """
    budget, store = parts.number(), parts.store()
    machine, image = parts.machine(), parts.image()
    parts.end()
    return outcome_numbers(stores.run(store, budget, machine, image), image)


def single_case(parts):
    """ `single B pc r0 .. r31 IMAGE` """
    budget, pc, registers = parts.number(), parts.number(), parts.numbers(32)
    image = parts.image()
    parts.end()
    outcome = single.run(budget, pc, registers, image)
    return [*outcome.refusal, outcome.instructions, outcome.pc,
            *outcome.registers, *changes(image, outcome.image)]


def check_case(parts):
    """ `check STORE` """
    store = parts.store()
    parts.end()
    stores.check(store)
    return SPENT


def read_case(parts):
    """ `read n b1 .. bn` """
    octets = bytes(parts.numbers(parts.number(LARGEST_BUFFER), 0xFF))
    parts.end()
    store = stores.read_file(octets)
    return [*SPENT, *store.words, *store.rom1, *store.rom2]


def write_case(parts):
    """ `write n STORE`; "each ee before", and what is refused "writes
    nothing"."""
    length, store = parts.number(LARGEST_BUFFER), parts.store()
    parts.end()
    try:
        return [*SPENT, *stores.write_file(store, length)]
    except Refusal as no:
        return [*no.numbers, *[0xEE] * length]


def decode_case(parts):
    """ `decode W` """
    word = parts.number()
    parts.end()
    return [*SPENT, *words.decode(word)]


def encode_case(parts):
    """ `encode KIND f1 f2 f3`: registers are eight bits wide, the field of
    lw, sw and beq sixteen, that of j thirty-two with two zeros after it."""
    kind = parts.number(8)
    if kind == words.J:
        most = (0xFFFFFFFF, 0, 0)
    else:
        most = (0xFF, 0xFF, 0xFF if kind < words.LW else 0xFFFF)
    fields = [parts.number(one) for one in most]
    parts.end()
    return [*SPENT, words.encode(words.Instruction(kind, *fields))]


def load_case(parts):
    """ `load BASE p w1 .. wp IMAGE`; a refused load "writes nothing"."""
    base = parts.number()
    program = parts.numbers(parts.number())
    image = parts.image()
    parts.end()
    try:
        return [*SPENT, *changes(image, load(image, base, program))]
    except Refusal as no:
        return [*no.numbers, *changes(image, image)]


def average_case(parts):
    """ `average C I`; "cycles divided by instructions, two 32-bit counts, as
    one double division rounded once"."""
    cycles, instructions = parts.number(), parts.number()
    parts.end()
    if instructions == 0:
        raise Refusal(NO_INSTRUCTIONS)
    bits = struct.pack(">d", float(cycles) / float(instructions)).hex()
    return [*SPENT, bits]


def assemble_case(parts):
    """ `assemble ADDRESS ROOM TEXT`; "answers `0 n w1 .. wn`" """
    address, room, text = parts.number(), parts.number(LARGEST_ROOM), parts.text()
    parts.end()
    made = assemble(address, room, text)
    return [*SPENT, len(made), *made]


CASES = {
    "run": run_case, "store": store_case, "single": single_case,
    "check": check_case, "read": read_case, "write": write_case,
    "decode": decode_case, "encode": encode_case, "load": load_case,
    "average": average_case, "assemble": assemble_case,
}


def written(numbers):
    """Numbers in lower-case hexadecimal, parted by one blank, "no trailing
    blank and no leading zeros"; the bits of a double come as text."""
    return " ".join(one if isinstance(one, str) else f"{one:x}"
                    for one in numbers).encode()


def answer(line):
    """The answer to one line, both without their newline."""
    if line == b"":
        return b""
    if len(line) > LONGEST_LINE:
        return BAD_CASE
    word, *parts = line.split(b" ")
    name = word.decode("latin-1")
    if name not in CASES:
        return BAD_CASE
    try:
        return written(CASES[name](Parts(parts)))
    except BadCase:
        return BAD_CASE
    except Refusal as no:
        return written(no.numbers)
