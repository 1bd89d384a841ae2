"""Lines for decode, encode and average."""

from .common import FUNCTIONS, OPCODES, line

REGISTER_EDGES = (0, 1, 0x1F, 0x20, 0xFF)
FIELD_EDGES = (0, 0x7FFF, 0x8000, 0xFFFF)


def decode_every_opcode(rng):
    """All 64 opcodes with all other bits 0, with all 1, and any."""
    return [line("decode", opcode << 26 | rest) for opcode in range(64)
            for rest in (0, 0x3FFFFFF, rng.below(1 << 26))]


def decode_every_function(_):
    """All 64 functions under opcode 0, bits 10-6 zero."""
    return [line("decode", 0x00221800 | function) for function in range(64)]


def decode_shift_amounts(_):
    """The five functions with each of bits 10-6: all eleven are compared."""
    return [line("decode", 0x00221800 | amount << 6 | function)
            for function in FUNCTIONS
            for amount in (0, 1, 2, 4, 8, 16, 31)]


def decode_registers(_):
    """Each register field alone, under every kind."""
    fields = [number << at for number in (1, 16, 31) for at in (11, 16, 21)]
    starts = FUNCTIONS + tuple(opcode << 26 for opcode in OPCODES[1:])
    return [line("decode", start | field) for start in starts
            for field in fields]


def decode_samples(_):
    """The two words of "Samples at the edges", and leading zeros."""
    return [b"decode 8c01000c", b"decode 00211020", b"decode 211020",
            b"decode 0", b"decode 00000000", b"decode ffffffff"]


def encode_r_format(_):
    """Registers 0, 1, 31, 32 and 255 in every place of every function."""
    return [line("encode", kind, rd, rs, rt) for kind in range(5)
            for rd in REGISTER_EDGES for rs in REGISTER_EDGES
            for rt in ((0x1F, 0x20) if kind else REGISTER_EDGES)]


def encode_i_format(_):
    """lw, sw and beq over register and field edges."""
    return [line("encode", kind, first, second, field) for kind in (5, 6, 7)
            for first in REGISTER_EDGES for second in (0, 0x1F, 0x20, 0xFF)
            for field in FIELD_EDGES]


def encode_jump(_):
    """j fields about 2^26, and other than zeros after them."""
    fields = (0, 1, 0x1FFFFFF, 0x2000000, 0x3FFFFFE, 0x3FFFFFF, 0x4000000,
              0x4000001, 0x7FFFFFF, 0x80000000, 0xFFFFFFFF)
    good = [line("encode", 8, field, 0, 0) for field in fields]
    return good + [line("encode", 8, field, *rest)
                   for field in (0, 0x3FFFFFF, 0x4000000)
                   for rest in ((1, 0), (0, 1), (0xFF, 0xFFFF), (0, 0x10000))]


def encode_wide(_):
    """Fields that their types cannot hold, in each place, and a ninth kind."""
    lines = []
    for kind in (0, 4, 5, 6, 7):
        wide = 0x100 if kind < 5 else 0x10000
        for place, value in ((0, 0x100), (1, 0x100), (2, wide),
                             (0, 0xFFFFFFFF), (1, 0xFFFFFFFF),
                             (2, 0xFFFFFFFF), (2, 0x100)):
            fields = [1, 1, 1]
            fields[place] = value
            lines.append(line("encode", kind, fields))
    return lines + [line("encode", kind, 0, 0, 0)
                    for kind in (9, 10, 0xFF, 0x100, 0xFFFFFFFF)]


def average_edges(_):
    """No instructions, no cycles, and the largest counts."""
    counts = (0, 1, 2, 3, 7, 10, 0x7FFFFFFF, 0x80000000, 0xFFFFFFFE,
              0xFFFFFFFF)
    return [line("average", cycles, instructions) for cycles in counts
            for instructions in counts]


def hard_rounding(rng, exponent):
    """Counts whose quotient lies as near as can be to half way between two
    doubles of this binary exponent (-1 or more): C times 2^shift is I times
    an odd 54-bit number, plus or minus 1."""
    shift = 53 - exponent
    largest = (1 << 31 - exponent) - 1
    instructions = rng.between(largest // 2, largest) | 1
    inverse = pow(2, -shift, instructions)
    both = (inverse, instructions - inverse)
    if exponent < 0:
        return line("average", max(both), instructions)
    turns = (1 << exponent) + rng.below(1 << exponent)
    return line("average", turns * instructions + rng.pick(both), instructions)


def average_hard(rng):
    """Hard roundings over exponents from -1 to 16."""
    return [hard_rounding(rng, exponent) for exponent in range(-1, 17)
            for _ in range(6)]


def random_decode(rng):
    """Any word, mostly of a known opcode."""
    word = rng.word()
    if rng.chance(3, 4):
        word = rng.pick(OPCODES) << 26 | word & 0x3FFFFFF
        if word >> 26 == 0:
            word = word & ~0x7FF | (rng.pick(FUNCTIONS) ^ (
                1 << rng.below(11) if rng.chance(1, 4) else 0))
    return line("decode", word)


def random_encode(rng):
    """Any kind, registers mostly below 32."""
    kind = rng.below(9)
    if kind == 8:
        return line("encode", 8, rng.word() >> rng.pick((0, 5, 6, 6, 6)), 0, 0)
    fields = [rng.below(32 if rng.chance(9, 10) else 256) for _ in range(3)]
    if kind >= 5:
        fields[2] = rng.below(0x10000)
    return line("encode", kind, fields)


def random_average(rng):
    """Counts of all sizes."""
    if rng.chance(1, 3):
        return hard_rounding(rng, rng.between(-1, 16))
    return line("average", rng.word() >> rng.below(32),
                rng.word() >> rng.below(32))


EDGES = (decode_every_opcode, decode_every_function, decode_shift_amounts,
         decode_registers, decode_samples, encode_r_format, encode_i_format,
         encode_jump, encode_wide, average_edges, average_hard)
RANDOM = (random_decode, random_encode, random_average)
