"""Programs for both machines: random ones, and self-modifying ones."""

from .common import (EDGE_WORDS, FUNCTIONS, UNKNOWN_OPCODE, add, beq, i_format,
                     j, lw, r_format, sub, sw)

POINTERS = range(1, 8)     # registers that hold addresses in random programs


def random_r_format(rng):
    """One of the five functions on any registers."""
    target = rng.below(32) if rng.chance(1, 16) else rng.between(8, 31)
    return r_format(rng.pick(FUNCTIONS), target, rng.below(32), rng.below(32))


def random_access(rng):
    """A load or a store, mostly by a register that points into the image."""
    base = rng.pick(POINTERS) if rng.chance(31, 32) else rng.below(32)
    target = rng.below(32) if rng.chance(1, 16) else rng.between(8, 31)
    field = 4 * rng.between(-4, 8)
    if rng.chance(1, 64):
        field = rng.word()
    return i_format(rng.pick((35, 43)), base, target, field)


def random_branch(rng, at, length):
    """A branch from word `at` within a program of `length` words, of equal
    registers about half the time."""
    source = rng.below(32)
    target = source if rng.chance(1, 2) else rng.below(32)
    if rng.chance(1, 64):
        return beq(source, target, rng.word())
    return beq(source, target, rng.below(length) - at - 1)


def random_instruction(rng, base, at, length):
    """Word `at` of a program of `length` words, now and then unknown."""
    way = rng.below(64)
    if way < 24:
        return random_r_format(rng)
    if way < 44:
        return random_access(rng)
    if way < 56:
        return random_branch(rng, at, length)
    if way < 62:
        return j(base + rng.below(length))
    if way == 62:
        return r_format(rng.below(2048), rng.below(32), rng.below(32), 0)
    return rng.word()


def random_program(rng, base, length):
    """A program at word `base`; mostly it ends in a jump to its start."""
    words = [random_instruction(rng, base, at, length)
             for at in range(length)]
    if rng.chance(3, 4):
        words[-1] = j(base)
    return words


def random_registers(rng, size):
    """Cells by number: pointers into the image, edges, any words."""
    cells = {number: 4 * (rng.between(4, size - 9) if size > 12
                          else rng.below(size + 1)) for number in POINTERS}
    for _ in range(rng.below(6)):
        cells[rng.between(8, 31)] = rng.pick(EDGE_WORDS)
    for _ in range(rng.below(4)):
        cells[rng.pick((0, *range(8, 32)))] = rng.word()
    if rng.chance(1, 8):
        cells[rng.pick(POINTERS)] = rng.word() >> rng.below(32)
    return cells


def random_size(rng):
    """An image size, most often 64 words."""
    return rng.pick((0x40,) * 40 + (1, 2, 0x20, 0x4000, 0x4000, 0, 0x4001))


def random_image(rng, size):
    """A program's cells with some data beside it, and its base word."""
    if size == 0:
        return {}, 0
    length = rng.between(1, min(size, 24))
    base = rng.below(min(size, 64) - length + 1)
    cells = {base + at: word for at, word
             in enumerate(random_program(rng, base, length))}
    for _ in range(rng.below(6)):
        cells.setdefault(rng.below(min(size, 64)), rng.word())
    return cells, base


def overwrite(patch, target, before=0):
    """A program that stores `patch` over its own word `target`. `before`
    idle instructions come first; word 15 holds the patch."""
    words = [add(9, 9, 9)] * before + [lw(8, 60, 0), sw(8, 4 * target, 0)]
    words += [add(10, 10, 8)] * (15 - len(words))
    return {**dict(enumerate(words)), 15: patch}


def self_modifying():
    """Programs that store over instructions to come, the one running, and
    ones already run."""
    patches = (add(11, 8, 8), lw(12, 60, 0), beq(0, 0, -1), j(0), 0,
               UNKNOWN_OPCODE, sw(8, 2, 0), lw(3, 0x100, 0))
    return [overwrite(patch, target) for patch in patches
            for target in (0, 1, 2, 3, 6)]


def counting_loop():
    """Adds $2 to $1 until it is $3, then meets a word of zeros; four
    instructions a turn."""
    return [beq(1, 3, 3), add(1, 1, 2), sub(4, 4, 2), j(0), 0]


def endless_loop():
    """A loop through all five paths of the control that never ends."""
    return [add(1, 1, 2), sw(1, 0x40, 0), lw(3, 0x40, 0), beq(0, 0, 1), 0,
            beq(1, 4, 1), j(0)]


def refused_last(position):
    """Programs whose instruction at `position` is refused: each refusal of a
    fetch, of the words themselves, and of the data, after idle ones."""
    idle = [add(9, 9, 10)] * position
    bad = {"unknown opcode": [UNKNOWN_OPCODE], "unknown function": [0],
           "shift amount": [add(1, 1, 1) | 0x40],
           "load misaligned": [lw(1, 2, 0)], "load outside": [lw(1, 0x100, 0)],
           "store misaligned": [sw(1, 0xFD, 0)],
           "store outside": [sw(1, -4, 0)],
           "fetch outside by jump": [j(0x40)],
           "fetch outside by branch": [beq(0, 0, 0x3F)],
           "fetch outside below": [beq(0, 0, -2 - position)]}
    return [idle + words for words in bad.values()]
