"""Runs that are refused an access to memory: programs on every engine, and
the four units from the middle of an instruction."""

from .common import add, beq, j, lw, machine, program, run, single, sw
from .programs import (overwrite, random_access, random_image,
                       random_registers)
from .store import run as store_run
from .stores import FIXED

MASK = 0xFFFFFFFF
UNITS = range(4)
SIZES = (1, 2, 0x40, 0x4000)
BUDGET = 60
# What the latches hold that are not looked at: no good addresses, so that an
# answer with the address of another latch is another answer.
LATCHES = {"PC": 0x11111112, "IR": lw(2, 0x66, 1), "MDR": 0x22222221,
           "A": 0x33333334, "B": 0x44444443, "ALUOut": 0x55555554}
# Refused by 64 words: eight that are no multiples of 4, the last three of them
# outside too, where 1 comes before 2; and five multiples of 4 outside.
ADDRESSES = (1, 2, 3, 0xFD, 0xFE, 0x102, 0xFFFFFFFE, 0xFFFFFFFF,
             0x100, 0x104, 0x10000, 0x80000000, 0xFFFFFFFC)


def latched(state, cells=None, **given):
    """A machine whose latches hold what is given, and else bad addresses."""
    return machine(state, cells, **{**LATCHES, **given})


def on_every_engine(pc, cells, size, words, base=0):
    """The same start on the single-cycle machine, the four units and the
    fixed store: "the two machines report the same address and kind"."""
    start, held = latched(0, cells, PC=pc), program(words, base)
    return [single(BUDGET, pc, cells, size, held),
            store_run(FIXED, BUDGET, start, size, held),
            *(run(unit, BUDGET, start, size, held) for unit in UNITS)]


def refused_by(size):
    """Addresses that an image refuses: in its first and its last word, past
    it and at the end of the 32 bits; the first past it, and far from it."""
    past = 4 * size
    return (3, past - 2, past + 1, 0xFFFFFFFF,
            past, past + 4, 0x40000000 + past - 4, 0xFFFFFFFC)


def fetches(_):
    """The first fetch, at each address that an image of each size refuses."""
    return [text for size in SIZES for address in refused_by(size)
            for text in on_every_engine(address, {1: address ^ 4}, size,
                                        [lw(1, 0, 1)])]


def data(_):
    """A load and a store in the last word, to the same addresses, with
    fields of both signs; into and from register 0 too."""
    lines = []
    for size in SIZES:
        for at, address in enumerate(refused_by(size)):
            field = (0, -4, 0x7FFC, 1, -0x8000)[(at + size) % 5]
            cells = {5: address - field & MASK, 7: 0x99}
            number = 0 if at % 3 == 2 else 7
            for word in (lw(number, field, 5), sw(number, field, 5)):
                lines += on_every_engine(4 * size - 4, cells, size, [word],
                                         size - 1)
    return lines


def wrapped_sums(_):
    """Bases and fields whose sum wraps modulo 2^32, or nearly does."""
    sums = ((0xFFFFFFFC, 0x104), (0xFFFFFFFC, 6), (0xFFFFFFFC, 0),
            (0xFFFFFFFF, 0x102), (0x7FFFFFFF, 1), (0x80000000, -0x8000),
            (4, -8), (0, -1), (0x7FFF, -0x8000), (0xFFFF8000, 0x7FFE))
    return [text for base, field in sums for word in (lw, sw)
            for text in on_every_engine(8, {9: base, 8: base ^ 1}, 0x40,
                                        [word(8, field, 9)], 2)]


def targets_outside(_):
    """Jumps and branches to words that there are not, and instructions in
    the last word, after which there is none."""
    far = [(0x40, 0, word) for word in (j(0x40), j(0x3FFFFFF), j(0x2000000),
                                        beq(0, 0, 0x3F), beq(0, 0, -2),
                                        beq(0, 0, -0x8000), beq(1, 1, 0x7FFF))]
    last = [(size, size - 1, word) for size, word in
            ((1, beq(0, 0, -2)), (1, j(1)), (2, sw(1, 0, 0)), (2, beq(0, 1, -1)),
             (0x40, add(2, 1, 1)), (0x40, lw(2, 0, 0)), (0x4000, j(0x4000)))]
    return [text for size, base, word in far + last
            for text in on_every_engine(4 * base, {1: 0x77}, size, [word], base)]


def pointers(_):
    """Addresses that the program has loaded, and instructions that it has
    stored over others."""
    lines = []
    for pointer in (0xFE, 0x100, 0xFFFFFFFF, 0xFFFFFF00):
        for word in (lw(2, 0, 1), sw(1, 0, 1)):
            lines += on_every_engine(0, {}, 0x40, [lw(1, 8, 0), word, pointer])
    for patch in (lw(3, 0x43, 0), sw(8, 0x40, 0), j(0x10)):
        lines += on_every_engine(0, {10: 3}, 0x10,
                                 list(overwrite(patch, 2).values()))
    return lines


def refused_fourth(position):
    """Programs refused in the fourth cycle after so many idle instructions
    of four cycles each, and the instructions before the refused one."""
    idle = [add(9, 9, 11)] * position
    return [(idle + [word], position + skipped) for word, skipped in
            ((lw(1, 0xFE, 0), 0), (lw(1, 0x100, 0), 0), (sw(1, 0xFE, 0), 0),
             (sw(1, 0x100, 0), 0), (j(0x40), 1), (beq(0, 0, -0x8000), 1))]


def budgets(_):
    """The refused cycle is the budget's last, one in its middle, and, the run
    then being spent, the first past it."""
    lines = []
    for position in range(4):
        for at, (words, done) in enumerate(refused_fourth(position)):
            cycle = 4 * position + 4
            unit, start = (position + at) % 4, latched(0, {11: 6}, PC=0)
            for budget in (cycle, 2 * cycle) + (cycle - 1,) * (position < 2):
                lines.append(run(unit, budget, start, 0x40, words))
            for budget in (done + 1, 2 * done + 2) + (done,) * (position < 2):
                lines.append(single(budget, 0, {11: 6}, 0x40, words))
            for budget in (cycle,) + (cycle - 1,) * (position == 1):
                lines.append(store_run(FIXED, budget, start, 0x40, words))
    return lines


def first_cycles(_):
    """State 0 by PC, states 3 and 5 by ALUOut, refused in the first cycle;
    the single-cycle machine's first fetch."""
    lines = [run(unit, (1, 2, 9)[(at + unit) % 3],
                 latched(state, {2: 0x88},
                         **{"ALUOut" if state else "PC": address}), 0x40, {})
             for at, address in enumerate(ADDRESSES) for state in (0, 3, 5)
             for unit in UNITS]
    return lines + [single(1 + at, address, {2: address ^ 1}, 0x40, [sw(2, 0, 2)])
                    for at, address in enumerate(ADDRESSES)]


def addresses_on_their_way(_):
    """Started in state 1 or 2 of a load or a store: the address comes from
    the register, or from A."""
    lines = []
    for at, address in enumerate((0xFE, 0x101, 0x100, 0xFFFFFFFC, 0x7FFFFFFF)):
        for kind, word in enumerate((lw(4, -4, 3), sw(4, -4, 3))):
            base = address + 4 & MASK
            for state, given in ((1, {}), (2, {"A": base})):
                start = latched(state, {3: base}, PC=8, IR=word, **given)
                lines += [run((at + kind + more) % 4, 4 - state + 3 * more,
                              start, 0x40, {}) for more in (0, 1)]
    return lines


def then_a_fetch(_):
    """The end of an instruction, then the fetch: a branch taken to ALUOut,
    one not taken, and after states 4, 5, 7 and 9 by their PC."""
    lines = []
    for at, address in enumerate((2, 0xFF, 0xFFFFFFFD, 0x100, 0x7FFFFFFC,
                                  0xFFFE0004)):
        taken = latched(8, {}, PC=8, A=6, B=6, IR=beq(1, 2, 3), ALUOut=address)
        lines += [run(unit, 2 + at, taken, 0x40, {}) for unit in UNITS]
        for state in (4, 5, 7, 8, 9):
            start = latched(state, {2: 5}, PC=address, ALUOut=8,
                            IR=j(0x3FFFFC0 + at) | 0x20)
            lines.append(run((at + state) % 4, 2 + state, start, 0x40, {}))
    return lines


def random_address(rng, size):
    """An address that an image of `size` words refuses, as a rule."""
    return rng.pick((4 * size + 4 * rng.below(3), 4 * size - rng.between(1, 3),
                     MASK - rng.below(9), rng.word(), rng.word() & ~3))


def random_start(rng):
    """A random program with more accesses than others, and bad addresses in
    its pointers: the size of its image, its cells, its base word and its
    registers."""
    size = rng.pick((1, 2, 5, 0x20, 0x40, 0x40, 0x40, 0x4000))
    cells, base = random_image(rng, size)
    for at in sorted(cells):
        if rng.chance(1, 4):
            cells[at] = random_access(rng)
    held = random_registers(rng, min(size, 64))
    for number in range(1, 8):
        if rng.chance(2, 3):
            held[number] = random_address(rng, size)
    return size, cells, base, held


def random_single(rng):
    """The single-cycle machine, now and then from a bad PC."""
    size, cells, base, held = random_start(rng)
    pc = 4 * base if rng.chance(3, 4) else random_address(rng, size)
    return single(rng.between(8, 40), pc, held, size, cells)


def random_run(rng):
    """A unit, from a fetch or from the middle of an instruction, with bad
    addresses in the latches."""
    size, cells, base, held = random_start(rng)
    given = {name: random_address(rng, size) for name in LATCHES if name != "IR"}
    if rng.chance(2, 3):
        given["PC"] = 4 * base
    state = rng.pick((0, 0, 0, rng.below(10), 3, 5, 8))
    start = machine(state, held, IR=rng.pick(list(cells.values())), **given)
    budget = rng.pick((rng.between(60, 400), rng.between(12, 60),
                       rng.between(1, 6)))
    return run(rng.below(4), budget, start, size, cells)


EDGES = (fetches, data, wrapped_sums, targets_outside, pointers, budgets,
         first_cycles, addresses_on_their_way, then_a_fetch)
