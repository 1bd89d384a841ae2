"""Lines for the run of the four fixed units."""

from model.rng import Rng

from .common import (BUDGETS, EDGE_WORDS, FUNCTIONS, LARGEST_BUDGET, OPCODES,
                     SIZES, UNKNOWN_OPCODE, add, beq, corrupted, image, j,
                     line, lw, machine, r_format, run, slt, sw)
from .programs import (counting_loop, endless_loop, random_image,
                       random_registers, random_size, refused_last,
                       self_modifying)

UNITS = range(4)
RANDOM_LINES = 1200
SEED = 3
# Addresses about the edges of a 64-word image and of the 32 bits.
ADDRESSES = (0, 1, 2, 3, 4, 0xF8, 0xFC, 0xFD, 0xFE, 0x100, 0x101, 0x10000,
             0x10000000, 0x80000000, 0xFFFFFFFC, 0xFFFFFFFD, 0xFFFFFFFF)


def odd_machine(rng, state, **given):
    """Latches that need not fit together, some registers, garbage in r0."""
    latches = {name: rng.word() for name in ("MDR", "A", "B")}
    latches.update(PC=4 * rng.below(70), ALUOut=4 * rng.below(70),
                   IR=rng.pick(OPCODES) << 26 | rng.below(1 << 26))
    if rng.chance(1, 2):
        latches["IR"] = latches["IR"] & ~0x7FF | rng.pick(FUNCTIONS)
    if rng.chance(1, 4):
        latches["B"] = latches["A"]
    if rng.chance(1, 8):
        latches[rng.pick(("PC", "ALUOut"))] = rng.word()
    cells = {0: rng.word() if rng.chance(1, 3) else 0}
    cells.update((rng.below(32), rng.word()) for _ in range(5))
    latches.update(given)
    return machine(state, cells, **latches)


def each_state(rng):
    """One cycle from each of the ten states, each unit, odd latches."""
    return [run(unit, 1, odd_machine(rng, state), 0x40, {state: rng.word()})
            for state in range(10) for unit in UNITS for _ in range(8)]


def every_opcode_at_a_dispatch(rng):
    """All 64 opcodes in states 1 and 2 of each unit: refusal 3 where the
    dispatch has no entry."""
    return [run(unit, 1, machine(state, {3: 7}, PC=8, A=5,
                                 IR=opcode << 26 | 0x00630000 | rng.below(99)),
                0x10, {}) for opcode in range(64) for state in (1, 2)
            for unit in UNITS]


def opcode_plays_no_part(_):
    """States 3 to 9 of each unit under opcodes that are not theirs."""
    return [run(unit, 1, machine(state, {3: 7}, PC=0x10, A=9, B=9, MDR=0x77,
                                 ALUOut=0x20, IR=opcode << 26 | add(4, 3, 3)),
                0x10, {}) for unit in UNITS for state in range(3, 10)
            for opcode in (0, 1, 2, 3, 4, 15, 35, 43, 63)]


def refused_starts(_):
    """Start states that no fixed unit has; budget 0 is refused as well."""
    return [run(unit, budget, machine(state, PC=4, IR=lw(1, 0, 0)), 0x40, {})
            for state in (10, 11, 15, 16, 17, 0xFF, 0x100, 0x10000,
                          0x80000000, 0xFFFFFFFF)
            for unit in UNITS for budget in (0, 1)]


def order_before_a_run(_):
    """6 before 7 before 5, over every size, budget and start."""
    lines = []
    for size in SIZES:
        cells = {0: UNKNOWN_OPCODE} if size else {}
        for budget in BUDGETS:
            lines += [run((size + budget + state) % 4, budget,
                          machine(state, PC=0), size, cells)
                      for state in (0, 9, 10, 0xFFFFFFFF)]
    return lines


def sizes_and_last_words(_):
    """A store to the last word of each good image size, then the fetch of
    what follows; each unit."""
    return [run(unit, budget, machine(0, {2: 0xABCD, 3: 4 * size - 4}), size,
                {0: sw(2, 0, 3)}) for size in SIZES[1:4] for unit in UNITS
            for budget in (3, 4, 5, LARGEST_BUDGET)]


def budgets_in_a_loop(_):
    """Budgets 0 to 100 on a loop through all five paths, each unit."""
    return [run(unit, budget, machine(0, {2: 3}), 0x20, endless_loop())
            for budget in range(101) for unit in UNITS]


def budgets_to_the_end(_):
    """A loop that ends in refusal 4, budgets to past its end."""
    return [run(budget % 4, budget, machine(0, {2: 1, 3: 3, 4: 9}), 5,
                counting_loop())
            for budget in [*range(60), LARGEST_BUDGET, LARGEST_BUDGET + 1]]


def unknown_functions(_):
    """State 6 under all 64 functions, and the five with bits 10-6 not zero."""
    functions = [*range(64)] + [function | 1 << bit for function in FUNCTIONS
                                for bit in range(6, 11)]
    return [run(at % 4, 2, machine(6, {3: 9}, PC=4, A=0x80000000, B=1,
                                   IR=r_format(function, 3, 1, 2)), 2, {})
            for at, function in enumerate(functions)]


def function_edges(_):
    """State 6 and 7 of the five functions on pairs of edge words."""
    return [run((at + FUNCTIONS.index(function)) % 4, 2,
                machine(6, A=first, B=EDGE_WORDS[at],
                        IR=r_format(function, 3, 1, 2)), 1, {})
            for function in FUNCTIONS for first in EDGE_WORDS
            for at in range(8)]


def memory_addresses(_):
    """State 0 by PC, states 3 and 5 by ALUOut, about the edges; the other
    of the two is always an address that would do."""
    lines = []
    for at, address in enumerate(ADDRESSES):
        for state in (0, 3, 5):
            for unit in UNITS if at % 4 == 0 else (at % 4,):
                good, bad = {"PC": 8, "ALUOut": 8}, {"PC": address}
                if state:
                    bad = {"ALUOut": address}
                start = machine(state, {2: 3}, MDR=0x11, B=0x22,
                                IR=lw(2, 0, 1), **{**good, **bad})
                lines.append(run(unit, 1, start, 0x40,
                                 {0: 0x33, 2: 0x44, 0x3F: 0x55}))
    return lines


def address_not_used(_):
    """States that touch no memory take any PC and ALUOut."""
    return [run((state + at) % 4, 1,
                machine(state, {1: 5}, PC=address, ALUOut=address ^ 2, A=6,
                        B=6, IR=r_format(32, 1, 1, 1)), 1, {})
            for state in (1, 4, 6, 7, 8, 9)
            for at, address in enumerate(ADDRESSES)]


def branch_completion(_):
    """State 8 takes the old ALUOut, and only if A equals B."""
    return [run((at + other) % 4, 2,
                machine(8, {1: 7, 2: 7}, PC=0x20, A=first, B=first + other,
                        ALUOut=target, IR=beq(1, 2, 5)), 0x40, {})
            for at, first in enumerate((0, 0x7FFFFFFF, 0xFFFFFFF0))
            for other in (0, 1, 15)
            for target in (0, 0x20, 0xFE, 0x100, 0xFFFE0004)]


def branch_targets(_):
    """State 1 works out the branch target from PC, wrapping; the whole
    branch follows it."""
    return [run((at + budget) % 4, budget,
                machine(1, PC=pc, IR=beq(0, 0, field)), 0x40, {})
            for at, pc in enumerate((4, 0xC, 0xFC, 0xFFFFFFFC, 0x7FFFFFFC))
            for field in (0, 1, -1, -4, 0x7FFF, -0x8000) for budget in (1, 3)]


def jump_targets(_):
    """State 9 keeps the upper four bits of the current PC."""
    return [run(at % 4, 1, machine(9, PC=pc, IR=j(field)), 1, {})
            for at, pc in enumerate((4, 0x0FFFFFFC, 0x10000000, 0x1FFFFFFF,
                                     0x80000004, 0xF0000000, 0xFFFFFFFC))
            for field in (0, 1, 0x2000000, 0x3FFFFFF)]


def register_zero(_):
    """Writes to register 0 are dropped, its cell is neither read nor
    written: states 4 and 7, A and B, whole instructions."""
    lines = []
    for garbage in (0, 0x63, 0xFFFFFFFF):
        cells = {0: garbage, 1: 0x63, 2: 5}
        lines += [run(unit, 1, machine(state, cells, MDR=0x77, ALUOut=0x88,
                                       IR=r_format(32, rd, 0, rt)), 1, {})
                  for unit in UNITS for state in (4, 7)
                  for rd, rt in ((0, 0), (0, 1), (1, 0), (1, 1))]
        tries = (add(0, 1, 2), lw(0, 8, 0), sw(0, 8, 0), add(3, 0, 2),
                 slt(3, 2, 0), beq(0, 1, 1), beq(0, 0, 1))
        lines += [run(at % 4, 5, machine(0, cells), 4, {0: word, 2: 0xBEEF})
                  for at, word in enumerate(tries)]
    return lines


def refusals_in_each_position(_):
    """Each refusal after none to three good instructions."""
    return [run((position + at) % 4, LARGEST_BUDGET, machine(0, {10: 1}), 0x40,
                words) for position in range(4)
            for at, words in enumerate(refused_last(position))]


def self_modified(_):
    """Stores over instructions to come, running and done."""
    return [run((at + half) % 4, budget, machine(0, {10: 3}), 0x10, cells)
            for at, cells in enumerate(self_modifying())
            for half, budget in enumerate((9, 60))]


def bench_samples(_):
    """The two inputs of document 01's last sample, each unit."""
    words = [0x8C01000C, 0x00211020, 0x08000004, 7, 0xFC000000]
    return [run(unit, 1000, machine(0), 0x40, held) for unit in UNITS
            for held in (words, [])]


def bad_shapes(_):
    """Units that there are not, numbers missing and too many."""
    start, held = machine(0), image(2, {1: 5})
    lines = [line("run", unit, 1, start, held)
             for unit in (4, 5, 0xFF, 0xFFFFFFFF)]
    return lines + [line("run", 0, 1, start[:-1], [0] * count, held)
                    for count in (31, 33)] + [
        line("run", 0, start, held), line("run", 0, 1, start),
        line("run", 0, 1, start, held, 0), line("run", 0, 1, start, 2, 0),
        line("run", 0, 1, start, image(2, {2: 5})),
        line("run", 0, 1, start, image(0x4002))]


def long_runs(_):
    """The largest budget, spent to the last cycle."""
    return [run(unit, LARGEST_BUDGET, machine(0, {2: 3}), 0x40, endless_loop())
            for unit in (1, 3)]


def random_run(rng):
    """A random program from state 0 or, with odd latches, from any state."""
    size = random_size(rng)
    cells, base = random_image(rng, size)
    held = random_registers(rng, min(size, 64))
    pc = 4 * base if rng.chance(15, 16) else rng.word() >> rng.below(32)
    budget = rng.below(120) if rng.chance(31, 32) else LARGEST_BUDGET + 1
    start = machine(0, held, PC=pc)
    if rng.chance(1, 3):
        word = cells.get(base, 0)
        state = rng.below(10) if rng.chance(15, 16) else rng.pick((10, 15, 16))
        start = machine(state, held, PC=pc + 4 & 0xFFFFFFFF, IR=word,
                        A=rng.word(), B=held[2], MDR=rng.word(),
                        ALUOut=held[1])
    elif rng.chance(1, 2):
        start = odd_machine(rng, 0, PC=pc)[:-1] + [start[-1]]
    return run(rng.below(4), budget, start, size, cells)


def random_cycle(rng):
    """One to four cycles from odd latches in any state."""
    return run(rng.below(4), rng.between(1, 4),
               odd_machine(rng, rng.below(10)), 0x40,
               {rng.below(64): rng.word()})


def fresh(rng):
    """One random line of this module's mix."""
    text = rng.pick((random_run, random_run, random_cycle))(rng)
    return corrupted(rng, text) if rng.chance(1, 24) else text


EDGES = (each_state, every_opcode_at_a_dispatch, opcode_plays_no_part,
         refused_starts, order_before_a_run, sizes_and_last_words,
         budgets_in_a_loop, budgets_to_the_end, unknown_functions,
         function_edges, memory_addresses, address_not_used,
         branch_completion, branch_targets, jump_targets, register_zero,
         refusals_in_each_position, self_modified, bench_samples,
         bad_shapes, long_runs)


def lines():
    """The fixed vectors: every family of edges, then random lines."""
    rng = Rng(SEED)
    edges = [text for family in EDGES for text in family(rng)]
    return edges + [fresh(rng) for _ in range(RANDOM_LINES)]
