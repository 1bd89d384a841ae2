"""Lines for stores: their run, with those for the check and for files."""

from model.refusal import Refusal
from model.rng import Rng
from model.store import check, walk

from . import storecheck, storefile
from .common import (FUNCTIONS, LARGEST_BUDGET, UNKNOWN_OPCODE, add, beq,
                     corrupted, image, j, line, lw, machine, program, r_format,
                     registers, sw)
from .multicycle import odd_machine
from .programs import (counting_loop, endless_loop, random_image,
                       random_registers, refused_last, self_modifying)
from .stores import (ALUOP_2, FETCH, FIXED, IORD, LIVE, MEMREAD, MEMWRITE,
                     PCWRITE, PCWRITECOND, REGWRITE, Store, entries, folded,
                     mutated, numbers, random_store, repaired, sixteens,
                     straight, with_entry, with_word)

RANDOM_LINES = 1100
SEED = 4
LONGER_JUMP = with_word(FIXED, 9, 0x20403)    # "admitted, j takes 4 cycles"


def run(store, budget, start, size, words):
    """A `store` line."""
    held = words if isinstance(words, dict) else program(words)
    return line("store", budget, numbers(store), start, image(size, held))


def admitted(store):
    """Whether the check lets a store run."""
    try:
        check(store)
    except Refusal:
        return False
    return True


def order_before_a_run(_):
    """6, 7, 12, 13, 5: every combination of what is refused."""
    broken = with_word(FIXED, 8, 0x10291)
    stores = (FIXED, broken, with_word(FIXED, 12, 1 << 18),
              with_entry(broken, 2, 9, 16))
    return [run(store, budget, machine(state, PC=4), size, {})
            for size in (0x40, 0, 0x4001) for budget in (0, LARGEST_BUDGET + 1)
            for store in stores for state in (0, 9, 16)]


def starts(_):
    """Every start state with opcodes that walk it and others that do not; a
    state that takes a missing entry is on the walk."""
    return [run(FIXED, 1, machine(state, {3: 9}, PC=8, ALUOut=4, A=1, B=1,
                                  IR=opcode << 26 | 0x00430820), 4, {1: 5})
            for state in range(17) for opcode in (*LIVE, 1, 63)]


def odd_starts(_):
    """Start states that no store has, and states reached by entries only."""
    reached = with_entry(FIXED, 1, 63, 15)
    lines = [run(FIXED, 1, machine(state), 1, {})
             for state in (17, 0xFF, 0x100, 0xFFFFFFFF)]
    return lines + [run(reached, 2, machine(state, IR=opcode << 26), 1, {})
                    for state in (14, 15) for opcode in (62, 63)]


def budgets_in_a_loop(_):
    """The fixed store and the one whose j takes four cycles."""
    return [run(store, budget, machine(0, {2: 3}), 0x20, endless_loop())
            for store in (FIXED, LONGER_JUMP) for budget in range(40)]


def whole_programs(_):
    """Programs to their refusal, self-modifying ones, and the loop."""
    lines = [run(FIXED, LARGEST_BUDGET, machine(0, {10: 1}), 0x40, words)
             for position in (0, 2) for words in refused_last(position)]
    lines += [run(LONGER_JUMP, 60, machine(0, {10: 3}), 0x10, cells)
              for cells in self_modifying()]
    return lines + [run(FIXED, budget, machine(0, {2: 1, 3: 3}), 5,
                        counting_loop()) for budget in (47, 48, 49, 50, 51)]


def order_in_a_cycle(_):
    """1, 2, 4, 3: a state with MemRead, ALUOp 2 and a dispatch, over every
    combination of address, function and entry."""
    word = MEMREAD | IORD | ALUOP_2 | 0x10 | 1
    store = Store((FETCH, word) + (0,) * 14, entries({35: 5, 0: 0}),
                  entries({}))
    return [run(store, 1, machine(1, {1: 8, 2: 8}, PC=8, A=6, B=7,
                                  ALUOut=address,
                                  IR=opcode << 26 | r_format(function, 3, 1, 2)),
                4, {1: 0x77})
            for address in (4, 5, 0x10, 0x13) for function in (32, 33, 42)
            for opcode in (0, 35, 36)]


def writes_in_state_0(_):
    """A state 0 that also writes, on the registers of the starting IR, and
    the later states that rule 5 leaves it."""
    store = Store((FETCH | REGWRITE, 0x61) + (0,) * 14,
                  entries({opcode: 0 for opcode in range(64)}), entries({}))
    return [run(store, budget, machine(0, {0: 7, 3: 9}, ALUOut=0x55, MDR=0x66,
                                       IR=add(4, 5, target)), 2, [add(1, 2, 3)])
            for target in (0, 3, 31) for budget in (1, 2, 3, 5)]


def missing_at_the_end(_):
    """Entries missing and entries of 0, met in a run."""
    lines = []
    for opcode in (1, 63):
        for entry in (255, 0, 9, 7):
            store = with_entry(FIXED, 1, opcode, entry)
            words = [j(1), opcode << 26 | 0x2000, j(0)]
            lines += [run(store, budget, machine(0), 3, words)
                      for budget in (4, 5, 6, 30)]
    return lines


def each_signal(rng):
    """One cycle in state 1 of stores whose word 1 has each signal alone and
    some together, from odd latches."""
    lines = []
    for bit in range(18):
        for other in (0, 1 << 17, 1 << 16, 1 << 15, 1 << 4, REGWRITE):
            word = (1 << bit | other) & ~(1 << 12)
            store = Store((FETCH, word) + (0,) * 14,
                          entries({opcode: 9 for opcode in range(64)}),
                          entries({}))
            if admitted(store):
                start = odd_machine(rng, 1, IR=r_format(
                    rng.pick(FUNCTIONS), 5, rng.below(32), rng.below(32)))
                lines.append(run(store, 1, start, 0x40, {}))
    return lines


def walks_of_sixteen(_):
    """Sixteen cycles an instruction, and starts in the middle of them."""
    lines = []
    for store in filter(admitted, sixteens()):
        lines.append(run(store, 40, machine(0, {2: 5}), 0x10,
                         [lw(2, 0, 0)] * 3))
    for state in range(16):
        for store in (folded(), straight(MEMWRITE), straight(REGWRITE)):
            start = machine(state, {2: 5}, IR=lw(2, 0, 0), B=3, ALUOut=8)
            lines.append(run(store, 17 - state % 3, start, 0x10, {0: 0x77}))
    return lines


def refused_stores(rng):
    """Stores that are not admitted never run: state, counts, image as
    given."""
    lines = []
    while len(lines) < 60:
        store = mutated(rng, FIXED, rng.between(1, 3))
        if not admitted(store):
            lines.append(run(store, rng.below(9), odd_machine(rng, 0), 0x10,
                             [add(1, 1, 1), sw(1, 4, 0), beq(0, 0, -1)]))
    return lines


def bad_shapes(_):
    """Entries above ff, numbers missing and too many."""
    start, held = machine(0), image(1, {0: UNKNOWN_OPCODE})
    words = numbers(FIXED)
    return [line("store", 2, words, start, held),
            line("store", words, start, held),
            line("store", 2, words[1:], start, held),
            line("store", 2, words, 255, start, held),
            line("store", 2, words[:-1], 0x100, start, held),
            line("store", 2, words, start[1:], held),
            line("store", 2, words, start, held, 0),
            line("store", 2, words, start, image(1, {1: 0})),
            line("store", 2, words, start), line("store", 2, words)]


def long_runs(_):
    """The largest budget, spent to the last cycle."""
    return [run(LONGER_JUMP, LARGEST_BUDGET, machine(0, {2: 3}), 0x40,
                endless_loop())]


def random_program_run(rng):
    """A random program on the fixed store or a near mutant of it."""
    cells, base = random_image(rng, 0x40)
    store = mutated(rng, FIXED, rng.below(3))
    start = machine(0, random_registers(rng, 0x40), PC=4 * base)
    return run(store, rng.below(100), start, 0x40, cells)


def tame_word(rng, opcode):
    """A word of an opcode whose field is an aligned address and whose
    function is known, mostly."""
    word = opcode << 26 | rng.below(1 << 26) & ~0xFFFF
    if rng.chance(1, 12):
        return word | rng.below(0x10000)
    return word | rng.below(16) << 11 | rng.pick((32, 36))


def tame_store(rng):
    """A repaired random store that touches memory and PC less often, so that
    it runs on for a while."""
    store = random_store(rng)
    for state in range(1, 16):
        gone = rng.pick((0, MEMREAD | MEMWRITE, PCWRITE | PCWRITECOND,
                         MEMREAD | MEMWRITE | PCWRITE | PCWRITECOND))
        store = with_word(store, state, store.words[state] & ~gone)
    return repaired(rng, store)


def random_store_run(rng):
    """A repaired random store, from 0 or in the middle of a walk."""
    store = tame_store(rng)
    opcode = rng.pick((*LIVE, rng.below(64)))
    state = rng.pick(walk(store, opcode).states)
    if rng.chance(1, 16):
        state = rng.below(18)
    cells = {at: tame_word(rng, rng.pick((*LIVE, rng.below(64))))
             for at in range(rng.below(9))}
    start = odd_machine(rng, state, IR=tame_word(rng, opcode),
                        PC=4 * rng.below(8), A=4 * rng.below(64))
    if rng.chance(1, 2):
        start[-1] = registers(random_registers(rng, 0x40))
    return run(store, rng.between(1, 24), start, rng.pick((0x40, 0x4000)),
               cells)


def fresh(rng):
    """One random line of this module's mix."""
    kinds = ((random_store_run,) * 4 + (random_program_run,)
             + (storecheck.random_check,) * 3
             + (storefile.random_read, storefile.random_write))
    text = rng.pick(kinds)(rng)
    return corrupted(rng, text) if rng.chance(1, 32) else text


EDGES = (order_before_a_run, starts, odd_starts, budgets_in_a_loop,
         whole_programs, order_in_a_cycle, writes_in_state_0,
         missing_at_the_end, each_signal, walks_of_sixteen, refused_stores,
         bad_shapes, long_runs)


def lines():
    """The fixed vectors: every family of edges, then random lines."""
    rng = Rng(SEED)
    families = storecheck.EDGES + storefile.EDGES + EDGES
    edges = [text for family in families for text in family(rng)]
    return edges + [fresh(rng) for _ in range(RANDOM_LINES)]
