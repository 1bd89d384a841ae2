"""Admitted stores whose accesses to memory are refused: by PC and by ALUOut,
in states of any number, and fetches where ALUOut has gone into PC."""

from model.store import walk

from .addressruns import (BUDGET, SIZES, latched, random_address,
                          random_start)
from .common import (FUNCTIONS, OPCODES, add, beq, i_format, j, lw, machine,
                     r_format, sw)
from .store import LONGER_JUMP, run
from .stores import (ALUOP_2, FETCH, FIXED, IORD, MEMREAD, MEMWRITE, PCWRITE,
                     REGWRITE, Store, entries, random_store, repaired,
                     with_word)

ALUOP_1, ALUSRCA, PCSOURCE_1 = 1 << 7, 1 << 4, 1 << 9
FOUR, FIELD, FIELD_TIMES_4 = 1 << 5, 2 << 5, 3 << 5     # ALUSrcB
READ, WRITE = MEMREAD | IORD, MEMWRITE | IORD           # by ALUOut
ACCESSES = (MEMREAD, MEMWRITE, READ, WRITE)
TO_PC = PCWRITE | PCSOURCE_1
MOVED_FETCH = FETCH | PCSOURCE_1       # while it fetches, PC takes ALUOut
# Refused by 64 words.
ADDRESSES = (2, 0xFFFFFFFF, 0x103, 0x100, 0xFFFFFFFC)
# What the ALU works out of A, B, PC and the field.
SUMS = (ALUSRCA, ALUSRCA | ALUOP_1, ALUSRCA | FOUR, ALUSRCA | FIELD,
        ALUSRCA | FIELD_TIMES_4, 0, FOUR, FIELD, FIELD_TIMES_4)


def walked(*bodies, fetch=FETCH):
    """A store under which every opcode walks state 0, then these words."""
    words = [fetch] + [body | 3 for body in bodies[:-1]] + [bodies[-1]]
    return Store(tuple(words + [0] * (16 - len(words))), entries({}),
                 entries({}))


def by(access, address):
    """The latch that an access takes its address from, with that address."""
    return {"ALUOut" if access & IORD else "PC": address}


def in_each_state(_):
    """A load and a store by PC and by ALUOut in states 1, 2, 9 and 15, from
    there: a read at PC is a load too. The other latch would do."""
    return [run(walked(*[0] * (state - 1), access), 1 + at,
                latched(state, IR=OPCODES[at] << 26, **{
                    "PC": 8, "ALUOut": 12, **by(access, address)}), 0x40, {})
            for state in (1, 2, 9, 15) for access in ACCESSES
            for at, address in enumerate(ADDRESSES)]


def after_the_fetch(_):
    """By PC, one, two or four states after the fetch of an image's last word."""
    return [run(walked(*[0] * idle, access), BUDGET,
                latched(0, {2: 0x30, 3: 0x50}, PC=4 * size - 4), size,
                {size - 1: add(1, 2, 3)})
            for size in SIZES for idle in (0, 1, 3)
            for access in (MEMREAD, MEMWRITE)]


def moved_with_the_fetch(_):
    """A fetch that moves ALUOut into PC; what comes next is at PC: a load, a
    store, or the next fetch."""
    return [run(walked(body, fetch=MOVED_FETCH), BUDGET,
                latched(0, PC=4, ALUOut=address), 0x40, {1: sw(1, 2, 3)})
            for body in (MEMREAD, MEMWRITE, 0) for address in ADDRESSES]


def worked_out(_):
    """Addresses from every sum and function of the ALU, for a load, a store,
    and a fetch once they are in PC; one word refuses all but 0."""
    lines = []
    for first, second, field in ((0x9ABCDEF0, 0x12345678, -8),
                                 (0xFFFFFFF1, 0x22, 0x7FFE)):
        ways = [(way, i_format(35, 1, 2, field)) for way in SUMS]
        ways += [(ALUSRCA | ALUOP_2, r_format(function, 3, 1, 2))
                 for function in FUNCTIONS]
        lines += [run(walked(0, way, use), BUDGET,
                      latched(0, {1: first, 2: second}, PC=0), 1, [word])
                  for way, word in ways for use in (READ, WRITE, TO_PC)]
    return lines


def two_accesses(_):
    """A load in one state, and a load or a store in the next: the second is
    refused with the first done, or the first before it."""
    lines = []
    for second in ACCESSES:
        store = walked(READ | ALUSRCA | FIELD, second)
        for address in ADDRESSES:
            pc, result = (8, address) if second & IORD else (address, 8)
            for first, budget in ((12, 2), (12, 5), (0xFE, 2)):
                start = latched(1, PC=pc, A=result + 4 & 0xFFFFFFFF, B=0x99,
                                IR=sw(2, -4, 1), ALUOut=first)
                lines.append(run(store, budget, start, 0x40, {3: 0x77}))
    return lines


def before_other_refusals(_):
    """ "Within a cycle: 1, 2, 4, 3": an access that is refused in a state
    with an unknown function and a dispatch without an entry."""
    return [run(Store((FETCH, access | ALUOP_2 | 1) + (0,) * 14, entries({}),
                      entries({})), 1,
                latched(1, IR=add(1, 2, 3) | unknown,
                        **{"PC": 8, "ALUOut": 12, **by(access, address)}),
                0x40, {})
            for access in ACCESSES for address in (0xFE, 0x100, 0x101)
            for unknown in (0, 1)]


def beside_writes(_):
    """The refused cycle would also have written a register or PC, the fetch
    among them: it changes nothing."""
    lines = [run(walked(access | write), 3,
                 latched(1, {3: 7}, IR=beq(1, 3, 9), **{
                     "PC": 8, "ALUOut": 12, **by(access, address)}), 0x40, {})
             for access in ACCESSES for write in (REGWRITE, PCWRITE, TO_PC)
             for address in (0xFE, 0x100)]
    return lines + [run(walked(0, fetch=FETCH | write), 3,
                        latched(0, {3: 7}, PC=address, IR=lw(3, 9, 1)), 0x40, {})
                    for write in (REGWRITE, PCSOURCE_1)
                    for address in (1, 0x100, 0xFFFFFFFE)]


def sixteenth_states(_):
    """An access in the last of sixteen states, refused in the sixteenth
    cycle; with a budget of fifteen the run is spent."""
    return [run(walked(*[0] * 14, access), budget,
                latched(0, {2: 0xFF}, PC=0xFC), 0x40, {0x3F: lw(2, 0, 1)})
            for access in ACCESSES for budget in (15, 16, 99)]


def fixed_and_near_it(_):
    """The fixed store from its fetch, its load, its store and its branch; and
    the store whose j takes four cycles."""
    starts = ((0, 0, {}, "PC"), (3, lw(1, 0, 1), {}, "ALUOut"),
              (5, sw(1, 0, 1), {}, "ALUOut"),
              (8, beq(1, 2, 3), {"A": 5, "B": 5}, "ALUOut"))
    lines = [run(FIXED, 2, latched(state, IR=word, **{**given, latch: address}),
                 0x40, {}) for address in (*ADDRESSES, 0x7FFFFFFE)
             for state, word, given, latch in starts]
    return lines + [run(LONGER_JUMP, budget, latched(0, PC=8), 0x40,
                        {2: j(field)}) for field in (0x40, 0x3FFFFFF)
                    for budget in (5, 50)]


def random_store_run(rng):
    """A repaired random store with more accesses and fewer functions than
    others, from a state of a walk, with bad addresses in the latches."""
    store = random_store(rng)
    for state in range(16):
        word = store.words[state]
        if state and rng.chance(1, 3):
            word = rng.pick(ACCESSES) | rng.pick(SUMS) | word & 3
        elif rng.chance(4, 5):
            word &= ~ALUOP_2
        store = with_word(store, state, word)
    store = repaired(rng, store)
    size, cells, base, held = random_start(rng)
    word = rng.pick(list(cells.values()))
    given = {name: random_address(rng, size) for name in ("A", "B", "MDR")}
    given["PC"] = 4 * base if rng.chance(3, 4) else random_address(rng, size)
    given["ALUOut"] = random_address(rng, size)
    state = rng.pick(walk(store, word >> 26).states) if rng.chance(1, 2) else 0
    return run(store, rng.between(4, 30), machine(state, held, IR=word, **given),
               size, cells)


EDGES = (in_each_state, after_the_fetch, moved_with_the_fetch, worked_out,
         two_accesses, before_other_refusals, beside_writes, sixteenth_states,
         fixed_and_near_it)
