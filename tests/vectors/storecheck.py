"""Lines for the check of a store."""

from .common import line
from .stores import (ALUOP, ALUOP_2, FETCH, FIXED, IORD, IRWRITE, LIVE,
                     MEMREAD, MEMWRITE, NONE, PCSOURCE, REGWRITE, Store,
                     entries, mutated, numbers, random_store, repaired,
                     sixteens, straight, too_large, with_entry, with_word)


def checked(store):
    """A `check` line."""
    return line("check", numbers(store))


def samples(_):
    """The fixed store and the three mutants of "Samples at the edges"."""
    return [checked(store) for store in
            (FIXED, with_word(FIXED, 4, 0x0080B), with_word(FIXED, 8, 0x10291),
             with_word(FIXED, 9, 0x20403))]


def every_bit(_):
    """Each bit of each word of the fixed store turned, words 10 to 15 too,
    which no walk enters."""
    return [checked(with_word(FIXED, state, FIXED.words[state] ^ 1 << bit))
            for state in range(16)
            for bit in (range(18) if state < 10 else (0, 12, 17))]


def every_entry(_):
    """Each state as an entry of either ROM, for live opcodes and others."""
    return [checked(with_entry(FIXED, rom, opcode, entry)) for rom in (1, 2)
            for opcode in (*LIVE, 1, 63)
            for entry in (*range(16), NONE)]


def numbers_too_large(_):
    """Words of 2^18 or more and entries 16 to 254, in states and ROMs that
    no walk touches too; the largest numbers that will do beside them."""
    stores = [with_word(FIXED, state, word) for state in range(16)
              for word in (1 << 18, 0xFFFFFFFF)]
    stores += [with_word(FIXED, 15, 1 << bit) for bit in range(17, 32)]
    stores += [with_word(FIXED, 12, (1 << 18) - 1)]
    stores += [with_entry(FIXED, rom, opcode, entry) for rom in (1, 2)
               for opcode in (0, 1, 35, 63)
               for entry in (15, 16, 17, 127, 128, 254)]
    broken = with_word(FIXED, 0, 0)
    stores += [with_word(broken, 9, 1 << 18), with_entry(broken, 2, 63, 16)]
    return [checked(store) for store in stores]


def state_0(_):
    """Rule 1 over each combination of what it asks, beside rules 3 and 4 in
    the same state."""
    lines = []
    for asked in range(16):
        word = FETCH & ~(MEMREAD | IRWRITE | IORD | 3)
        word |= (asked & 1) * MEMREAD | (asked >> 1 & 1) * IRWRITE
        word |= (asked >> 2 & 1) * IORD | (asked >> 3) * 3
        lines += [checked(with_word(FIXED, 0, word | more))
                  for more in (0, MEMWRITE, ALUOP, PCSOURCE)]
    return lines + [checked(with_word(FIXED, 0, FETCH ^ turned))
                    for turned in (1, 2)]


def two_rules_in_a_state(_):
    """States that break several rules at once: the lowest is named."""
    parts = (IRWRITE, MEMREAD | MEMWRITE, ALUOP, PCSOURCE, MEMREAD, 3)
    return [checked(with_word(with_word(FIXED, 7, 0xF), 8, one | two))
            for at, one in enumerate(parts) for two in parts[at:]]


def two_states_of_a_walk(_):
    """A higher rule in an earlier state against a lower in a later one."""
    faults = (IRWRITE, MEMREAD | MEMWRITE, ALUOP, MEMREAD | REGWRITE)
    return [checked(with_word(with_word(straight(), first, one | 3),
                              second, two | 3))
            for first, second in ((1, 2), (3, 9), (14, 13))
            for one in faults for two in faults]


def two_opcodes(_):
    """Faults on two walks: the lowest opcode's is named, whatever the state
    and the rule."""
    lines = []
    for low, high in ((0, 2), (2, 4), (4, 35), (35, 43)):
        for one, two in ((1, 4), (4, 1), (2, 4), (4, 4)):
            store = with_entry(with_entry(FIXED, 1, low, 11), 1, high, 13)
            words = {1: 1, 2: IRWRITE, 4: ALUOP}
            store = with_word(with_word(store, 11, words[one]), 13, words[two])
            lines.append(checked(store))
    return lines


def after_a_write(_):
    """Rule 5: what may and may not stand after RegWrite or MemWrite, in the
    same state, the next one, or three further on."""
    lines = []
    for write in (REGWRITE, MEMWRITE):
        for later in (MEMREAD, MEMWRITE, REGWRITE, ALUOP_2, 1 << 7, 0, 1, 2):
            for distance in (0, 1, 3):
                store = with_word(straight(), 4, write | 3)
                word = store.words[4 + distance] | later
                if later in (1, 2):
                    word = word & ~3 | later
                lines.append(checked(with_word(store, 4 + distance, word)))
    return lines


def missing_entries(_):
    """A missing entry after a writing state, for some opcodes alone, and
    entries of 0, which end a walk."""
    lines = []
    for write in (0, REGWRITE, MEMWRITE):
        for opcode in (0, 35, 62, 63):
            for entry in (NONE, 0, 3, 2):
                rom = {other: 0 for other in range(64)}
                rom[opcode] = entry
                words = (FETCH, write | 3, 1) + (0,) * 13
                lines.append(checked(Store(words, entries(rom), entries({}))))
    return lines


def dispatch_to_zero(_):
    """Entries of 0 in both ROMs, for live and other opcodes."""
    return [checked(with_entry(FIXED, rom, opcode, 0)) for rom in (1, 2)
            for opcode in (*LIVE, 1, 31, 32, 62, 63)]


def loops(_):
    """Rule 6: loops of every length through ROM 1, charged to the state
    being left, and state 15 counting on."""
    lines = []
    for last in range(1, 16):
        for back in sorted({1, last, (last + 1) // 2}):
            store = with_word(straight(), last, 1)
            lines.append(checked(with_entry(store, 1, 17, back)))
    return lines + [checked(straight(3)), checked(straight(0))]


def walks_of_sixteen(_):
    """Walks through all sixteen states."""
    return [checked(store) for store in sixteens()]


def random_check(rng):
    """A random store, a mutant of the fixed one, or a repaired one that is
    whole, mutated or too large."""
    way = rng.below(8)
    if way < 2:
        return checked(random_store(rng))
    if way < 4:
        return checked(mutated(rng, FIXED, rng.between(1, 4)))
    store = repaired(rng, random_store(rng))
    if way < 7:
        return checked(mutated(rng, store, rng.below(4)))
    return checked(too_large(rng, store))


EDGES = (samples, every_bit, every_entry, numbers_too_large, state_0,
         two_rules_in_a_state, two_states_of_a_walk, two_opcodes,
         after_a_write, missing_entries, dispatch_to_zero, loops,
         walks_of_sixteen)
