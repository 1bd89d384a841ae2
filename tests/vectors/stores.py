"""Stores for the vectors: mutants of the fixed one, random ones, repaired
ones, and ones with walks of sixteen states."""

from model.refusal import Refusal
from model.store import NONE, Store, check, fixed_store, walk

# Places of a word's bits, 17 to 2.
PCWRITE, PCWRITECOND, IORD = 1 << 17, 1 << 16, 1 << 15
MEMREAD, MEMWRITE, IRWRITE = 1 << 14, 1 << 13, 1 << 12
PCSOURCE, ALUOP, ALUOP_2, REGWRITE = 3 << 9, 3 << 7, 2 << 7, 1 << 3
FETCH = 0x25023                     # the fixed store's word 0
FIXED = fixed_store()
LIVE = (0, 2, 4, 35, 43)            # opcodes with entries in the fixed store


def numbers(store):
    """`STORE`: 144 numbers."""
    return [*store.words, *store.rom1, *store.rom2]


def with_word(store, state, word):
    """The store with one word made another."""
    words = list(store.words)
    words[state] = word
    return store._replace(words=tuple(words))


def with_entry(store, rom, opcode, entry):
    """The store with an entry of ROM 1 or ROM 2 made another."""
    name = ("rom1", "rom2")[rom - 1]
    entries = list(getattr(store, name))
    entries[opcode] = entry
    return store._replace(**{name: tuple(entries)})


def entries(cells):
    """A ROM of no entries but those given by opcode."""
    return tuple(cells.get(opcode, NONE) for opcode in range(64))


def random_word(rng):
    """Eighteen bits; fewer of them writes or threes, so that walks grow long
    before they break a rule."""
    word = rng.below(1 << 18)
    if rng.chance(2, 3):
        word &= ~(MEMWRITE | REGWRITE)
    if rng.chance(11, 12):
        word &= ~IRWRITE
    if word & ALUOP == ALUOP and rng.chance(11, 12):
        word ^= 1 << rng.between(7, 8)
    if word & PCSOURCE == PCSOURCE and rng.chance(11, 12):
        word ^= 1 << rng.between(9, 10)
    return word | 3 if rng.chance(1, 2) else word


def random_rom(rng):
    """Entries for a few opcodes, or for most of them."""
    share = rng.pick((1, 4, 14))
    return tuple(rng.below(16) if rng.chance(share, 16) else NONE
                 for _ in range(64))


def random_store(rng):
    """A store that may break any rule, mostly with a good state 0."""
    words = [random_word(rng) for _ in range(16)]
    if rng.chance(15, 16):
        words[0] = (words[0] | FETCH & ~PCWRITE) & ~(IORD | MEMWRITE | PCSOURCE)
    return Store(tuple(words), random_rom(rng), random_rom(rng))


def repaired_word(rng, word, rule):
    """A word with what breaks one of rules 1 to 4 taken out of it."""
    if rule == 1:
        return (word | MEMREAD | IRWRITE | 3) & ~IORD
    if rule == 2:
        return word & ~IRWRITE
    if rule == 3:
        return word & ~rng.pick((MEMREAD, MEMWRITE))
    if word & ALUOP == ALUOP:
        return word & ~rng.pick((ALUOP, ALUOP_2, 1 << 7))
    return word & ~rng.pick((PCSOURCE, 1 << 9, 1 << 10))


def repair(rng, store, opcode, state, rule):
    """The store with one breach taken out; it may leave or make others."""
    word = store.words[state]
    if rule <= 4:
        return with_word(store, state, repaired_word(rng, word, rule))
    if rule == 6:
        return with_word(store, state, word & ~3)
    if rng.chance(1, 2):
        for earlier in walk(store, opcode).states:
            if earlier == state:
                return store
            gone = store.words[earlier] & ~(REGWRITE | MEMWRITE)
            store = with_word(store, earlier, gone)
    word &= ~(MEMREAD | MEMWRITE)
    if word & ALUOP == ALUOP_2:
        word &= ~ALUOP
    elif word == store.words[state]:
        word &= ~3
    return with_word(store, state, word)


def repaired(rng, store):
    """The store with every breach taken out, one by one: it is admitted."""
    while True:
        try:
            check(store)
            return store
        except Refusal as no:
            store = repair(rng, store, *no.numbers[1:])


def mutated(rng, store, times):
    """The store with some bits and entries turned, mostly of states that
    some walk enters; no number too large."""
    for _ in range(times):
        opcode = rng.pick((*LIVE, rng.below(64), rng.below(64)))
        if rng.chance(3, 4):
            states = walk(store, opcode).states
            state = rng.pick(states) if rng.chance(7, 8) else rng.below(16)
            word = store.words[state] ^ 1 << rng.below(18)
            store = with_word(store, state, word)
        else:
            entry = rng.pick((NONE, 0, rng.below(16), rng.below(16)))
            store = with_entry(store, rng.between(1, 2), opcode, entry)
    return store


def too_large(rng, store):
    """The store with one number that refusal 12 names."""
    if rng.chance(1, 2):
        word = 1 << rng.between(18, 31) | rng.word() >> rng.below(32)
        return with_word(store, rng.below(16), word)
    return with_entry(store, rng.between(1, 2), rng.below(64),
                      rng.between(16, 254))


def straight(last=0, body=0):
    """States 0 to 15 one after the other, for every opcode; `last` is word
    15, whose AddrCtl says how the walk ends."""
    words = (FETCH,) + (body | 3,) * 14 + (last,)
    return Store(words, entries({}), entries({}))


def folded():
    """All sixteen states over both dispatches for opcode 35: 0, 1, then 8 to
    15, then 2 to 7."""
    words = [3] * 16
    words[0], words[1], words[15], words[7] = FETCH, 0x61, 2, REGWRITE
    return Store(tuple(words), entries({35: 8}), entries({35: 2}))


def sixteens():
    """Stores whose walks have sixteen states: ended by each AddrCtl of the
    last, with and without writes on the way."""
    stores = [straight(last) for last in (0, 1, 2, 3, REGWRITE, MEMWRITE,
                                          MEMREAD, REGWRITE | 1)]
    stores += [straight(last, REGWRITE) for last in
               (0, 1, 2, 3, MEMREAD, MEMWRITE, ALUOP_2, REGWRITE)]
    for entry in (0, 1, 5, 15):
        everywhere = {opcode: entry for opcode in range(64)}
        stores.append(straight(1)._replace(rom1=entries(everywhere)))
        stores.append(straight(2)._replace(rom2=entries(everywhere)))
    whole = folded()
    return stores + [whole, with_entry(whole, 2, 35, 8),
                     with_entry(whole, 1, 35, 15), with_word(whole, 7, 3),
                     with_word(whole, 7, 1), with_word(whole, 15, 3)]
