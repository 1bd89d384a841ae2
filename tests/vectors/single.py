"""Lines for the loader and the single-cycle machine, with those for words
and bad cases beside them."""

from model.rng import Rng

from . import badcases, words
from .common import (BUDGETS, EDGE_WORDS, FUNCTIONS, LARGEST_BUDGET, SIZES,
                     UNKNOWN_OPCODE, add, beq, corrupted, image, j, line, lw,
                     r_format, single, slt, sub, sw)
from .programs import (counting_loop, endless_loop, random_image,
                       random_registers, random_size, refused_last,
                       self_modifying)

RANDOM_LINES = 700
SEED = 2


def load_sizes_and_bases(_):
    """Every image size with bases about its end, programs of 0 to 2 words."""
    lines = []
    for size in SIZES:
        bases = {0, 1, max(size - 2, 0), max(size - 1, 0), size, size + 1,
                 0x80000000, 0xFFFFFFFE, 0xFFFFFFFF}
        lines += [line("load", base, count, [0xA5, 0x5A][:count], image(size))
                  for base in sorted(bases) for count in range(3)]
    return lines


def load_over_words(_):
    """Programs over words that are there: equal words are no changes, and
    the words beside them stay."""
    held = {at: 0x100 + at for at in range(8)}
    lines = [line("load", base, count, [0x102 + at for at in range(count)],
                  image(8, held)) for base in range(9) for count in range(5)]
    lines.append(line("load", 2, 3, 0, 0, 0, image(8, held)))
    return lines + [line("load", 0, 8, [0] * 8, image(8, held))]


def sizes_and_budgets(_):
    """Every image size under every budget: a store to the last word, then a
    word that is unknown, or the end of the image."""
    lines = []
    for size in SIZES:
        top = 4 * max(size - 1, 0)
        cells = {} if size == 0 else {0: sw(2, 0, 3)}
        for budget in BUDGETS:
            lines.append(single(budget, 0, {2: 0xABCD, 3: top}, size, cells))
            last = {} if size == 0 else {size - 1: add(4, 2, 2)}
            lines.append(single(budget, top, {2: 0xABCD}, size, last))
    return lines


def fetch_addresses(_):
    """PCs misaligned, outside, at the last word and near 2^32; a j there
    would cross into another 256 MB region, were it fetched."""
    addresses = (0, 1, 2, 3, 4, 6, 0xFC, 0xFD, 0xFE, 0xFF, 0x100, 0x102,
                 0xFFFC, 0xFFFE, 0x10000, 0x0FFFFFFC, 0x10000000, 0x7FFFFFFC,
                 0x80000000, 0xF0000000, 0xFFFFFFF8, 0xFFFFFFFC, 0xFFFFFFFD,
                 0xFFFFFFFE, 0xFFFFFFFF)
    return [single(budget, pc, {}, size, {0: j(0), size - 1: j(size - 1)})
            for pc in addresses for size in (1, 0x40, 0x4000)
            for budget in (1, 3)]


def data_addresses(_):
    """Loads and stores about the edges of a 64-word image, sums that wrap
    modulo 2^32 among them."""
    bases = (0, 1, 3, 4, 0xF8, 0xFC, 0xFE, 0x100, 0x7FFC, 0x8000, 0x80000000,
             0xFFFF8000, 0xFFFFFFFC, 0xFFFFFFFF)
    fields = (0, 1, 2, 4, 0xFC, 0x100, 0x7FFC, 0x8000, 0xFFFC, 0xFFFF)
    return [single(2, 0, {1: base, 2: 0x1234}, 0x40,
                   {0: word, 1: add(3, 2, 2), 0x3F: 0x77})
            for base in bases for field in fields
            for word in (lw(2, field, 1), sw(2, field, 1))]


def large_image_addresses(_):
    """The last word of the largest image and the first address past it."""
    return [single(1, 0, {1: base, 2: 9}, 0x4000, {0: word, 0x3FFF: 0x77})
            for base in (0xFFF8, 0xFFFC, 0xFFFE, 0x10000, 0xFFFFFFF8)
            for word in (lw(2, 0, 1), sw(2, 0, 1), lw(2, 4, 1), sw(2, 8, 1))]


def function_edges(_):
    """All five functions on pairs of edge words: wraps, signs, zeros."""
    words_of_five = [r_format(function, 8 + at, 1, 2)
                     for at, function in enumerate(FUNCTIONS)]
    return [single(5, 0, {1: first, 2: second}, 5, words_of_five)
            for first in EDGE_WORDS for second in EDGE_WORDS]


def register_zero(_):
    """Register 0 as every source and every target, garbage in its cell."""
    lines = []
    tries = [add(0, 1, 2), sub(0, 0, 1), slt(0, 1, 2), lw(0, 8, 0),
             lw(0, 9, 0), lw(0, 0x20, 0), lw(1, 8, 0), sw(0, 8, 0),
             sw(0, 8, 1), add(1, 0, 0), add(1, 0, 2), add(1, 2, 0),
             slt(1, 0, 2), slt(1, 2, 0), beq(0, 0, 1), beq(0, 1, 1),
             beq(1, 0, 1), sub(1, 0, 2)]
    for garbage in (0, 0x63, 4, 0xFFFFFFFF):
        lines += [single(2, 0, {0: garbage, 1: one, 2: 5}, 8,
                         {0: word, 1: add(3, 0, 1), 2: 0xBEEF})
                  for word in tries for one in (0, 0x63)]
    return lines


def branches(_):
    """Taken and not taken, forwards, backwards, onto itself, far away."""
    fields = (0, 1, 2, -1, -2, -3, -4, 0x7FFF, -0x8000, 0x3D)
    return [single(budget, pc, {1: 7, 2: other}, 0x40,
                   {pc // 4: beq(1, 2, field), 1: add(3, 1, 1),
                    4: add(4, 1, 1)})
            for pc in (0, 8, 0xFC) for field in fields for other in (7, 8)
            for budget in (1, 3)]


def jumps(_):
    """Fields over the whole 26 bits, from the first and the last word."""
    fields = (0, 1, 2, 0x3E, 0x3F, 0x40, 0x3FFF, 0x2000000, 0x3FFFFFF)
    return [single(budget, pc, {}, 0x40, {pc // 4: j(field), 1: add(3, 3, 3)})
            for pc in (0, 8, 0xFC) for field in fields for budget in (1, 2)]


def refusals_in_each_position(_):
    """Each refusal after none to four good instructions, with budgets that
    end just before it, on it and after it."""
    return [single(budget, 0, {10: 1}, 0x40, words_refused)
            for position in range(5)
            for words_refused in refused_last(position)
            for budget in (position, position + 1, LARGEST_BUDGET)]


def order_of_refusals(_):
    """Two reasons at once: the one that document 01 names first."""
    lines = [single(1, pc, {}, size, {0: word}) for pc in (0x101, 0xFFFFFFFF)
             for size in (1, 0x40) for word in (0, UNKNOWN_OPCODE)]
    lines += [single(1, 0, {}, 1, [word])
              for word in (lw(1, 0x102, 0), sw(1, -1, 0), lw(0, 0x101, 0),
                           UNKNOWN_OPCODE | 0x102, 0x0000FFFF)]
    return lines + [single(budget, 1, {}, size, {})
                    for budget in (0, LARGEST_BUDGET + 1)
                    for size in (0, 1, 0x4001)]


def self_modified(_):
    """Stores over instructions to come, running and done."""
    return [single(20, 0, {10: 3}, 0x10, cells) for cells in self_modifying()]


def budgets_to_the_end(_):
    """A loop that ends in refusal 4 after thirteen instructions, under every
    budget to past its end."""
    return [single(budget, 0, {2: 1, 3: 3, 4: 9}, 5, counting_loop())
            for budget in [*range(20), LARGEST_BUDGET, LARGEST_BUDGET + 1]]


def long_runs(_):
    """The largest budget, spent to the last instruction."""
    return [single(LARGEST_BUDGET, 0, {2: 3}, 0x40, endless_loop())]


def random_load(rng):
    """A short program over a small image of some words."""
    size = rng.pick((0, 1, 2, 8, 8, 8, 0x40, 0x4000, 0x4001))
    held = {rng.below(size): rng.below(4) for _ in range(6)} if size else {}
    count = rng.below(6)
    base = rng.below(size + 2) if rng.chance(7, 8) else rng.word()
    return line("load", base, count, [rng.below(4) for _ in range(count)],
                image(size, held))


def random_single(rng):
    """A random program, mostly one that runs on for a while."""
    size = random_size(rng)
    cells, base = random_image(rng, size)
    pc = 4 * base if rng.chance(11, 12) else rng.word() >> rng.below(32)
    budget = rng.below(60) if rng.chance(31, 32) else LARGEST_BUDGET + 1
    return single(budget, pc, random_registers(rng, min(size, 64)), size, cells)


def fresh(rng):
    """One random line of this module's mix."""
    kinds = (random_single,) * 5 + (random_load,) + words.RANDOM
    text = rng.pick(kinds)(rng)
    return corrupted(rng, text) if rng.chance(1, 10) else text


EDGES = (load_sizes_and_bases, load_over_words, sizes_and_budgets,
         fetch_addresses, data_addresses, large_image_addresses,
         function_edges, register_zero, branches, jumps,
         refusals_in_each_position, order_of_refusals, self_modified,
         budgets_to_the_end, long_runs)


def lines():
    """The fixed vectors: every family of edges, then random lines."""
    rng = Rng(SEED)
    families = words.EDGES + badcases.EDGES + EDGES
    edges = [text for family in families for text in family(rng)]
    return edges + [fresh(rng) for _ in range(RANDOM_LINES)]
