"""Lines about refusals 1 and 2, with the byte address and the kind of
access: the loader's, with those of the runs and the stores beside them."""

import sys
from collections import Counter

from model.image import FETCH, LOAD, LOADER, STORE
from model.refusal import MISALIGNED, OUTSIDE
from model.replay import answer
from model.rng import Rng

from . import addressruns, addressstores
from .common import image, line

RANDOM_LINES = 150
SEED = 5
LEAST_LINES = 1500      # refused with 1 or 2, among the fixed ones
LEAST_OF_EACH = 25      # of an engine, a refusal and a kind
ENGINES = ("run 0", "run 1", "run 2", "run 3", "store", "single")
BY_PC = "store by PC"   # a load or a store whose address is PC
# Every engine, refusal and kind of access that can come together.
COMBINATIONS = {(engine, refusal, kind) for engine in (*ENGINES, BY_PC)
                for refusal in (MISALIGNED, OUTSIDE)
                for kind in (FETCH, LOAD, STORE)
                if engine != BY_PC or kind != FETCH}
COMBINATIONS.add(("load", OUTSIDE, LOADER))


def too_long(_):
    """Programs one word too long, bases at the end and past it, an empty
    program past the end, and bases whose sum or whose fourfold wraps."""
    lines = []
    for size in (1, 2, 3, 8, 0x40, 0xFF, 0x3FFF, 0x4000):
        held = image(size, {0: 0x70, size - 1: 0x71})
        tries = [(size - 1, 2), (size, 1), (size, 3), (size + 1, 0),
                 (0x3FFFFFFF, 1), (0x40000000, 0), (0x80000000, 2),
                 (0xFFFFFFFE, 3), (0xFFFFFFFF, 0), (0xFFFFFFFF, 1)]
        tries += [(0, size + 1), (1, size)] if 2 < size < 9 else [(2 * size, 4)]
        lines += [line("load", base, count, [0x71] * count, held)
                  for base, count in tries]
    return lines


def sizes_first(_):
    """ "it answers 6 before 2" """
    return [line("load", base, count, [0x72] * count, image(size))
            for size in (0, 0x4001)
            for base, count in ((size + 2, 0), (size, 3), (0x40000000, 2))]


def random_load(rng):
    """A program that does not fit, mostly by little."""
    size = rng.pick((1, 2, 8, rng.between(1, 0x40), rng.between(1, 0x4000)))
    count = rng.below(6)
    base = max(size - count, 0) + rng.between(0, 3)
    if rng.chance(1, 4):
        base = rng.word()
    return line("load", base, count, [rng.below(4) for _ in range(count)],
                image(size, {rng.below(size): rng.below(4)}))


def fresh(rng):
    """One random line of this module's mix."""
    kinds = ((addressruns.random_run,) * 4 + (addressruns.random_single,) * 2
             + (addressstores.random_store_run,) * 3 + (random_load,))
    return rng.pick(kinds)(rng)


EDGES = (too_long, sizes_first)


def combination(text):
    """The engine of a line, and the refusal and the kind of access that it is
    answered with; None where it is not refused an access."""
    engine, unit, *_ = text.decode().split(" ")
    numbers = [int(part, 16) for part in answer(text).split()]
    if numbers[0] not in (MISALIGNED, OUTSIDE):
        return None
    refusal, address, kind = numbers[:3]
    if engine == "run":
        engine = f"run {unit}"
    elif engine == "store" and kind != FETCH:
        pc, alu_out = numbers[5], numbers[10]   # after two counts
        engine = BY_PC if address == pc != alu_out else engine
    return engine, refusal, kind


def hold_to_their_worth(made):
    """Ends the making, saying why, where too few lines are refused, one comes
    twice, or a combination is rare or one that cannot be."""
    counts = Counter(filter(None, map(combination, made)))
    wrong = [f"{one}: {counts[one]} lines" for one in {*COMBINATIONS, *counts}
             if one not in COMBINATIONS or counts[one] < LEAST_OF_EACH]
    if sum(counts.values()) < LEAST_LINES:
        wrong.append(f"{sum(counts.values())} lines are refused")
    if len(set(made)) < len(made):
        wrong.append(f"{len(made)} lines, {len(set(made))} different ones")
    if wrong:
        sys.exit("vectors of addresses: " + "; ".join(sorted(wrong)))


def lines():
    """The fixed vectors: every family of edges, then random lines."""
    rng = Rng(SEED)
    families = addressruns.EDGES + addressstores.EDGES + EDGES
    made = [text for family in families for text in family(rng)]
    made += [fresh(rng) for _ in range(RANDOM_LINES)]
    hold_to_their_worth(made)
    return made
