"""Holds the model against document 01's samples, against answers worked out
by hand, and against itself.

Run from tests/ as `python3 -m model.selftest`, or directly.
"""

import os
import sys

sys.path.insert(0, os.path.dirname(os.path.dirname(os.path.abspath(__file__))))

from model import control, screen, single, store, words  # noqa: E402
from model import selftest_assembler  # noqa: E402
from model.image import load  # noqa: E402
from model.multicycle import Machine, cycle, signals  # noqa: E402
from model.refusal import SPENT, Refusal  # noqa: E402
from model.replay import answer  # noqa: E402
from model.rng import Rng  # noqa: E402

ZERO_REGISTERS = (0,) * 32
START = Machine(0, 0, 0, 0, 0, 0, 0, ZERO_REGISTERS)
# "5/4/4/3/3": lw 5 cycles, sw and R-format 4, beq and j 3.
CYCLES = {words.LW: 5, words.SW: 4, words.BEQ: 3, words.J: 3}
# Word 0 of 64, the instructions and cycles that a run is given, the refusal:
# after 1 and 2 the byte address and 0 for a fetch, 1 a load, 2 a store.
ACCESSES = (
    (0x8C0100FC, 1, 5, (0,)), (0xAC0100FC, 1, 4, (0,)),
    (0x8C0100FE, 1, 5, (1, 254, 1)), (0xAC0100FE, 1, 4, (1, 254, 2)),
    (0x8C010100, 1, 5, (2, 256, 1)), (0xAC010100, 1, 4, (2, 256, 2)),
    (0x8C00FFFF, 1, 5, (1, 0xFFFFFFFF, 1)), (0x08000040, 2, 4, (2, 256, 0)),
    (0x10008000, 2, 4, (2, 0xFFFE0004, 0)), (0x10008000, 1, 3, (0,)))
# The signals of a cycle at PC 2 and ALUOut 256 over 64 words, and its refusal.
SIGNALLED = (
    ("MemRead", (1, 2, 1)), ("MemRead IRWrite", (1, 2, 0)),
    ("MemWrite", (1, 2, 2)), ("MemWrite IRWrite", (1, 2, 2)),
    ("MemRead MemWrite", (1, 2, 2)), ("MemRead MemWrite IRWrite", (1, 2, 2)),
    ("IorD MemRead", (2, 256, 1)), ("IorD MemRead IRWrite", (2, 256, 0)),
    ("IorD MemWrite", (2, 256, 2)), ("IorD MemRead MemWrite", (2, 256, 2)),
    ("IorD IRWrite", (0,)))


def same(what, got, wanted):
    """Ends the test, saying what, if got and wanted differ."""
    if got != wanted:
        sys.exit(f"selftest: {what}: got {got}, wanted {wanted}")


def refused(call, *arguments):
    """The numbers of the refusal of a call; SPENT where it answers."""
    try:
        call(*arguments)
    except Refusal as no:
        return no.numbers
    return SPENT


def bench(program, unit=3):
    """What `bench` would print: "cycles, instructions, refusal, PC"."""
    image = load([0] * 64, 0, program)
    outcome = control.run(unit, 1000, START, image)
    return (outcome.cycles, outcome.instructions, outcome.refusal[0],
            outcome.machine.PC)


def word_samples():
    """ "Samples at the edges": words, arithmetic and targets."""
    same("lw", words.decode(0x8C01000C), (words.LW, 1, 0, 12))
    same("add", words.decode(0x00211020), (words.ADD, 2, 1, 1))
    same("slt 0", words.arithmetic(words.SLT, 0x7FFFFFFF, 0xFFFFFFFF), 0)
    same("slt 1", words.arithmetic(words.SLT, 0x80000000, 0x7FFFFFFF), 1)
    same("wrap", words.arithmetic(words.ADD, 0xFFFFFFFF, 1), 0)
    same("branch", words.branch_target(8 + 4, 0xFFFF), 8)
    same("far branch", words.branch_target(0 + 4, 0x8000), 0xFFFE0004)
    same("jump", words.jump_target(0x10000000, 0), 0x10000000)
    image = [0x1000_8000] + [0] * 63
    outcome = single.run(2, 0, ZERO_REGISTERS, image)
    same("far fetch", (outcome.refusal, outcome.instructions, outcome.pc),
         ((2, 0xFFFE0004, 0), 1, 0xFFFE0004))


def machine_samples():
    """ "Samples at the edges": state 1, sizes, `bench`."""
    for unit in range(4):
        lost = START._replace(state=1, IR=63 << 26)
        same("opcode 63", control.run(unit, 1, lost, [0]).refusal, (3,))
        same("13 3 3 20", bench([0x8C01000C, 0x00211020, 0x08000004, 7,
                                 0xFC000000], unit), (13, 3, 3, 20))
        same("2 0 4 4", bench([], unit), (2, 0, 4, 4))
        for size, number in ((0, 6), (1, 0), (16384, 0), (16385, 6)):
            outcome = control.run(unit, 1, START, [0] * size)
            same("image size", outcome.refusal[0], number)


def with_word(state, word):
    """The fixed store with one word made another."""
    fixed = store.fixed_store()
    changed = fixed.words[:state] + (word,) + fixed.words[state + 1:]
    return fixed._replace(words=changed)


def access_samples():
    """ "In a 64-word image address 252 loads, 254 answers 1, 256 answers 2",
    with address and kind, on every engine; what each control word accesses;
    a load and a store at PC; the loader."""
    for word, instructions, cycles, wanted in ACCESSES:
        image = [word] + [0] * 63
        got = [control.run(unit, cycles, START, image) for unit in range(4)]
        got.append(store.run(store.fixed_store(), cycles, START, image))
        got.append(single.run(instructions, 0, ZERO_REGISTERS, image))
        same(f"access of {word:08x}", [one.refusal for one in got], [wanted] * 6)
    for asserted, wanted in SIGNALLED:
        given = signals(0)._replace(**{name: 1 for name in asserted.split()})
        machine = START._replace(PC=2, ALUOut=256)
        same(asserted, refused(cycle, machine, [0] * 64, given, 0), wanted)
    for word, kind in ((0x04000, 1), (0x02000, 2)):
        outcome = store.run(with_word(1, word), 9, START, [0])
        same("at PC", (outcome.refusal, outcome.cycles), ((2, 4, kind), 1))
    for size, base, program, wanted in (
            (64, 64, [], SPENT), (64, 63, [7], SPENT), (64, 64, [7], (2, 256, 3)),
            (64, 63, [7, 7], (2, 256, 3)), (1, 0xFFFFFFFF, [], (2, 4, 3)),
            (16384, 16385, [], (2, 65536, 3)), (16385, 16386, [7], (6,))):
        same("loader", refused(load, [0] * size, base, program), wanted)


def screen_samples():
    """The row of a refused cycle as `watch` has it, by hand."""
    for word, row in (
            (0x8C0100FE, "  3 refused with 1: load at byte 254: not a multiple of 4"),
            (0xAC010100, "  5 refused with 2: store at byte 256: outside the image"),
            (0x10008000, "  0 refused with 2: fetch at byte 4294836228: outside the image"),
            (0xAC0100FD, "  5 refused with 1: store at byte 253: not a multiple of 4")):
        shown = screen.table(screen.fixed_engine("rom"), [word] + [0] * 63, 9)
        same("row", shown.splitlines()[-3], "      4" + row)
    shown = screen.table(screen.fixed_engine("rom"), [0xFC000000], 9)
    same("row of a 3", shown.splitlines()[-3],
         "      2  1 refused with 3: the opcode has no entry at this dispatch")


def store_samples():
    """ "Samples at the edges": the fixed store and its three mutants."""
    fixed = store.fixed_store()
    same("fixed", refused(store.check, fixed), SPENT)
    same("word 4", refused(store.check, with_word(4, 0x0080B)), (13, 35, 5, 5))
    same("word 8", refused(store.check, with_word(8, 0x10291)), (13, 4, 8, 6))
    longer = with_word(9, 0x20403)
    same("word 9", refused(store.check, longer), SPENT)
    outcome = store.run(longer, 4, START, [0x08000000])
    same("j in 4", (outcome.cycles, outcome.instructions,
                    outcome.machine.state), (4, 1, 0))
    same("file", store.read_file(store.write_file(fixed, 197)), fixed)


def replay_samples():
    """The examples of REPLAY.md."""
    for line, wanted in ((b"decode 8c01000c", b"0 5 1 0 c"),
                         (b"decode fc000000", b"3"),
                         (b"encode 0 2 1 1", b"0 211020"),
                         (b"encode 0 20 1 1", b"8"),
                         (b"average d 3", b"0 4011555555555555"),
                         (b"average d 0", b"e"), (b"", b""),
                         (b"decode 8C01000C", b"bad case"),
                         (b"load 3e 3 1 2 3 40 0", b"2 100 3 0"),
                         (b"assemble 0 1 6a0961 -", b"bad case"),
                         (b"assemble 8 1 613a6a0961", b"0 1 8000002"),
                         (b"assemble 8 1 0a6a2062", b"16 2"),
                         (b"assemble 2 0 -", b"1"),
                         (b"assemble 4 1000 -", b"0 0"),
                         (b"assemble 4 1001 -", b"bad case"),
                         (b"run 3 1 2" + b" 0" * 38 + b" 40 0",
                          b"1 2 0 0 0 2" + b" 0" * 38 + b" 0")):
        same(line, answer(line), wanted)


def units_agree():
    """ "equal at all 1,024 addresses"; "All four give the same cycle from
    every start"; the fixed store's control is the same again."""
    fixed = store.fixed_store()
    for address in range(1024):
        opcode, state = divmod(address, 16)
        same("ROM and PLA", control.ROM[address],
             control.pla_word(state, opcode))
        if state not in control.FIXED_STATES:
            continue
        answers = [unit(state, opcode) for unit in control.UNITS]
        end = store.follower(fixed, state, opcode)
        answers.append((fixed.words[state] >> 2, None if end == 255 else end))
        same(f"units at {state}, {opcode}", len(set(answers)), 1)
    same("cells", (10 + 20) * len(control.PLA_TERMS), 510)


def codec_agrees(rng):
    """Encoding a decoded word gives the word back, all bits of it."""
    for _ in range(5000):
        word = rng.pick((0, 2, 4, 35, 43)) << 26 | rng.word() >> 6
        if word >> 26 == 0:
            word = word & ~0x7FF | rng.pick((32, 34, 36, 37, 42))
        same("codec", words.encode(words.decode(word)), word)


def random_start(rng):
    """A PC, registers and an image that mostly run on for a while."""
    image = []
    for _ in range(32):
        word = rng.pick((0, 0, 2, 4, 35, 35, 43)) << 26 | rng.word() >> 6
        field = (rng.between(-3, 3) if word >> 28 == 1
                 else 4 * rng.below(12)) & 0xFFFF
        if word >> 26 == 0:
            word = word & ~0x7FF | rng.pick((32, 34, 36, 37, 42, 42))
        elif word >> 26 == 2:
            word = word & 0xFC000000 | rng.below(34)
        else:
            word = word & 0xFFFF0000 | field
        image.append(word if rng.chance(30, 31) else rng.word())
    registers = [4 * rng.below(20) if rng.chance(7, 8) else rng.word()
                 for _ in range(32)]
    return 4 * rng.below(32), registers, image


def compare_machines(unit, pc, registers, image):
    """Demand 2 over one start: equal registers, PC and memory at each return
    to state 0, the right cycles each, and the same refusal at the end: "the
    two machines report the same address and kind"."""
    machine = START._replace(PC=pc, registers=tuple(registers))
    cycles = 0
    for _ in range(60):
        one = single.run(1, pc, registers, image)
        if one.refusal != SPENT:
            many = control.run(unit, 5, machine, image)
            same("refusal", many.refusal, one.refusal)
            fetched = many.cycles > 0
            same("PC after", many.machine.PC, one.pc + 4 if fetched else one.pc)
            same("registers", list(many.machine.registers), one.registers)
            same("memory", many.image, one.image)
            return cycles
        length = CYCLES.get(words.decode(image[pc // 4]).kind, 4)
        many = control.run(unit, length, machine, image)
        same("length", (many.refusal, many.instructions, many.machine.state),
             (SPENT, 1, 0))
        machine, image, registers = many.machine, many.image, one.registers
        same("both", (machine.PC, list(machine.registers), image),
             (one.pc, one.registers, one.image))
        pc, cycles = one.pc, cycles + length
    return cycles


def machines_agree(rng):
    """Demand 2 over random starts, each on one of the four units."""
    cycles = sum(compare_machines(case % 4, *random_start(rng))
                 for case in range(600))
    same("worth", cycles > 20000, True)


def runs_agree(rng):
    """The four units and the fixed store over random starts and latches."""
    fixed = store.fixed_store()
    for _ in range(300):
        pc, registers, image = random_start(rng)
        machine = Machine(pc, rng.pick(image), rng.word(), rng.word(),
                          rng.word(), 4 * rng.below(40), rng.below(10),
                          tuple(registers))
        budget = rng.below(60)
        outcomes = [control.run(unit, budget, machine, image)
                    for unit in range(4)]
        path = store.walk(fixed, words.opcode(machine.IR)).states
        if machine.state in path:
            outcomes.append(store.run(fixed, budget, machine, image))
        same("runs", [one for one in outcomes if one != outcomes[0]], [])


def main():
    """Every part; silence but for one line means all is well."""
    word_samples()
    machine_samples()
    access_samples()
    screen_samples()
    store_samples()
    replay_samples()
    units_agree()
    codec_agrees(Rng(1))
    machines_agree(Rng(2))
    runs_agree(Rng(3))
    selftest_assembler.samples(same)
    selftest_assembler.mnemonics_agree(same, Rng(4))
    selftest_assembler.targets_agree(same, Rng(5))
    print("selftest: all agree")


if __name__ == "__main__":
    main()
