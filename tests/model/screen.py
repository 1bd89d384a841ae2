"""What `watch` shows of a run: its table, and what stands at each clock.

Written from docs/REFERENCE.md and the head of the table alone: a row a cycle,
with the latches after it and what it wrote, and the signals below it.
"""

from collections import namedtuple

from . import control, single, store as stores
from .multicycle import SIGNALS, Machine, signals
from .refusal import SPENT
from .words import (FUNCTION_KINDS, OPCODE_KINDS, LW, SW, BEQ, J, field16,
                    field26, function, opcode, rd, rs, rt)

HEAD = ("  cycle st PC       IR       MDR      A        B        ALUOut   "
        "instruction in IR    register        memory\n"
        "           signals asserted\n")
NAMES = ("add", "sub", "and", "or", "slt", "lw", "sw", "beq", "j")
FIXED = {"table": 0, "rom": 1, "pla": 2, "sequencer": 3}
START = Machine(0, 0, 0, 0, 0, 0, 0, (0,) * 32)
KINDS = ("fetch", "load", "store", "loader")    # of access, by number
MEANINGS = {
    1: "not a multiple of 4",
    2: "outside the image",
    3: "the opcode has no entry at this dispatch",
    4: "ALUOp is 2 and the function is unknown",
}
WIDTH = 120
REGISTER_COLUMN, MEMORY_COLUMN = 86, 102

# An engine: the run of a budget, and the control word and AddrCtl of a state.
Engine = namedtuple("Engine", "run word sequenced")
# One cycle: machines and images at its start and end, its refusal if any.
Step = namedtuple("Step", "machine image after left refusal")


def fixed_engine(name):
    """One of the four fixed units. Only the sequencer has AddrCtl."""
    unit = FIXED[name]

    def word(state, code):
        bits, _ = control.UNITS[unit](state, code)
        low = control.CONTROL_WORDS[state] & 3 if name == "sequencer" else 0
        return bits << 2 | low

    def run(budget, machine, image):
        return control.run(unit, budget, machine, image)
    return Engine(run, word, name == "sequencer")


def store_engine(octets):
    """A store, from the bytes of its file."""
    store = stores.read_file(octets)

    def run(budget, machine, image):
        return stores.run(store, budget, machine, image)
    return Engine(run, lambda state, code: store.words[state], True)


def signed(field):
    """A 16-bit field as a signed number."""
    return field - 0x10000 if field & 0x8000 else field


def mnemonic(word):
    """A word as an instruction; one of none of the nine by its fields."""
    number = signed(field16(word))
    if opcode(word) == 0:
        if function(word) not in FUNCTION_KINDS:
            return f"function {function(word)}"
        name = NAMES[FUNCTION_KINDS[function(word)]]
        return f"{name} ${rd(word)},${rs(word)},${rt(word)}"
    kind = OPCODE_KINDS.get(opcode(word))
    if kind in (LW, SW):
        return f"{NAMES[kind]} ${rt(word)},{number}(${rs(word)})"
    if kind == J:
        return f"j {4 * field26(word)}"
    start = "beq" if kind == BEQ else f"op {opcode(word)}"
    return f"{start} ${rs(word)},${rt(word)},{number}"


def steps(engine, image, budget):
    """A run cycle by cycle, each a run with budget 1; the last may be refused."""
    machine, image = START, list(image)
    for _ in range(budget):
        done = engine.run(1, machine, image)
        refusal = None if done.refusal == SPENT else done.refusal
        yield Step(machine, image, done.machine, done.image, refusal)
        if refusal:
            return
        machine, image = done.machine, done.image


def signal_values(engine, machine):
    """The signals of the cycle that a machine is about to do, by name."""
    word = engine.word(machine.state, opcode(machine.IR))
    named = list(zip([name for name, _ in SIGNALS], signals(word >> 2)))
    return named + [("AddrCtl", word & 3)] * engine.sequenced


def signal_line(engine, machine):
    """The names of the signals that are asserted; those of two bits with their value."""
    wide = [name for name, width in SIGNALS if width == 2] + ["AddrCtl"]
    shown = [f"{name}={value}" if name in wide else name
             for name, value in signal_values(engine, machine) if value]
    return " " * 11 + (" ".join(shown) or "none") + "\n"


def wrote(engine, step):
    """What a cycle wrote: to a register, and to memory."""
    named = dict(signal_values(engine, step.machine))
    register, memory = "", ""
    if named["RegWrite"]:
        number = (rd if named["RegDst"] else rt)(step.machine.IR)
        register = (f"${number} = {step.after.registers[number]:08x}" if number
                    else "$0 dropped")
    if named["MemWrite"]:
        index = (step.machine.ALUOut if named["IorD"] else step.machine.PC) // 4
        memory = f"word {index} = {step.left[index]:08x}"
    return register, memory


def row(engine, number, step):
    """A cycle's row and its line of signals."""
    latches = " ".join(f"{latch:08x}" for latch in step.after[:6])
    text = f"{number:7} {step.machine.state:2} {latches} {mnemonic(step.after.IR)}"
    for column, part in zip((REGISTER_COLUMN, MEMORY_COLUMN), wrote(engine, step)):
        if part:
            text = text.ljust(column) + part
    return text + "\n" + signal_line(engine, step.machine)


def refused_row(number, step):
    """The row of a refused cycle: the refusal and what it means, with the kind
    and the byte address of the access where one was refused."""
    refusal, *access = step.refusal
    text = f"{number:7} {step.machine.state:2} refused with {refusal}: "
    if access:
        address, kind = access
        text += f"{KINDS[kind]} at byte {address}: "
    return text + MEANINGS[refusal] + "\n"


def beside(instructions, step, start):
    """The line of the single-cycle machine after as many instructions."""
    other = single.run(instructions, 0, [0] * 32, start)
    text = f"        -- instruction {instructions}: single-cycle machine at PC {other.pc:08x}"
    if other.refusal != SPENT:
        text += f", stopped with {other.refusal[0]}"
    differs = ["PC"] * (step.after.PC != other.pc)
    differs += [f"${at}" for at in range(32) if step.after.registers[at] != other.registers[at]]
    differs += [f"word {at}" for at, value in enumerate(other.image) if step.left[at] != value]
    if not differs:
        return text + ", no difference\n"
    text += f", differs in {len(differs)}:"
    for name in differs:
        if len(text) <= WIDTH - 8:
            text += " " + name
    return text + "\n"


def last_line(engine, image, budget):
    """What `bench` would print of the run with the whole budget."""
    whole = engine.run(budget, START, list(image))
    return (f"{whole.cycles} {whole.instructions} {whole.refusal[0]} "
            f"{whole.machine.PC}\n")


def table(engine, image, budget):
    """The whole screen of a run."""
    parts, instructions = [HEAD], 0
    for number, step in enumerate(steps(engine, image, budget), 1):
        if step.refusal:
            parts.append(refused_row(number, step))
            parts.append(signal_line(engine, step.machine))
            break
        parts.append(row(engine, number, step))
        if step.after.state == 0:
            instructions += 1
            parts.append(beside(instructions, step, image))
    return "".join([*parts, last_line(engine, image, budget)])


def clocks(engine, image, budget):
    """What stands from each clock on, by name: latches, text and signals."""
    machines = [START] + [step.after for step in steps(engine, image, budget)
                          if not step.refusal]
    found = []
    for machine in machines:
        values = dict(zip(Machine._fields, machine[:7]))
        values.update(signal_values(engine, machine))
        values["instruction"] = mnemonic(machine.IR).ljust(20)
        found.append(values)
    return found
