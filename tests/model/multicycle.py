"""The multicycle datapath: one clock cycle under one control word.

From document 01, "One clock cycle" and the word layout of "Control".
"""

from collections import namedtuple
from functools import lru_cache

from .image import FETCH, LARGEST_BUDGET, LOAD, STORE, check_size, word_index
from .refusal import BUDGET, NO_ENTRY, SPENT, UNKNOWN_FUNCTION, Refusal
from .words import (ADD, FUNCTION_KINDS, MASK, SUB, arithmetic, field16,
                    field26, function, jump_target, opcode, rd, rs, rt,
                    sign_extend)

# "Word bits 17 to 2, in order", each with its width.
SIGNALS = (("PCWrite", 1), ("PCWriteCond", 1), ("IorD", 1), ("MemRead", 1),
           ("MemWrite", 1), ("IRWrite", 1), ("MemtoReg", 1), ("PCSource", 2),
           ("ALUOp", 2), ("ALUSrcB", 2), ("ALUSrcA", 1), ("RegWrite", 1),
           ("RegDst", 1))
Signals = namedtuple("Signals", [name for name, _ in SIGNALS])
Outcome = namedtuple("Outcome", "refusal cycles instructions machine image")

# "Latches: PC, IR, MDR, A, B, ALUOut, state number", and the registers.
Machine = namedtuple("Machine", "PC IR MDR A B ALUOut state registers")


@lru_cache(maxsize=8192)
def signals(bits):
    """The sixteen control bits (a word's bits 17-2) parted into signals."""
    values, left = [], 16
    for _, width in SIGNALS:
        left -= width
        values.append(bits >> left & (1 << width) - 1)
    return Signals(*values)


def read_register(machine, number):
    """ "Register 0 reads 0" whatever its cell holds."""
    return machine.registers[number] if number else 0


def alu_inputs(machine, control):
    """ "ALU first input: PC, or A if ALUSrcA. Second by ALUSrcB: 0 B, 1 the
    constant 4, 2 sign-extended field, 3 that times four" """
    extended = sign_extend(field16(machine.IR))
    first = machine.A if control.ALUSrcA else machine.PC
    second = (machine.B, 4, extended, 4 * extended & MASK)[control.ALUSrcB]
    return first, second


def alu_kind(machine, control):
    """ "ALUOp 0 adds, 1 subtracts, 2 goes by function, the low eleven bits of
    the starting IR"; refusal 4 is "ALUOp 2 and unknown function"."""
    if control.ALUOp == 2:
        if function(machine.IR) not in FUNCTION_KINDS:
            raise Refusal(UNKNOWN_FUNCTION)
        return FUNCTION_KINDS[function(machine.IR)]
    return SUB if control.ALUOp == 1 else ADD


def next_pc(machine, control, result):
    """ "PC is written if PCWrite, or if PCWriteCond and the ALU result is 0.
    PCSource: 0 ALU result, 1 ALUOut, 2 jump target from the current PC." """
    if not (control.PCWrite or control.PCWriteCond and result == 0):
        return machine.PC
    if control.PCSource == 0:
        return result
    if control.PCSource == 1:
        return machine.ALUOut
    return jump_target(machine.PC, field26(machine.IR))


def next_registers(machine, control):
    """ "RegWrite: register rt, or rd if RegDst, takes ALUOut, or MDR if
    MemtoReg"; a write to register 0 is dropped."""
    number = rd(machine.IR) if control.RegDst else rt(machine.IR)
    if not control.RegWrite or number == 0:
        return machine.registers
    value = machine.MDR if control.MemtoReg else machine.ALUOut
    return machine.registers[:number] + (value,) + machine.registers[number + 1:]


def accessed(machine, image, control):
    """The index of the word that a cycle with MemRead or MemWrite accesses.
    "Memory address: PC, or ALUOut if IorD"; "MemWrite stores B", a store even
    beside a MemRead, which no admitted store has; "A read with IRWrite is a
    fetch, any other a load", even where the address is PC."""
    address = machine.ALUOut if control.IorD else machine.PC
    if control.MemWrite:
        return word_index(image, address, STORE)
    return word_index(image, address, FETCH if control.IRWrite else LOAD)


def cycle(machine, image, control, successor):
    """One clock cycle: every value is worked out from the starting machine
    and image, then the image is written and the next machine answered.
    `successor` is the next state, None where a dispatch has no entry.
    "Within a cycle: 1, 2, 4, 3." """
    if control.MemRead or control.MemWrite:
        index = accessed(machine, image, control)
    kind = alu_kind(machine, control)
    if successor is None:
        raise Refusal(NO_ENTRY)
    result = arithmetic(kind, *alu_inputs(machine, control))
    loaded = image[index] if control.MemRead else machine.MDR
    fetched = control.MemRead and control.IRWrite
    after = Machine(
        PC=next_pc(machine, control, result),
        IR=loaded if fetched else machine.IR,
        MDR=loaded,
        A=read_register(machine, rs(machine.IR)),
        B=read_register(machine, rt(machine.IR)),
        ALUOut=result,
        state=successor,
        registers=next_registers(machine, control))
    if control.MemWrite:
        image[index] = machine.B
    return after


def check_limits(budget, image):
    """ "Before a run: 6, 7" """
    check_size(image)
    if budget > LARGEST_BUDGET:
        raise Refusal(BUDGET)


def refused_before(refusal, machine, image):
    """ "Refusals before a run return the given state and zeros and leave the
    image untouched." """
    return Outcome(refusal.numbers, 0, 0, machine, image)


def run_cycles(lookup, budget, machine, image):
    """Cycles until the budget is spent or one is refused. `lookup` answers
    the control bits and the next state of a state and the opcode in IR.
    "Instructions counted are the completed cycles that enter state 0." """
    image = list(image)
    cycles = instructions = 0
    while cycles < budget:
        bits, successor = lookup(machine.state, opcode(machine.IR))
        try:
            machine = cycle(machine, image, signals(bits), successor)
        except Refusal as no:
            return Outcome(no.numbers, cycles, instructions, machine, image)
        cycles += 1
        if machine.state == 0:
            instructions += 1
    return Outcome(SPENT, cycles, instructions, machine, image)
