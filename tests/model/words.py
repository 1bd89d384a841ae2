"""Instruction words: fields, sign extension, arithmetic, decode, encode.

From document 01, "Instruction words". Kinds are numbered as in REPLAY.md.
"""

from collections import namedtuple
from functools import lru_cache

from .refusal import FIELD_TOO_LARGE, NO_ENTRY, UNKNOWN_FUNCTION, Refusal

MASK = 0xFFFFFFFF

ADD, SUB, AND, OR, SLT, LW, SW, BEQ, J = range(9)

# "function 32 add, 34 sub, 36 and, 37 or, 42 slt"
FUNCTION_KINDS = {32: ADD, 34: SUB, 36: AND, 37: OR, 42: SLT}
# "lw 35, sw 43, beq 4", "j 2"
OPCODE_KINDS = {35: LW, 43: SW, 4: BEQ, 2: J}
KIND_FUNCTIONS = {kind: number for number, kind in FUNCTION_KINDS.items()}
KIND_OPCODES = {kind: number for number, kind in OPCODE_KINDS.items()}

# Fields: R-format rd rs rt; lw, sw rt rs field; beq rs rt field; j field 0 0.
Instruction = namedtuple("Instruction", "kind f1 f2 f3")


def opcode(word):
    """The upper six bits."""
    return word >> 26


def rs(word):
    """ "rs 25-21" """
    return word >> 21 & 31


def rt(word):
    """ "rt 20-16" """
    return word >> 16 & 31


def rd(word):
    """ "rd 15-11" """
    return word >> 11 & 31


def function(word):
    """ "all eleven low bits are compared (MIPS32)" """
    return word & 0x7FF


def field16(word):
    """The 16-bit field of lw, sw and beq, not yet signed."""
    return word & 0xFFFF


def field26(word):
    """ "j 2: 26-bit field" """
    return word & 0x3FFFFFF


def sign_extend(field):
    """ "signed 16-bit field", as a 32-bit word."""
    return field | 0xFFFF0000 if field & 0x8000 else field


def signed(word):
    """A 32-bit word read as a signed number."""
    return word - (1 << 32) if word & 0x80000000 else word


def arithmetic(kind, first, second):
    """ "All sums and differences are taken modulo 2^32"; "slt compares as
    signed numbers and answers 1 or 0"."""
    if kind == ADD:
        return (first + second) & MASK
    if kind == SUB:
        return (first - second) & MASK
    if kind == AND:
        return first & second
    if kind == OR:
        return first | second
    return 1 if signed(first) < signed(second) else 0


def branch_target(following, field):
    """ "address of the branch, plus 4, plus four times the signed field";
    `following` is the address plus 4."""
    return (following + 4 * sign_extend(field)) & MASK


def jump_target(following, field):
    """ "upper four bits of (address + 4), the 26 bits, two zeros" """
    return (following & 0xF0000000) | field << 2


@lru_cache(maxsize=8192)
def decode(word):
    """ "Decoding answers 3 or 4": an unknown opcode, or an unknown function
    under opcode 0."""
    if opcode(word) == 0:
        if function(word) not in FUNCTION_KINDS:
            raise Refusal(UNKNOWN_FUNCTION)
        kind = FUNCTION_KINDS[function(word)]
        return Instruction(kind, rd(word), rs(word), rt(word))
    if opcode(word) not in OPCODE_KINDS:
        raise Refusal(NO_ENTRY)
    kind = OPCODE_KINDS[opcode(word)]
    if kind == J:
        return Instruction(J, field26(word), 0, 0)
    if kind == BEQ:
        return Instruction(BEQ, rs(word), rt(word), field16(word))
    return Instruction(kind, rt(word), rs(word), field16(word))


def encode(instruction):
    """ "encoding refuses a register above 31 or a j field of 2^26 or more" """
    kind, f1, f2, f3 = instruction
    if kind == J:
        if f1 >= 1 << 26:
            raise Refusal(FIELD_TOO_LARGE)
        return KIND_OPCODES[J] << 26 | f1
    registers = (f1, f2, f3) if kind in KIND_FUNCTIONS else (f1, f2)
    if any(register > 31 for register in registers):
        raise Refusal(FIELD_TOO_LARGE)
    if kind in KIND_FUNCTIONS:
        return f2 << 21 | f3 << 16 | f1 << 11 | KIND_FUNCTIONS[kind]
    source, target = (f1, f2) if kind == BEQ else (f2, f1)
    return KIND_OPCODES[kind] << 26 | source << 21 | target << 16 | f3
