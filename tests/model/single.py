"""The single-cycle machine: "keeps registers and PC only"."""

from collections import namedtuple

from .image import FETCH, LARGEST_BUDGET, LOAD, STORE, check_size, word_index
from .refusal import BUDGET, SPENT, Refusal
from .words import (BEQ, J, LW, MASK, SW, arithmetic, branch_target, decode,
                    jump_target, sign_extend)

Outcome = namedtuple("Outcome", "refusal instructions pc registers image")


def read_register(registers, number):
    """ "Register 0 reads 0 ... its cell is neither read nor written" """
    return registers[number] if number else 0


def write_register(registers, number, value):
    """ "a write to it is dropped (MIPS32)" """
    if number:
        registers[number] = value


def one_instruction(pc, registers, image):
    """ "Single-cycle: fetch 1, 2; then 3; 4; data 1, 2"; answers the next PC.
    "A refused cycle or instruction changes nothing": every refusal comes
    before the first write."""
    kind, f1, f2, f3 = decode(image[word_index(image, pc, FETCH)])
    following = (pc + 4) & MASK
    if kind == J:
        return jump_target(following, f1)
    if kind == BEQ:
        equal = read_register(registers, f1) == read_register(registers, f2)
        return branch_target(following, f3) if equal else following
    if kind in (LW, SW):
        address = (read_register(registers, f2) + sign_extend(f3)) & MASK
        index = word_index(image, address, LOAD if kind == LW else STORE)
        if kind == LW:
            write_register(registers, f1, image[index])
        else:
            image[index] = read_register(registers, f1)
        return following
    first, second = read_register(registers, f2), read_register(registers, f3)
    write_register(registers, f1, arithmetic(kind, first, second))
    return following


def run(budget, pc, registers, image):
    """ "Before a run: 6, 7"; then instructions until the budget is spent or
    one is refused; "the run returns the state and counts reached"."""
    registers, image = list(registers), list(image)
    count = 0
    try:
        check_size(image)
        if budget > LARGEST_BUDGET:
            raise Refusal(BUDGET)
        while count < budget:
            pc = one_instruction(pc, registers, image)
            count += 1
    except Refusal as no:
        return Outcome(no.numbers, count, pc, registers, image)
    return Outcome(SPENT, count, pc, registers, image)
