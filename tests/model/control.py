"""The four fixed control units and the run of one of them.

From document 01, "Control". Each unit answers (16 control bits, next state)
for a state and an opcode, with None for a dispatch that has no entry. The
four are written apart on purpose, each from its own form of the same table.
"""

from .multicycle import check_limits, refused_before, run_cycles
from .refusal import START_STATE, Refusal

FIXED_STATES = range(10)
OUTPUTS = ("PCWrite PCWriteCond IorD MemRead MemWrite IRWrite MemtoReg "
           "PCSource1 PCSource0 ALUOp1 ALUOp0 ALUSrcB1 ALUSrcB0 ALUSrcA "
           "RegWrite RegDst").split()

# The state table: what each state asserts, and where it goes by opcode
# ("any" where "the opcode plays no part").
STATE_TABLE = {
    0: ("PCWrite MemRead IRWrite ALUSrcB0", {"any": 1}),
    1: ("ALUSrcB1 ALUSrcB0", {0: 6, 2: 9, 4: 8, 35: 2, 43: 2}),
    2: ("ALUSrcB1 ALUSrcA", {35: 3, 43: 5}),
    3: ("IorD MemRead", {"any": 4}),
    4: ("MemtoReg RegWrite", {"any": 0}),
    5: ("IorD MemWrite", {"any": 0}),
    6: ("ALUOp1 ALUSrcA", {"any": 7}),
    7: ("RegWrite RegDst", {"any": 0}),
    8: ("PCWriteCond PCSource0 ALUOp0 ALUSrcA", {"any": 0}),
    9: ("PCWrite PCSource1", {"any": 0}),
}


def state_table(state, opcode):
    """The state table, asserted signals by name."""
    asserted, following = STATE_TABLE[state]
    bits = sum(0x8000 >> OUTPUTS.index(name) for name in asserted.split())
    return bits, following.get("any", following.get(opcode))


# The equations of source document 002: each output bit is the sum of states.
EQUATIONS = {
    "PCWrite": (0, 9), "PCWriteCond": (8,), "IorD": (3, 5), "MemRead": (0, 3),
    "MemWrite": (5,), "IRWrite": (0,), "MemtoReg": (4,), "PCSource1": (9,),
    "PCSource0": (8,), "ALUOp1": (6,), "ALUOp0": (8,), "ALUSrcB1": (1, 2),
    "ALUSrcB0": (0, 1), "ALUSrcA": (2, 6, 8), "RegWrite": (4, 7),
    "RegDst": (7,),
}


def equation_next_state(state, opcode):
    """NextState0 to NextState9 of 002's equations; 0 where none holds."""
    holds = {1: state == 0, 4: state == 3, 7: state == 6,
             2: state == 1 and opcode in (35, 43),
             3: state == 2 and opcode == 35, 5: state == 2 and opcode == 43,
             6: state == 1 and opcode == 0, 8: state == 1 and opcode == 4,
             9: state == 1 and opcode == 2}
    return sum(number for number, true in holds.items() if true)


def rom_entry(address):
    """ "16 control bits in 19-4 and the next state in 3-0", at the address
    "opcode times 16 plus state"."""
    opcode, state = divmod(address, 16)
    entry = equation_next_state(state, opcode)
    for place, name in enumerate(OUTPUTS):
        entry |= (state in EQUATIONS[name]) << 19 - place
    return entry


ROM = tuple(rom_entry(address) for address in range(1024))


def rom(state, opcode):
    """ "a constant ROM of 1,024 entries"; in the dispatching states 1 and 2 a
    next state of 0 stands for a missing entry: "each answers refusal 3"."""
    entry = ROM[opcode * 16 + state]
    following = entry & 15
    missing = state in (1, 2) and following == 0
    return entry >> 4, None if missing else following


# "a PLA of 17 product terms": opcode bits and state bits of the AND plane
# ("-" is not read), control bits and next state bits of the OR plane.
PLA_TERMS = tuple(row.split() for row in """
------ 0000 1001010000001000 0001
------ 0001 0000000000011000 0000
------ 0010 0000000000010100 0000
------ 0011 0011000000000000 0100
------ 0100 0000001000000010 0000
------ 0101 0010100000000000 0000
------ 0110 0000000001000100 0111
------ 0111 0000000000000011 0000
------ 1000 0100000010100100 0000
------ 1001 1000000100000000 0000
000000 0001 0000000000000000 0110
000010 0001 0000000000000000 1001
000100 0001 0000000000000000 1000
100011 0001 0000000000000000 0010
101011 0001 0000000000000000 0010
100011 0010 0000000000000000 0011
101011 0010 0000000000000000 0101
""".strip().splitlines())


def pla_fired(state, opcode):
    """The terms whose every read input agrees."""
    inputs = f"{opcode:06b}{state:04b}"
    return [term for term in PLA_TERMS
            if all(want in ("-", got)
                   for want, got in zip(term[0] + term[1], inputs))]


def pla_word(state, opcode):
    """The sum (or) of the terms that fire; "Where no term fires, bits are 0"."""
    word = 0
    for _, _, outputs, following in pla_fired(state, opcode):
        word |= int(outputs + following, 2)
    return word


PLA_MEMORY = {}


def pla(state, opcode):
    """The PLA as a unit. A state that has terms reading the opcode dispatches;
    where none of them fires the engine "answers refusal 3 first"."""
    if (state, opcode) not in PLA_MEMORY:
        reading = [t for t in PLA_TERMS
                   if t[0] != "------" and int(t[1], 2) == state]
        fires = any(t[0] != "------" for t in pla_fired(state, opcode))
        word = pla_word(state, opcode)
        following = None if reading and not fires else word & 15
        PLA_MEMORY[state, opcode] = (word >> 4, following)
    return PLA_MEMORY[state, opcode]


# "States 0 to 9, in hexadecimal"; "Dispatch 1", "Dispatch 2".
CONTROL_WORDS = (0x25023, 0x00061, 0x00052, 0x0C003, 0x00808,
                 0x0A000, 0x00113, 0x0000C, 0x10290, 0x20400)
DISPATCH_1 = {0: 6, 2: 9, 4: 8, 35: 2, 43: 2}
DISPATCH_2 = {35: 3, 43: 5}


def sequencer(state, opcode):
    """ "AddrCtl, 0 go to 0, 1 dispatch ROM 1, 2 dispatch ROM 2, 3 next
    number" """
    word = CONTROL_WORDS[state]
    following = (0, DISPATCH_1.get(opcode), DISPATCH_2.get(opcode), state + 1)
    return word >> 2, following[word & 3]


UNITS = (state_table, rom, pla, sequencer)


def run(unit, budget, machine, image):
    """ "Before a run: 6, 7, 12, 13, 5"; "fixed units take 0 to 9"."""
    try:
        check_limits(budget, image)
        if machine.state not in FIXED_STATES:
            raise Refusal(START_STATE)
    except Refusal as no:
        return refused_before(no, machine, image)
    return run_cycles(UNITS[unit], budget, machine, image)
