"""A writable store: its walks, the six rules, its file and its run.

From document 01, "Walks and the six rules" and "Store file". The rules are
said position by position over walks that are worked out whole beforehand.
"""

from collections import namedtuple

from .control import CONTROL_WORDS, DISPATCH_1, DISPATCH_2
from .multicycle import check_limits, refused_before, run_cycles, signals
from .refusal import (FILE_LENGTH, FILE_MARK, FILE_VERSION, START_STATE,
                      STORE_NUMBER, WALK_RULE, Refusal)
from .words import opcode as opcode_of

FILE_BYTES = 197
MARK = b"MCS"
VERSION = 1
NONE = 255          # "each a state 0 to 15 or 255 for none"
PAST_THE_LAST = 16  # where state 15 would count on to

# words: 16 numbers; rom1, rom2: 64 numbers each.
Store = namedtuple("Store", "words rom1 rom2")
# states: those entered, in order; end: what the last of them would enter.
Walk = namedtuple("Walk", "states end")


def fixed_store():
    """ "the ten words above, words 10 to 15 zero, all other entries 255" """
    return Store(CONTROL_WORDS + (0,) * 6,
                 tuple(DISPATCH_1.get(opcode, NONE) for opcode in range(64)),
                 tuple(DISPATCH_2.get(opcode, NONE) for opcode in range(64)))


def follower(store, state, opcode):
    """Where AddrCtl sends a state: 0 to 15, NONE or PAST_THE_LAST."""
    choices = (0, store.rom1[opcode], store.rom2[opcode], state + 1)
    return choices[store.words[state] & 3]


def walk(store, opcode):
    """ "starts in state 0 and follows AddrCtl with that opcode until it would
    enter 0 again, meets a missing entry or breaks rule 6" """
    states, end = [], 0
    while True:
        states.append(end)
        end = follower(store, end, opcode)
        if end in states or end in (NONE, PAST_THE_LAST):
            return Walk(states, end)


def control_at(store, path, position):
    """The signals of the state at a position of a walk."""
    return signals(store.words[path.states[position]] >> 2)


def breaks_1(store, path, position):
    """ "State 0 has MemRead and IRWrite, not IorD, and AddrCtl 3." """
    if path.states[position] != 0:
        return False
    control = control_at(store, path, position)
    return not (control.MemRead and control.IRWrite and not control.IorD
                and store.words[0] & 3 == 3)


def breaks_2(store, path, position):
    """ "No other state on it has IRWrite." """
    control = control_at(store, path, position)
    return path.states[position] != 0 and control.IRWrite == 1


def breaks_3(store, path, position):
    """ "No state has MemRead with MemWrite." """
    control = control_at(store, path, position)
    return control.MemRead == 1 and control.MemWrite == 1


def breaks_4(store, path, position):
    """ "ALUOp and PCSource are never 3." """
    control = control_at(store, path, position)
    return control.ALUOp == 3 or control.PCSource == 3


def breaks_5(store, path, position):
    """ "After a state with RegWrite or MemWrite, no later state has MemRead,
    MemWrite or ALUOp 2, or takes a missing entry." """
    earlier = [control_at(store, path, before) for before in range(position)]
    if not any(one.RegWrite or one.MemWrite for one in earlier):
        return False
    control = control_at(store, path, position)
    last = position == len(path.states) - 1
    return bool(control.MemRead or control.MemWrite or control.ALUOp == 2
                or last and path.end == NONE)


def breaks_6(store, path, position):
    """ "No state is entered twice, and state 15 never counts on"; "charged to
    the state being left". Entering 0 again is the end of every walk."""
    last = position == len(path.states) - 1
    return last and (path.end == PAST_THE_LAST
                     or path.end != 0 and path.end in path.states)


RULES = {1: breaks_1, 2: breaks_2, 3: breaks_3, 4: breaks_4, 5: breaks_5,
         6: breaks_6}


def breaches(store):
    """Every breach, in the order in which one is named: "the lowest opcode's,
    first state on its walk, lowest rule there"."""
    walks = [walk(store, opcode) for opcode in range(64)]
    return ((opcode, path.states[position], rule)
            for opcode, path in enumerate(walks)
            for position in range(len(path.states))
            for rule in RULES
            if RULES[rule](store, path, position))


def check_numbers(store):
    """ "store word of 2^18 or more, or entry 16 to 254" """
    if (any(word >= 1 << 18 for word in store.words)
            or any(16 <= entry <= 254 for entry in store.rom1 + store.rom2)):
        raise Refusal(STORE_NUMBER)


def check(store):
    """ "Check: 12, 13." """
    check_numbers(store)
    for breach in breaches(store):
        raise Refusal(WALK_RULE, *breach)


def read_file(octets):
    """ "Reading a file: 9, 10, 11, 12"; "197 bytes: mark "MCS", version 1 as
    16 bits, sixteen words of 32 bits, ROM 1 then ROM 2 as bytes; numbers high
    byte first"."""
    if len(octets) != FILE_BYTES:
        raise Refusal(FILE_LENGTH)
    if octets[:3] != MARK:
        raise Refusal(FILE_MARK)
    if int.from_bytes(octets[3:5], "big") != VERSION:
        raise Refusal(FILE_VERSION)
    words = tuple(int.from_bytes(octets[at:at + 4], "big")
                  for at in range(5, 69, 4))
    store = Store(words, tuple(octets[69:133]), tuple(octets[133:197]))
    check_numbers(store)
    return store


def write_file(store, buffer_length):
    """ "writing: 9, 12"; answers the bytes the buffer then holds."""
    if buffer_length != FILE_BYTES:
        raise Refusal(FILE_LENGTH)
    check_numbers(store)
    words = b"".join(word.to_bytes(4, "big") for word in store.words)
    return (MARK + VERSION.to_bytes(2, "big") + words
            + bytes(store.rom1) + bytes(store.rom2))


def run(store, budget, machine, image):
    """ "Before a run: 6, 7, 12, 13, 5"; "a store run takes 0 or a state on
    the walk of the opcode in IR"."""
    def lookup(state, opcode):
        """The word's control bits, and where AddrCtl sends the state."""
        end = follower(store, state, opcode)
        return store.words[state] >> 2, None if end == NONE else end

    try:
        check_limits(budget, image)
        check(store)
        if machine.state not in walk(store, opcode_of(machine.IR)).states:
            raise Refusal(START_STATE)
    except Refusal as no:
        return refused_before(no, machine, image)
    return run_cycles(lookup, budget, machine, image)
