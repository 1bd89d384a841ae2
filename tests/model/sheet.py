"""The sheets of `bench`: what it prints, and what its run leaves in memory."""

import re

from . import control
from .image import load
from .multicycle import Machine

# "at most 64 lines of eight lower-case hexadecimal digits, each ended by a
# newline"
SHEET = re.compile(rb"([0-9a-f]{8}\n){0,64}")
START = Machine(0, 0, 0, 0, 0, 0, 0, (0,) * 32)
SEQUENCER = 3
BUDGET = 1000


def outcome(text):
    """ "into a zeroed 64-word image, runs the sequencer from PC 0 and zero
    registers with budget 1,000"; the image as loaded and the run, or None
    where the text is no sheet."""
    if not SHEET.fullmatch(text):
        return None
    image = load([0] * 64, 0, [int(digits, 16) for digits in text.split()])
    return image, control.run(SEQUENCER, BUDGET, START, image)


def printed(text):
    """ "prints one line: cycles, instructions, refusal (0 if spent), PC, in
    decimal. Other input prints `bad input`." """
    found = outcome(text)
    if found is None:
        return b"bad input\n"
    _, run = found
    return (f"{run.cycles} {run.instructions} {run.refusal[0]} "
            f"{run.machine.PC}\n").encode()


def changed(text):
    """The words that the run left other than they were loaded: index and
    value, by rising index."""
    found = outcome(text)
    if found is None:
        return []
    image, run = found
    return [(index, new) for index, (old, new) in enumerate(zip(image, run.image))
            if old != new]
