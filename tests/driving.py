"""What the tests that drive `replay` share: sheets, cases of 64 words, and its answers taken apart."""

import os
import subprocess
import sys

TESTS = os.path.dirname(os.path.abspath(__file__))
TOP = os.path.dirname(TESTS)
sys.path.insert(0, TESTS)

from vectors.common import image, line, machine, program  # noqa: E402

IMAGE_WORDS = 64     # of `bench`, and of every sheet
BUDGET = 1000        # of `bench`
# What the model has and no program yet: cases of `replay`, each with one that the model answers, and
# the refusals that only they have.
UNFINISHED = {b"assemble": b"assemble 0 0 -"}
UNFINISHED_REFUSALS = range(19, 25)
# How many numbers follow a refusal's own: address and kind; opcode, state and rule.
PARTS = {1: 2, 2: 2, 13: 3}


def sheet_words(path):
    """The words of a sheet."""
    with open(path, encoding="ascii") as file:
        return [int(text, 16) for text in file]


def run_line(unit, words, budget=BUDGET):
    """A `run` from zero registers and latches, over a sheet's image."""
    return line("run", unit, budget, machine(), image(IMAGE_WORDS, program(words)))


def store_line(store, words, budget=BUDGET):
    """The same under a store, given as its 144 numbers."""
    return line("store", budget, store, machine(), image(IMAGE_WORDS, program(words)))


def launched(name, text=b""):
    """What a program writes, given a text; it ends the test where the program cannot be run."""
    ran = subprocess.run([os.path.join(TESTS, "launch"), name], input=text,
                         stdout=subprocess.PIPE, check=False)
    if ran.returncode != 0:
        sys.exit(f"tests/launch {name} ended with {ran.returncode}")
    return ran.stdout


def replay(lines):
    """The answers of `replay`, one a line."""
    answers = launched("replay", b"".join(text + b"\n" for text in lines)).split(b"\n")
    if len(answers) != len(lines) + 1 or answers[-1] != b"":
        sys.exit(f"replay: {len(answers) - 1} answers to {len(lines)} lines")
    return answers[:-1]


def parted(answer):
    """The numbers of an answer of `replay`: those of its refusal, and those after them."""
    numbers = [int(part, 16) for part in answer.split()]
    length = 1 + PARTS.get(numbers[0], 0)
    return numbers[:length], numbers[length:]


def as_bench(answer):
    """What `bench` would print of a run, by its answer of `replay`."""
    refusal, (cycles, instructions, pc, *_) = parted(answer)
    return f"{cycles} {instructions} {refusal[0]} {pc}"


def file_bytes(*parts):
    """A file below the project's root; None where there is none."""
    path = os.path.join(TOP, *parts)
    if not os.path.isfile(path):
        return None
    with open(path, "rb") as file:
        return file.read()
