#!/usr/bin/env python3
"""The gate, tried with steps of our own: its last line is `rt ci`'s where every step passes, and
says where it failed where one does not. `rt ci` is called with no more words, and a bad must-fail
edit fails the gate although it passes there."""

import os
import re
import shutil
import subprocess
import sys
import tempfile
import unittest

TOP = os.path.dirname(os.path.dirname(os.path.abspath(__file__)))
STEP = re.compile(r"^(?:try|step=')(.*?)'?$", re.M)
CI, EDITS = "rt ci", "the must-fail edits of rt ci"
PASSED = "3 passed, 0 failed"
OK = "rt: ok; handles allowed: none%s; every proof and must-fail edit was done in this run"
GOOD = "; must-fail edits: 2 refused"
# Says what it is called with, and fails where that is what `failing` has. `rt ci` also says what it
# is to say of edits, and of what it says the last line counts.
STUB = """#!/bin/sh
said="$(basename "$0") $*"
case $0 in tests/*) said="tests/$said" ;; esac
said=${said%% }
echo "$said"
[ "$said" != "rt ci" ] || cat %s
[ "$said" != "$(cat %s)" ] || exit 2
"""


def steps():
    """The steps of the gate, as it names them."""
    with open(os.path.join(TOP, ".ci", "run"), encoding="utf-8") as file:
        found = [step.strip() for step in STEP.findall(file.read())]
    return [step for step in found if step not in ("the start", "() {")]


def put(path, text, mode=0o644):
    """A file, and the folders above it."""
    os.makedirs(os.path.dirname(path), exist_ok=True)
    with open(path, "w", encoding="utf-8") as file:
        file.write(text)
    os.chmod(path, mode)


def gate(failing, said=OK % GOOD):
    """The exit status and the lines of a gate in which one step fails, or in which `rt ci` passes
    and says so of its edits."""
    with tempfile.TemporaryDirectory() as top:
        os.makedirs(os.path.join(top, ".ci"))
        shutil.copy(os.path.join(TOP, ".ci", "run"), os.path.join(top, ".ci", "run"))
        chosen, told = os.path.join(top, "failing"), os.path.join(top, "told")
        put(chosen, failing)
        put(told, f"{said}\n{PASSED}\n")
        for name in {step.split()[0] for step in steps() if step != EDITS}:
            path = os.path.join(top, name if "/" in name else os.path.join("bin", name))
            put(path, STUB % (told, chosen), 0o755)
        path = os.path.join(top, "bin") + os.pathsep + os.environ["PATH"]
        ran = subprocess.run([os.path.join(top, ".ci", "run")], env=dict(os.environ, PATH=path),
                             capture_output=True, text=True, check=False)
    return ran.returncode, ran.stdout.splitlines()


class Gate(unittest.TestCase):
    """Each step passing and failing."""

    def test_all_pass(self):
        status, lines = gate("nothing")
        self.assertEqual((status, lines[-1]), (0, PASSED))
        wanted = [step for step in steps() if step != EDITS]
        self.assertEqual([line for line in lines if line in wanted], wanted)

    def test_each_step_failing(self):
        self.assertIn(CI, steps())
        for step in steps():
            if step != EDITS:
                status, lines = gate(step)
                self.assertEqual(status, 2 if step == CI else 1)
                self.assertEqual(lines[-1], f"gate: FAILED at {step}")

    def test_bad_edits(self):
        limit = GOOD + ", 1 of them only by a limit"
        for edits, bad in ((GOOD, False), ("", False), (limit, False), (GOOD + ", 1 bad", True),
                           ("; must-fail edits: 0 refused, 11 bad", True), (limit + ", 10 bad", True)):
            status, lines = gate("nothing", OK % edits)
            self.assertEqual((status, lines[-1]),
                             (1, f"gate: FAILED at {EDITS}") if bad else (0, PASSED), edits)

    def test_no_word_of_edits(self):
        self.assertEqual(gate("nothing", "rt: well")[1][-1], f"gate: FAILED at {EDITS}")


if __name__ == "__main__":
    sys.exit(unittest.main())
