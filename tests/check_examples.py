"""Runs the examples of the documents and compares what comes with what they say.

In a block of code (indented by four blanks, or between lines of three backticks):

    $ COMMAND               run by sh in the project's root; the lines below it are what it prints
    COMMAND   # .. prints `LINE`
                            the same for a command with one line of output
    > CASE                  a line of `replay`; the line below it, `< ANSWER`, is its answer and
                            the model's. A line that ends in a backslash goes on in the next.

A block marked `python` is a program, and a block marked `text` right after it is what it prints.
docs/REPLAY.md must have an example of every case, but for those that `replay` has not yet. It ends
with 1 where anything differs.
"""

import os
import re
import subprocess
import sys

from driving import TOP, UNFINISHED, file_bytes, replay
from model.replay import BAD_CASE, CASES, answer

PAGES = ["README.md", "sheets/README.md", "stores/README.md"]
PROTOCOL = "docs/REPLAY.md"
FENCE = re.compile(r"```(\w*)$")
PRINTS = re.compile(r"(\S.*?)\s+#.*\bprints `([^`]+)`")


def blocks(page):
    """The blocks of code of a page: what marks each, and its lines."""
    found, mark, held, before = [], None, [], ""
    for text in page.splitlines() + [""]:
        fence = FENCE.match(text)
        if fence and mark in (None, "indented"):
            mark, held = fence[1], []
        elif fence:
            found.append((mark, held))
            mark, held = None, []
        elif mark is None and text.startswith("    ") and not before.strip():
            mark, held = "indented", [text[4:]]
        elif mark == "indented" and not text.startswith("    "):
            found.append((mark, held))
            mark, held = None, []
        elif mark is not None:
            held.append(text[4:] if mark == "indented" else text)
        before = text
    return found


def joined(lines):
    """Lines with those that go on in the next put together, one blank between."""
    whole, under_way = [], ""
    for text in lines:
        under_way += text.strip() if under_way else text.rstrip()
        if under_way.endswith("\\"):
            under_way = under_way[:-1].rstrip() + " "
        else:
            whole.append(under_way)
            under_way = ""
    return whole + [under_way] * bool(under_way)


def sessions(lines):
    """The commands of a block, each with the lines below it."""
    found, below = [], None
    for text in lines:
        promise = PRINTS.match(text)
        if text.startswith("$ "):
            below = []
            found.append((text[2:], below))
        elif promise:
            found.append((promise[1], [promise[2]]))
        elif below is not None:
            below.append(text)
    return found


def case_pairs(lines):
    """The cases of a block, each with the line below it."""
    whole = joined(lines)
    return [(text[2:], below) for text, below in zip(whole, whole[1:] + [""])
            if text.startswith("> ")]


def printed(command, text=""):
    """The lines that a command prints; what it says on standard error is let through."""
    ran = subprocess.run(command, cwd=TOP, input=text, stdout=subprocess.PIPE, text=True,
                         check=False)
    return ran.stdout.splitlines()


def command_faults(name, page):
    """How many commands and programs a page has, and which print something else."""
    count, wrong, program = 0, [], None
    for mark, lines in blocks(page):
        ran = sessions(lines) if mark in ("indented", "", "sh", "console") else []
        tries = [(command, printed(["sh", "-c", command]), told) for command, told in ran]
        if program and mark == "text":
            tries.append(("its program", printed([sys.executable, "-"], program), lines))
        program = "\n".join(lines) + "\n" if mark == "python" else None
        count += len(tries)
        wrong += [f"{name}: {command} prints {got}, not {told}"
                  for command, got, told in tries if got != told]
    return count, wrong


def case_faults(name, pairs):
    """Which cases of a page are answered otherwise, by `replay` or by the model."""
    wrong = []
    cases = [case.encode() for case, _ in pairs]
    for (case, below), got in zip(pairs, replay(cases) if cases else []):
        for who, said in (("replay", got), ("the model", answer(case.encode()))):
            said = "< " + said.decode()
            if said != below:
                wrong.append(f"{name}: '> {case[:60]}': {who} has '{said}', not '{below}'")
    return wrong


def unfinished_faults(shown):
    """Cases that have no example, and those that need none and that `replay` has by now."""
    told = replay(list(UNFINISHED.values()))
    return [f"{PROTOCOL} has no example of {word}" for word in CASES
            if word not in shown and word.encode() not in UNFINISHED] + [
        f"replay answers '{case.decode()}', which tests/driving.py has as unfinished"
        for case, said in zip(UNFINISHED.values(), told) if said != BAD_CASE]


def main():
    """Prints what differs; the exit status says whether anything does."""
    docs = sorted("docs/" + name for name in os.listdir(os.path.join(TOP, "docs")))
    count, wrong, shown = 0, [], set()
    for name in PAGES + [name for name in docs if name.endswith(".md")]:
        page = file_bytes(name).decode()
        pairs = [pair for _, lines in blocks(page) for pair in case_pairs(lines)]
        commands, faults = command_faults(name, page)
        count += commands + len(pairs)
        wrong += faults + case_faults(name, pairs)
        if name == PROTOCOL:
            shown = {case.split()[0] for case, _ in pairs}
    wrong += unfinished_faults(shown)
    for what in wrong:
        print(what)
    print(f"examples: {count}, {len(wrong)} wrong")
    return 1 if wrong else 0


if __name__ == "__main__":
    sys.exit(main())
