"""Writes the vectors of `replay` and the model's answers to them.

    python3 tests/make_vectors.py DIR
        writes DIR/stdin and DIR/stdout
    python3 tests/make_vectors.py --check DIR
        makes them anew and compares with what is in DIR; ends with 1 and says
        where if a byte differs
    python3 tests/make_vectors.py --fresh SEED COUNT DIR
        writes COUNT other random lines of the same mix, by that seed
"""

import argparse
import os
import sys
from multiprocessing import Pool

sys.path.insert(0, os.path.dirname(os.path.abspath(__file__)))

from model.replay import answer  # noqa: E402
from model.rng import Rng  # noqa: E402
from vectors import addresses, multicycle, single, store  # noqa: E402

MODULES = (single, multicycle, store, addresses)


def fixed_lines():
    """The lines of every module, in order."""
    return [text for module in MODULES for text in module.lines()]


def fresh_lines(seed, count):
    """Random lines, each module's share as among the fixed ones."""
    rng = Rng(seed)
    shares = [module for module in MODULES
              for _ in range(module.RANDOM_LINES)]
    return [rng.pick(shares).fresh(rng) for _ in range(count)]


def files(lines):
    """What stdin and stdout hold. No newline ends the last line of stdin."""
    with Pool() as pool:
        answers = pool.map(answer, lines, chunksize=50)
    return {"stdin": b"\n".join(lines),
            "stdout": b"".join(text + b"\n" for text in answers)}


def save(contents, folder):
    """Writes the files into a folder, which is made if it is missing."""
    os.makedirs(folder, exist_ok=True)
    for name, data in contents.items():
        with open(os.path.join(folder, name), "wb") as file:
            file.write(data)


def difference(name, wanted, got):
    """Where two contents first differ, in words; None if they are equal."""
    if wanted == got:
        return None
    pairs = zip(wanted.split(b"\n"), got.split(b"\n"))
    for number, (want, have) in enumerate(pairs, 1):
        if want != have:
            return (f"{name}, line {number}: made {want[:200]!r}, "
                    f"file has {have[:200]!r}")
    return f"{name}: made {len(wanted)} bytes, file has {len(got)}"


def compare(contents, folder):
    """Compares with a folder's files; answers the exit code."""
    code = 0
    for name, wanted in contents.items():
        try:
            with open(os.path.join(folder, name), "rb") as file:
                told = difference(name, wanted, file.read())
        except OSError as error:
            told = f"{name}: {error}"
        if told:
            print(told)
            code = 1
    return code


def main():
    """Reads the command line and does one of the three."""
    parser = argparse.ArgumentParser(description="vectors of replay")
    parser.add_argument("--check", action="store_true")
    parser.add_argument("--fresh", nargs=2, type=int,
                        metavar=("SEED", "COUNT"))
    parser.add_argument("folder", metavar="DIR")
    options = parser.parse_args()
    if options.fresh:
        lines = fresh_lines(*options.fresh)
    else:
        lines = fixed_lines()
    contents = files(lines)
    if options.check:
        return compare(contents, options.folder)
    save(contents, options.folder)
    return 0


if __name__ == "__main__":
    sys.exit(main())
