#!/usr/bin/env python3
"""design_count [FOLDER [POINT]]: places of the older language in the sources below FOLDER/crates.

It goes by text, so that the same command tells the same of any commit: what it finds is a place to
look at, and docs/DESIGN-PASS.md says what became of each. With a POINT (1 to 7) it lists the places.

1 enums of the shape of Option or Result (two variants, at most one value each, one of them empty or
  both with one), structs with a flag and a value (a `bool` named good, bad, broken, stores, double, or
  an answer beside a value), and numbers that stand for "none" or a kind;
2 functions of one crate or of two whose bodies are the same once names, types and numbers are blanked
  (thirty tokens or more), and files that stand twice;
3 loops that count by hand (`while` with a line that adds or takes 1 or a constant);
4 comparisons, copies and conversions by hand: casts to u16, u32 and u64 but those after a remainder, and
  functions `is_same`, `is`, `has`, `copy`, `number`, `kind_number`, `wide`, `is_below`, `both`, `either`;
5 pairs of parameters (name and type) that stand together in three functions of a crate or more;
6 a buffer with the place of its end beside it: parameters (`out`, `at`), fields `held`, `count`,
  `changes`, `bytes` beside an array, and arrays in parallel;
7 a `match` of three arms or more that only chooses which function to call with the same arguments.
"""

import collections
import glob
import os
import re
import sys

FLAGS = ("good", "bad", "broken", "stores", "double")
NONE = re.compile(r"\b(255|256|16)\b[^\n]*(none|no digit|has no)|(none|no digit)[^\n]*\b(255|256|16)\b"
                  r"|\bANY\b: u32|0 for none|are 0 where there is no", re.I)
HAND = ("is_same", "is", "has", "copy", "number", "kind_number", "fault_number", "outcome_number", "wide",
        "is_below", "lesser", "refusal_number", "both", "either")
WIDEN = re.compile(r"[\w\])] as (u16|u32|u64)\b")


def sources(top):
    for path in sorted(glob.glob(os.path.join(top, "crates", "*", "src", "**", "*.rt"), recursive=True)):
        with open(path, encoding="utf-8") as file:
            yield os.path.relpath(path, top), file.read()


def code(text):
    """The text without comments, line by line."""
    return re.sub(r"//[^\n]*", "", text)


def blocks(text, head):
    """Each item that begins with a line matching `head`, with its first line's number."""
    lines = text.split("\n")
    for number, line in enumerate(lines):
        if re.match(head, line):
            depth, body = 0, []
            for further in lines[number:]:
                body.append(further)
                depth += further.count("{") - further.count("}")
                if "}" in further and depth == 0 and not further.strip().startswith(("ensures", "requires", "≡", "×", "→", "⇒")):
                    break
            yield number + 1, "\n".join(body)


def variants(body):
    inner = body[body.index("{") + 1 : body.rindex("}")]
    depth, item, items = 0, "", []
    for char in inner:
        depth += (char in "{(") - (char in "})")
        if char == "," and depth == 0:
            items.append(item.strip())
            item = ""
        else:
            item += char
    if item.strip():
        items.append(item.strip())
    return items


def point1(top):
    for path, text in sources(top):
        plain = code(text)
        for line, body in blocks(plain, r"\s*(pub(\(crate\))? )?enum "):
            items = variants(body)
            if len(items) == 2 and any("(" in i or "{" in i for i in items):
                yield path, line, body.split("\n")[0].strip()
        for line, body in blocks(plain, r"\s*(pub(\(crate\))? )?struct \w+ \{"):
            flagged = re.search(r"\b(%s): bool" % "|".join(FLAGS), body) or re.search(r"answer: Reply|taken: Taken", body)
            if flagged:
                yield path, line, body.split("\n")[0].strip() + " " + flagged.group(0)
        for line, row in enumerate(text.split("\n"), 1):
            if NONE.search(row):
                yield path, line, row.strip()


def functions(top):
    for path, text in sources(top):
        for line, body in blocks(code(text), r"\s*(pub(\(crate\))? )?(final )?fn "):
            yield path, line, body


def body_of(text):
    at = re.search(r"^\s*\{\s*$|\{\s*$", text, re.M)
    return text[at.end():] if at else ""


def point2(top):
    alike = collections.defaultdict(list)
    for path, line, text in functions(top):
        tokens = re.findall(r"\w+|[^\w\s]", body_of(text))
        if len(tokens) < 30:
            continue
        shape = " ".join("n" if t[0].isdigit() else "w" if re.match(r"\w", t) and t not in ("if", "match", "while", "return", "let", "mut", "for", "in") else t for t in tokens)
        alike[shape].append((path, line, text.split("(")[0].strip()))
    for same in alike.values():
        for path, line, what in same[1:]:
            yield path, line, f"{what} as {same[0][2]} of {same[0][0]}"
    files = collections.defaultdict(list)
    for path, text in sources(top):
        files[os.path.basename(path)].append((path, text))
    for name, same in files.items():
        for i, (path, text) in enumerate(same):
            for other, before in same[:i]:
                lines = [x for x in text.split("\n") if x.strip()]
                shared = sum(1 for x in lines if x in before)
                if len(lines) > 20 and shared > 0.7 * len(lines):
                    yield path, 1, f"the file as {other}"


def point3(top):
    for path, line, text in functions(top):
        for at, loop in blocks(text, r"\s*while "):
            if re.search(r"\b[\w.]+ (\+|-)= \d+;|= [\w.]+ \+ 1;|= next;|and_one\(\)", loop):
                yield path, line + at - 1, loop.split("\n")[0].strip()


def point4(top):
    for path, text in sources(top):
        plain = code(text)
        for line, row in enumerate(plain.split("\n"), 1):
            for _ in WIDEN.finditer(re.sub(r"\([^()]*%[^()]*\) as \w+", "", row)):
                yield path, line, row.strip()
        for line, body in blocks(plain, r"\s*(pub(\(crate\))? )?fn (%s)\(" % "|".join(HAND)):
            yield path, line, body.split("\n")[0].strip()


def parameters(text):
    head = text[text.index("(") + 1 :]
    depth, out = 1, ""
    for char in head:
        depth += (char in "(<[") - (char in ")>]")
        if depth == 0:
            break
        out += char
    return [p.strip().replace("mut ", "") for p in re.split(r",\s*(?![^\[<(]*[\]>)])", out) if ":" in p]


def point5(top):
    pairs = collections.defaultdict(list)
    for path, line, text in functions(top):
        crate = path.split("/")[1]
        names = parameters(text)
        for i, first in enumerate(names):
            for second in names[i + 1 :]:
                pairs[crate, first, second].append((path, line))
    for (crate, first, second), where in sorted(pairs.items()):
        if len(where) >= 3:
            yield where[0][0], where[0][1], f"({first}, {second}) in {len(where)} functions of {crate}"


def point6(top):
    for path, line, text in functions(top):
        if re.search(r"out: &mut \[u8\],\s*at: usize", text):
            yield path, line, text.split("(")[0].strip() + " (out, at)"
        elif re.search(r"out: &mut \[u8\],\s*w: Waiting", text):
            yield path, line, text.split("(")[0].strip() + " (out, w)"
        elif re.search(r"heads: &(mut )?\[usize", text):
            yield path, line, text.split("(")[0].strip() + " arrays in parallel"
    for path, text in sources(top):
        for line, body in blocks(code(text), r"\s*(pub(\(crate\))? )?struct \w+ \{"):
            if re.search(r"\[u(8|32); \w+\]", body) and re.search(r"\b(held|count|changes|place): usize", body):
                yield path, line, body.split("\n")[0].strip() + " with its length"


def point7(top):
    for path, line, text in functions(top):
        for at, body in blocks(text, r"\s*match "):
            arms = re.findall(r"=> (\w+(?:::\w+)*)\(([^()]*)\)", body)
            if len(arms) >= 3 and len({a for _, a in arms}) == 1 and len({f for f, _ in arms}) == len(arms):
                yield path, line + at - 1, body.split("\n")[0].strip()


POINTS = (point1, point2, point3, point4, point5, point6, point7)


def main():
    top = sys.argv[1] if len(sys.argv) > 1 else os.path.dirname(os.path.dirname(os.path.abspath(__file__)))
    if len(sys.argv) > 2:
        for path, line, what in POINTS[int(sys.argv[2]) - 1](top):
            print(f"{path}:{line}: {what}")
        return
    for number, point in enumerate(POINTS, 1):
        found = list(point(top))
        crates = collections.Counter(path.split("/")[1] for path, _, _ in found)
        print(f"{number}: {len(found)}  " + ", ".join(f"{c} {n}" for c, n in sorted(crates.items())))


if __name__ == "__main__":
    main()
