#!/usr/bin/env python3
"""Brings the names that this repository gave to its definitions and lemmas to the spelling of today's Rattle.

usage: python3 tools/respell.py        once, at the top, right after the kit's own script has turned the rest

A type or a fact is in upper camel case (Verdict-is-right becomes VerdictIsRight); every other word is in snake case
(image-block becomes image_block, quarterOf becomes quarter_of), but in DASHED, where a dash stays between the two things
that a lemma relates, as in the library's own lemmas (length-image-block becomes length-image_block). Comments, strings, functions of src/
and the names that the check makes for its goals keep their spelling. It stops where two names would fall together.
"""

import os
import re
import sys

WORD = r"[^\s(){}.;,@\"«»:]+"
DECLARED = re.compile(r"[ ]*(?:(?:abbrev|unfoldable|pub|data|record|module) +)*(" + WORD + r") *(?:\([^)]*\) *|\{[^}]*\} *)*: ")
ALIAS = re.compile(r"\bas ([a-z]+(?:Of|In))\b")
# an alias that would fall together with a definition, and its name
APART = {"inodeOf": "inode_on"}
# lemmas that relate two things, as the length and a table: the dash between the two stays
DASHED = {
    "length-table", "getD-table", "length-image-block", "length-image-blocks", "length-with-block", "length-joined", "length-quarter", "length-written",
    "length-blocks", "length-stepped", "quarter-joined", "digit-le", "digit-eqb", "octet-digit", "bit-packed", "bit-digit", "packed-bit", "packed-table", "waits-append",
}


def files():
    for folder, inner, names in os.walk("crates"):
        inner[:] = sorted(d for d in inner if d != "out")
        for name in sorted(names):
            if name.endswith((".antt", ".rt")):
                yield os.path.join(folder, name)


def is_answer(path):
    return os.path.basename(path) in ("Answers.antt", "Invariants.antt", "Choices.antt")


def read(path):
    with open(path, encoding="utf-8") as f:
        return f.read()


def humps(name):
    return [p for part in name.split("-") for p in re.sub(r"([a-z])([A-Z])", r"\1-\2", part).lower().split("-")]


def snake(name):
    return "_".join(humps(name))


def camel(name):
    return "".join(p[:1].upper() + p[1:] for p in name.split("-"))


def dashed(name):
    head, rest = name.split("-", 1)
    return {"getD": "get_or"}.get(head, snake(head)) + "-" + snake(rest)


def table():
    declared = set()
    for path in files():
        if path.endswith(".rt"):
            declared.update(m[1] for m in ALIAS.finditer(read(path)))
        elif not is_answer(path):
            lines = [m[1] for line in read(path).split("\n") if not line.lstrip().startswith("--") and (m := DECLARED.match(line))]
            declared.update(lines)
    turned = {}
    for name in declared:
        if not re.search(r"-|[a-z][A-Z]", name) or not re.fullmatch(r"[\w'-]+", name):
            continue
        if name in APART:
            turned[name] = APART[name]
        elif name in DASHED:
            turned[name] = dashed(name)
        elif name[0].isupper():
            turned[name] = camel(name)
        else:
            turned[name] = snake(name)
    return {old: new for old, new in turned.items() if old != new}, declared


def code(text, antt):
    """The text in pieces: comments and strings, which stay, at odd places."""
    return re.split(r'((?:(?<![^\s])--[^\n]*)|"(?:[^"\\\n]|\\.)*")' if antt else r'(//[^\n]*|"(?:[^"\\]|\\.)*")', text)


def turn(path, names):
    antt = path.endswith(".antt")
    text = read(path)
    pieces = code(text, antt)

    def one(m):
        # in an answer, what stands behind a dot at `c` or `w` is a name that the check made
        before = m.string[: m.start()]
        if is_answer(path) and re.search(r"(?:^|[^\w.])(?:c|w|goal)(?:\.[^\s(){},;]*)?\.$", before):
            return m[0]
        return names.get(m[0], m[0])

    for k in range(0, len(pieces), 2):
        pieces[k] = re.sub(WORD, one, pieces[k])
    new = "".join(pieces)
    if new != text:
        with open(path, "w", encoding="utf-8") as f:
            f.write(new)
        return 1
    return 0


def main():
    names, declared = table()
    meets = {}
    for old, new in names.items():
        meets.setdefault(new, []).append(old)
    clashes = [f"{new} from {' and '.join(olds)}" for new, olds in meets.items() if len(olds) > 1]
    clashes += [f"{new} from {olds[0]} stands already" for new, olds in meets.items() if new in declared]
    if clashes:
        print("\n".join(clashes), file=sys.stderr)
        return 1
    if "--list" in sys.argv:
        for old, new in sorted(names.items()):
            print(f"{old}\t{new}")
        return 0
    print(sum(turn(path, names) for path in list(files())), "files")
    return 0


if __name__ == "__main__":
    raise SystemExit(main())
