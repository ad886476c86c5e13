#!/usr/bin/env python3
"""Respells definitions, lemmas and variables of specs/, proofs/ and clauses to snake case.

usage: python3 tools/respell.py [--lemmas] [--dry]        at the top of the repository, after port.py

First `answerLine` becomes `answer_line`; in a name of several parts joined by dashes each part is respelled alone. The
fields and constructors of specs/ lose their dashes: `v5-kept` becomes `v5_kept`. Then all other names that a file of specs/
or proofs/ declares lose theirs: `weight-at` becomes `weight_at`; a lemma that would then have the name of a definition, a
function or a field gets `_lem`. With --lemmas only that second part is done.
Types, modules, constants and functions of src/ have no such names, so every word of this form in an .antt or .rt file is
turned. Names that Rattle makes, names of the library, strings, comments, inputs, outputs and must-fail edits are left alone.
The script stops, with no file written, if a new name stands already in an .antt file where the old one does.
"""
import os
import re
import sys

WORD = re.compile(r"[\w'₀₁₂₃₄₅₆₇₈₉-]+")
FIRST = {  # private lemmas whose names would fall together with a definition's
    "crates/code/proofs/UseLaws.antt": {"each_at": "each_at-word"},
    "crates/image/proofs/ImageLaws.antt": {"laid_out": "laid_out-parts"},
}
PATHS = "./crates/code/proofs/key/"  # here the new names are in use already, but only in paths, as those of functions
HUMP = re.compile(r"(?<=[a-z0-9])(?=[A-Z])")


def snake(part):
    if not re.match(r"[a-z]", part) or not HUMP.search(part):
        return part
    return HUMP.sub("_", part).lower()


def respelled(word):
    if word in DASHED:
        return word.replace("-", "_")
    return "-".join(snake(part) for part in word.split("-"))


def pieces(path, text):
    """The text in pieces, each with whether it is code: a comment or a string is not."""
    if path.endswith(".antt"):
        marks = re.compile(r'(?m)--[^\n]*|"(?:\\.|[^"\\])*"')
    else:
        marks = re.compile(r'//[^\n]*|b?"(?:\\.|[^"\\])*"')
    at = 0
    for m in marks.finditer(text):
        if m.group().startswith("--") and m.start() > 0 and not text[m.start() - 1].isspace():
            continue
        yield text[at : m.start()], True
        yield m.group(), False
        at = m.end()
    yield text[at:], True


def files(top):
    for folder, dirs, names in os.walk(os.path.join(top, "crates")):
        dirs[:] = sorted(d for d in dirs if d != "out")
        for name in sorted(names):
            if name.endswith((".antt", ".rt")):
                yield os.path.join(folder, name)


DASHED = set()
MEMBER = re.compile(r"^ +(?:pub )?([a-z][\w'-]*-[\w'-]*) :", re.M)
DECLARED = re.compile(r"^ *(?:pub )?(?:abbrev |unfoldable )?(?:pub )?([^\s:(){}]+)(?: [({][^)}]*[)}])* :", re.M)
BOUND = re.compile(r"\blet ([\w'-]+)")
IMPORTED = re.compile(r"use (?!Rattle\.(?!std))[^\n{]*\{([^}]*)\}")
# other variables, and names that an import gives
LOCALS = "at-k at-l due-done orderly-done few-c few-k few-s own-numbers same-arguments same-slots ar-is".split()
# lemmas that would have the name of a definition, a function or a field
NAMESAKES = (
    "calls-kept can-read can-set check-at code-rule first-argument goal-step in-range is-full name-bytes one-image one-reading"
    " parts-of put-name put-structure put-variable read-clause read-query said-clause said-query same-name slot-inside slot-term"
    " symbol-of symbol-words"
).split()


def read(path):
    with open(path, encoding="utf-8") as f:
        return f.read()


def write(written, dry):
    for path, now in written:
        if not dry:
            with open(path, "w", encoding="utf-8") as f:
                f.write(now)


def turned(turn, respell_first):
    """The files that `turn`, from word to word, changes, and the names that would fall together."""
    written, met = [], []
    for path in files("."):
        text = read(path)
        first = FIRST.get(path.removeprefix("./"), {}) if respell_first else {}
        now = WORD.sub(lambda m: first.get(m.group(), m.group()), text)
        parts = list(pieces(path, now))
        words = {w for part, code in parts if code for w in WORD.findall(part)}
        if path.endswith(".antt"):
            met += [f"{path}: {w} and {turn(w)}" for w in sorted(words) if turn(w) != w and turn(w) in words and not path.startswith(PATHS)]
        now = "".join(WORD.sub(lambda m: turn(m.group()), part) if code else part for part, code in parts)
        if now != text:
            written.append((path, now))
    return written, met


def humps(dry):
    for path in files("."):
        if "/specs/" in path:
            DASHED.update(MEMBER.findall(read(path)))
    written, met = turned(respelled, True)
    if not met:
        write(written, dry)
    return len(written), met


def lemmas(dry):
    own, foreign = set(LOCALS), set()
    for path in files("."):
        if not path.endswith(".antt"):
            continue
        text = "".join(part for part, code in pieces(path, read(path)) if code)
        for names in IMPORTED.findall(text):
            foreign.update(name.strip().split(" as ")[0] for name in names.split(","))
        for m in DECLARED.finditer(text):
            if not re.match(r"\s*goal\.", text[m.end() : m.end() + 80]):
                own.add(m.group(1))
        own.update(BOUND.findall(text))
    turns = {name: name.replace("-", "_") + ("_lem" if name in NAMESAKES else "") for name in own - foreign if re.search(r"\w-\w", name)}
    written, met = turned(lambda word: turns.get(word, word), False)
    if not met:
        write(written, dry)
    return len(written), met


def main(argv):
    for stage in (lemmas,) if "--lemmas" in argv else (humps, lemmas):
        count, met = stage("--dry" in argv)
        if met:
            print("these names fall together:\n" + "\n".join(met))
            return 1
        print(f"{count} files respelled")
    return 0


if __name__ == "__main__":
    raise SystemExit(main(sys.argv[1:]))
