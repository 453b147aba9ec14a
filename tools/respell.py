#!/usr/bin/env python3
"""Respells the repository's own definitions and lemmas in snake case, by the table respelling.tsv beside it.

usage: tools/respell.py [ROOT]      after port.py, once: it turns crates/*/{src,specs,proofs} in place

Whole words turn alone. In specs/ and proofs/ the code turns, in src/ the clauses and ghost items; in a comment only a
name in camel case does, since others are plain English there. What a proof file below proofs/ declares for itself alone
turns too (a dash becomes _), but for the goals of a function, whose names are Rattle's.
"""
import os
import re
import subprocess
import sys

HERE = os.path.dirname(os.path.realpath(__file__))
WORD = re.compile(r"[^\s(){}.;,@\"«»\[\]]+")
COMMENT = re.compile(r"(?m)(?:(?<=\s)|^)--[^\n]*")
CAMEL = re.compile(r"[a-z][a-z0-9]*[A-Z]\w*")
QUIET = re.compile(r'//[^\n]*|[bc]?"(?:\\.|[^"\\])*"|b?\'(?:\\.|[^\'\\])\'')
DECLARED = re.compile(r"(?m)^\s*(?:abbrev |unfoldable |let )?(?:pub )?((?:[^\s(){}.;,@\"«»:=|]+ )+):\s+(\S+)")
GOAL = re.compile(r"tie\.|goal\.")


def table():
    with open(os.path.join(HERE, "respelling.tsv"), encoding="utf-8") as f:
        return dict(line.rstrip("\n").split("\t") for line in f if line.strip())


def words(text, names):
    return WORD.sub(lambda m: names.get(m[0], m[0]), text)


def camels(text, names):
    return CAMEL.sub(lambda m: names.get(m[0], m[0]), text)


def apart(text, quiet, code, aside):
    """The text with code applied to what lies between the matches of quiet, and aside to these."""
    out, at = [], 0
    for m in quiet.finditer(text):
        out += [code(text[at : m.start()]), aside(m[0])]
        at = m.end()
    return "".join(out + [code(text[at:])])


def antt(text, names, local):
    if local:
        names, goals = dict(names), set()
        for m in DECLARED.finditer(COMMENT.sub("", text)):
            for w in m[1].split():
                if GOAL.match(m[2]):
                    goals.add(w)
                elif "-" in w and re.match(r"[a-z]", w) and w not in names and not w.startswith(("invariant-", "decreases-")):
                    names[w] = w.replace("-", "_")
        for w in goals:
            names.pop(w, None)
    return apart(text, COMMENT, lambda t: words(t, names), lambda t: camels(t, names))


def rust(text, names):
    return apart(text, QUIET, lambda t: words(t, names), lambda t: camels(t, names) if t.startswith("//") else t)


def main():
    root = sys.argv[1] if len(sys.argv) > 1 else os.path.dirname(HERE)
    names = table()
    for folder, dirs, files in os.walk(os.path.join(root, "crates")):
        dirs[:] = sorted(d for d in dirs if d not in ("out", "must-fail"))
        below = os.path.relpath(folder, os.path.join(root, "crates")).split(os.sep)
        for f in sorted(files):
            path = os.path.join(folder, f)
            if f.endswith(".antt"):
                turn = lambda t: antt(t, names, below[1] == "proofs" and len(below) > 2)
            elif f.endswith(".rt"):
                turn = lambda t: rust(t, names)
            else:
                continue
            with open(path, encoding="utf-8") as it:
                old = it.read()
            new = turn(old)
            if new != old:
                with open(path, "w", encoding="utf-8") as it:
                    it.write(new)
    for crate in sorted(os.listdir(os.path.join(root, "crates"))):
        if os.path.isdir(os.path.join(root, "crates", crate)):
            subprocess.run(["rt", "fmt"], cwd=os.path.join(root, "crates", crate), stdout=subprocess.DEVNULL)


if __name__ == "__main__":
    main()
