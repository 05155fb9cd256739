#!/usr/bin/env python3
"""Respells this repository's own definitions and lemmas: words in snake case (`formOk` -> `form_ok`, `reads-back` -> `reads_back`).

Run once at the top of the repository, right after port.py. It turns the names that .antt files declare (definitions, lemmas, fields,
bound variables), wherever antt text speaks of them: in .antt files, in the clauses and ghost items of .rt files, and between
backquotes in the pages. Types and modules are in camel case already. Names of functions, strings and outputs stay, and so do the names
that the check makes for its goals. It stops where two names would fall together in one file.
"""

import collections
import os
import re

WORD = re.compile(r"(?<![A-Za-z0-9_'.-])\.?[A-Za-z_][A-Za-z0-9_']*(?:-[A-Za-z0-9_']+)*|(?<=[)\]'A-Za-z0-9_])\.[A-Za-z_][A-Za-z0-9_']*(?:-[A-Za-z0-9_']+)*")
CAMEL = re.compile(r"(?<=[a-z0-9])[A-Z]")

# A word of std, a field or a function has the plain spelling already.
OTHERWISE = {
    "bit-and": "bit_of_and",
    "bit-or": "bit_of_or",
    "no-width": "no_width_lem",
    "put-leaves": "put_leaves_lem",
    "put-nowhere": "put_nowhere_lem",
    "put-seen": "put_seen_lem",
    "touch-by-cells": "touch_by_cells_lem",
}


def spelled(name):
    if name in OTHERWISE:
        return OTHERWISE[name]
    return CAMEL.sub(lambda m: "_" + m[0].lower(), name).replace("-", "_")


def files(end):
    for folder, dirs, names in os.walk("crates"):
        dirs[:] = sorted(d for d in dirs if d != "out")
        yield from (os.path.join(folder, n) for n in sorted(names) if n.endswith(end))


def declared():
    """The names that .antt files declare, but for the goals that they answer."""
    one = r"[A-Za-z_][A-Za-z0-9_'-]*"
    line = re.compile(rf"^\s*(?:(?:pub|abbrev|unfoldable) )*({one}(?: {one})*) :(?!:)\s*(.*)$")
    bound = re.compile(rf"[({{]({one}(?: {one})*) :(?!:)")
    names, goals = set(), set()
    for path in files(".antt"):
        for text in open(path, encoding="utf-8"):
            if text.lstrip().startswith("--"):
                continue
            m = line.match(text)
            if m:
                (goals if m[2].startswith("goal.") else names).update(m[1].split())
            for m in bound.finditer(text):
                names.update(m[1].split())
    return {n for n in names - goals if n[0].islower() and spelled(n) != n and not n.startswith(("loop-", "in-", "if-", "goal"))}


def respelled(text, names):
    def turn(m):
        word = m[0]
        dot = word.startswith(".")
        name = word[1:] if dot else word
        return ("." if dot else "") + spelled(name) if name in names else word

    return WORD.sub(turn, text)


def source(text, names):
    """The lines of a .rt file that are antt: ghost items and clauses."""
    out, deep = [], 0
    for line in text.split("\n"):
        head = re.match(r"\s*(ghost|requires|ensures)\b", line)
        if head or deep:
            deep += line.count("{") - line.count("}")
            line = respelled(line, names)
        out.append(line)
    return "\n".join(out)


def page(text, names):
    return re.sub(r"`[^`\n]+`", lambda m: respelled(m[0], names), text)


def imported(text):
    """What a file brings in from elsewhere."""
    own = set(os.listdir("crates"))
    found = set()
    for m in re.finditer(r"^(?:pub |ghost )*use ([\w.]+)\.\{(.*?)\}", text, re.M):
        parts = m[1].split(".")
        if not (parts[0] == "Rattle" and parts[1] in own):
            found |= {w.strip() for w in m[2].split(",")}
    return found


def main():
    names = declared()
    for path in files(".antt"):
        text = open(path, encoding="utf-8").read()
        body = re.sub(r"--.*", "", text)
        words = {m[0].lstrip(".") for m in WORD.finditer(body)}
        new = collections.defaultdict(set)
        for w in words:
            new[spelled(w) if w in names else w].add(w)
        for n, old in new.items():
            if len(old) > 1:
                print(f"together in {path}: {n} is {', '.join(sorted(old))}")
        clash = imported(text) & {spelled(w) for w in words & names}
        if clash:
            print(f"imported in {path}: {clash}")
    for end, turn in ((".antt", respelled), (".rt", source)):
        for path in files(end):
            text = open(path, encoding="utf-8").read()
            new = turn(text, names)
            if new != text:
                open(path, "w", encoding="utf-8").write(new)
    for folder in ("docs", "."):
        for n in sorted(os.listdir(folder)):
            if n.endswith(".md"):
                path = os.path.join(folder, n)
                text = open(path, encoding="utf-8").read()
                new = page(text, names)
                if new != text:
                    open(path, "w", encoding="utf-8").write(new)
    print(f"{len(names)} names")


if __name__ == "__main__":
    main()
