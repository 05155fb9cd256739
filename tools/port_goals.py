#!/usr/bin/env python3
"""Turns the names of goals and steps in proof files to those that today's check makes: usage: port_goals.py CRATE NAMES
NAMES is the folder that `rt check --generated NAMES --old-names` wrote in the crate's folder."""

import json
import os
import re
import sys

WORD = re.compile(r"[A-Za-z_][A-Za-z0-9_']*(?:-[A-Za-z0-9_']+)*·?\d*")
FIXED = {"type-inv": "type_inv", "well-formed": "well_formed", "items-fit": "items_fit"}


def strings(it):
    if isinstance(it, str):
        yield it
    elif isinstance(it, dict):
        for k, v in it.items():
            yield k
            yield from strings(v)
    elif isinstance(it, list):
        for v in it:
            yield from strings(v)


def key(name):
    return name.replace("_", "-").rstrip("·")


def main(crate, folder):
    table = json.load(open(os.path.join(folder, "names.json"), encoding="utf-8"))
    for name, entry in table.items():
        path = name[len(f"Rattle-{crate}-proofs.") : -len(".Lts")]
        where = os.path.join("crates", crate, "proofs", *path.split("."))
        if not os.path.isdir(where):
            continue
        new = {}
        for s in set(strings(entry)):
            new.setdefault(key(s), set()).add(s)
        known = set(strings(entry))
        for n in sorted(os.listdir(where)):
            if n not in ("Answers.antt", "Invariants.antt", "Proof.antt"):
                continue
            file = os.path.join(where, n)
            text = open(file, encoding="utf-8").read()

            def turn(m):
                w = m[0]
                if w in FIXED:
                    return FIXED[w]
                if w in known or "-" not in w and "·" not in w or w.endswith(("-index", "-items", "-end", "-iterator")):
                    return w
                found = new.get(key(w), set())
                if len(found) == 1:
                    return next(iter(found))
                if "·" in w:
                    w = w + "1" if w.endswith("·") else w
                    return w.replace("·", "-")
                if len(found) > 1 or "·" in w:
                    print(f"{file}: {w}: {sorted(found)}")
                return w

            body = [l if re.match(r"\s*(use|--)", l) and "goal" not in l and "Goals" not in l else WORD.sub(turn, l) for l in text.split("\n")]
            if "\n".join(body) != text:
                open(file, "w", encoding="utf-8").write("\n".join(body))


main(*sys.argv[1:])
