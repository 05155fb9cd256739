#!/usr/bin/env python3
"""Lists places in crates/*/src that a design pass should look at, point by point.

    python3 tools/places.py            counts, for the files as they are
    python3 tools/places.py --list     the places too
    python3 tools/places.py --at COMMIT [--list]    the same at a commit

A place is a candidate: whether it changes or stays is said in docs/DESIGN-PASS.md.
Tests are left out, but for point 2.
"""
import re
import subprocess
import sys
from itertools import combinations
from pathlib import Path

ROOT = Path(__file__).resolve().parent.parent


def sources(commit):
    if commit is None:
        return {str(p.relative_to(ROOT)): p.read_text() for p in sorted(ROOT.glob("crates/*/src/**/*.rt"))}
    run = lambda *a: subprocess.run(["git", *a], cwd=ROOT, capture_output=True, text=True, check=True).stdout
    names = [n for n in run("ls-tree", "-r", "--name-only", commit, "crates").split("\n") if re.match(r"crates/\w+/src/.*\.rt$", n)]
    return {n: run("show", f"{commit}:{n}") for n in names}


def lines_of(files, pattern, tests=False):
    out = []
    for name, text in files.items():
        if not tests and name.endswith("tests.rt"):
            continue
        for i, line in enumerate(text.split("\n"), 1):
            code = line.split("//")[0]
            if "ghost use" in code or re.match(r"\s*(ensures|requires|ghost)\b", code):
                continue
            if re.search(pattern, code):
                out.append((name, i, line.strip()))
    return out


def functions(files):
    """Each function: where, its name, its parameters, its clauses, the tokens of its body."""
    out = []
    for name, text in files.items():
        for m in re.finditer(r"\bfn (\w+)(<[^(]*>)?\(", text):
            depth, i = 1, m.end()
            while depth:
                depth += {"(": 1, ")": -1}.get(text[i], 0)
                i += 1
            params = re.sub(r"\s+", " ", text[m.end():i - 1])
            # the clauses, to the body's brace or a semicolon
            j = i
            clauses = []
            while j < len(text):
                c = re.compile(r"\s*(requires|ensures)\b(?:\s+\w+)?\s*\{").match(text, j)
                if c:
                    depth, k = 1, c.end()
                    while depth:
                        depth += {"{": 1, "}": -1}.get(text[k], 0)
                        k += 1
                    clauses.append((c.group(1), re.sub(r"\s+", " ", text[c.end():k - 1]).strip()))
                    j = k
                elif text[j] in "{;":
                    break
                else:
                    j += 1
            body = ""
            if j < len(text) and text[j] == "{":
                depth, k = 1, j + 1
                while depth:
                    depth += {"{": 1, "}": -1}.get(text[k], 0)
                    k += 1
                body = text[j + 1:k - 1]
            body = re.sub(r"//[^\n]*", "", body)
            tokens = re.findall(r"\w+|[^\w\s]", body)
            out.append((name, text[:m.start()].count("\n") + 1, m.group(1), params, clauses, tokens))
    return out


def twins(funs):
    """Pairs of bodies of one shape in one crate that differ in at most three words or numbers, each always in the same way."""
    out = []
    for f, g in combinations(funs, 2):
        a, b = f[5], g[5]
        if len(a) != len(b) or len(a) < 8:
            continue
        differ = {(x, y) for x, y in zip(a, b) if x != y}
        word = lambda t: re.match(r"\w+$", t)
        if len(differ) <= 3 and all(word(x) and word(y) for x, y in differ):
            swap = lambda t: t.replace("call", "pause").replace("Call", "Pause").replace("pause", "~").replace("Pause", "~")
            handed = lambda h: any(t == "." and u == h[2] for t, u in zip(h[5], h[5][1:]))
            if f[0].split("/")[1] != g[0].split("/")[1]:
                continue
            sort = "loss" if swap(f[2]) == swap(g[2]) and f[0] == g[0] else "handed" if handed(f) and handed(g) else "other"
            out.append((f[0], f[1], sort, f"{f[2]} ~ {g[0].split('/', 1)[1]}:{g[1]} {g[2]} ({', '.join(f'{x}/{y}' for x, y in sorted(differ)) or 'the same'})"))
    return lambda sort: [(n, l, t) for n, l, s, t in out if s == sort]


def together(funs):
    """Pairs of parameters (name and type) that stand in three functions or more of one crate."""
    where = {}
    for name, line, fun, params, _, _ in funs:
        if name.endswith("tests.rt"):
            continue
        ps = [p.strip() for p in re.split(r",(?![^<(\[]*[>)\]])", params) if ":" in p]
        for pair in combinations(ps, 2):
            where.setdefault((name.split("/")[1], pair), []).append((name, line, fun))
    return [(w[0][0], w[0][1], f"{a}; {b}: {len(w)} functions, " + " ".join(x[2] for x in w)) for (_, (a, b)), w in where.items() if len(w) >= 3]


def facts(funs):
    """Facts that three functions or more of one crate require, or state alike of one value."""
    where = {}
    for name, line, fun, _, clauses, _ in funs:
        for kind, text in set(clauses):
            if kind == "requires":
                for part in re.split(r"×", text):
                    where.setdefault((name.split("/")[1], part.strip(" ()")), []).append((name, line, fun))
    return [(w[0][0], w[0][1], f"{t}: " + " ".join(x[2] for x in w)) for (_, t), w in where.items() if len(w) >= 3]


def views(funs):
    """View functions applied to self or one parameter in the clauses of three functions or more of one crate."""
    where = {}
    for name, line, fun, _, clauses, _ in funs:
        seen = set()
        for _, text in clauses:
            seen |= set(re.findall(r"\(?\b([a-z_]+(?:_of|_meaning)|code) (?:self|form)\b", text))
        for v in seen:
            where.setdefault((name.split("/")[1], v), []).append((name, line, fun))
    return [(w[0][0], w[0][1], f"{v}: " + " ".join(x[2] for x in w)) for (_, v), w in where.items() if len(w) >= 3]


def main():
    args = sys.argv[1:]
    commit = args[args.index("--at") + 1] if "--at" in args else None
    files = sources(commit)
    funs = functions(files)
    library = [f for f in funs if not f[0].endswith("tests.rt")]
    pairs = twins(library)
    points = [
        ("1 enums of the repository's own", lines_of(files, r"^\s*(pub(\(\w+\))? )?enum \w")),
        ("1 numbers for kinds, operations, sides, refusals", lines_of(files, r"\b(kind|o|operation|number|side): u8\b")),
        ("1 flags in structs or parameters", lines_of(files, r"\b\w+: bool\b")),
        ("2 pairs of one shape, the one for a call and the other for a pause", pairs("loss")),
        ("2 pairs of one shape that hand their own question or change on to a part", pairs("handed")),
        ("2 other pairs of one shape", pairs("other")),
        ("2 constants that stand twice", lines_of(files, r"^\s*(kind|o|before|number): \d+,$", tests=True)),
        ("3 loops over a range of numbers", lines_of(files, r"\bfor \w+ in \(?\d+\.\.")),
        ("3 while, loop", lines_of(files, r"\b(while|loop)\b")),
        ("3 for with a place counted", lines_of(files, r"\bfor \(.*enumerate\(\)")),
        ("3 for that only tests or sums", [p for p in lines_of(files, r"\bfor \w+ in (&|\w)") if not re.search(r"in \(?\d+\.\.", p[2])]),
        ("4 conversions by a method", lines_of(files, r"\bfn (refusal|to_\w+|into_\w+|as_\w+)\(")),
        ("4 casts to a narrower number", lines_of(files, r"\bas u8\b")),
        ("4 Eq, Ord, Clone, Copy by hand", lines_of(files, r"\bimpl.*\b(PartialEq|Eq|Ord|PartialOrd|Clone|Copy|Hash)\b.* for ")),
        ("4 From and Display by hand", lines_of(files, r"\bimpl.*\b(From<.*>|Display) for ")),
        ("5 parameters together in three functions", together(library)),
        ("5 facts required by three functions", facts(library)),
        ("5 views named in three functions' clauses", views(library)),
        ("6 fixed arrays in structs and locals", lines_of(files, r"(^\s*(pub )?\w+: \[\w+; \d+\],)|(= \[\w+; \d+\])")),
        ("6 counts beside them", lines_of(files, r"^\s*(pub )?(count|blocks|params|names|used|len): (u8|usize),")),
        ("7 dyn, boxes, function pointers", lines_of(files, r"\bdyn\b|\bBox\b|: fn\(")),
        ("7 a match on text or on a change that picks a step", lines_of(files, r"^\s*Some\(b\"|^\s*Change::\w+\(")),
    ]
    for title, places in points:
        print(f"{len(places):4}  {title}")
        if "--list" in args:
            for name, line, text in places:
                print(f"        {name.split('/', 1)[1]}:{line}  {text[:150]}")
    if commit is None:
        proofs = [p for p in ROOT.glob("crates/*/proofs/**/*.antt")]
        answers = [p for p in proofs if p.name in ("Answers.antt", "Invariants.antt")]
        count = lambda ps: sum(len(p.read_text().split("\n")) - 1 for p in ps)
    else:
        names = subprocess.run(["git", "ls-tree", "-r", "--name-only", commit, "crates"], cwd=ROOT, capture_output=True, text=True).stdout.split("\n")
        proofs = [n for n in names if "/proofs/" in n and n.endswith(".antt")]
        answers = [n for n in proofs if n.endswith(("/Answers.antt", "/Invariants.antt"))]
        count = lambda ps: sum(len(subprocess.run(["git", "show", f"{commit}:{p}"], cwd=ROOT, capture_output=True, text=True).stdout.split("\n")) - 1 for p in ps)
    rest = [p for p in proofs if p not in answers]
    print(f"{len(answers):4}  8 files of answers and invariants, {count(answers)} lines; {len(rest)} files of lemmas, {count(rest)} lines")


main()
