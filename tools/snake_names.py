#!/usr/bin/env python3
"""Spells the repository's own definitions and lemmas in snake case, as today's Rattle does.

usage: python3 tools/snake_names.py        at the top of the repository; once, right after the kit's port.py

A definition, a field or a lemma of specs/ or proofs/ whose name begins with a small letter and has a capital in it
(`linkFields`) becomes `link_fields`, wherever it stands: in specs/, proofs/, the clauses and comments of src/, must-fail
edits, README and docs/. Strings of src/ are left alone. A lemma that bears a definition's new name
already gets `-law` after it. It stops, and changes nothing, where two names would fall together.
"""
import os
import re
import sys

WORD = re.compile(r"(?<![\w'◌])[A-Za-z_][\w']*(?:-[\w']+)*")
PART = re.compile(r"[a-z][A-Za-z0-9]*[A-Z][A-Za-z0-9]*'?\Z")


def snake(name):
    s = re.sub(r"([a-z0-9])([A-Z])", r"\1_\2", name)
    s = re.sub(r"([A-Z])([A-Z][a-z])", r"\1_\2", s)
    return s.lower()


def files(ends, folders):
    for top in folders:
        if os.path.isfile(top):
            yield top
            continue
        for folder, dirs, names in os.walk(top):
            dirs[:] = sorted(d for d in dirs if d not in ("out", ".git", "target"))
            for n in sorted(names):
                if n.endswith(ends):
                    yield os.path.join(folder, n)


def read(p):
    with open(p, encoding="utf-8") as f:
        return f.read()


def main():
    antt = list(files((".antt",), ["crates"]))
    texts = {p: read(p) for p in antt}
    words = set()
    for t in texts.values():
        words.update(WORD.findall(t))
    for p in files((".rt",), ["crates"]):
        words.update(WORD.findall(read(p)))
    # names that stand at a definition: `pub name :`, a field `pub name :`, or a clause's left side
    defined = set()
    for t in texts.values():
        for m in re.finditer(r"^\s*(?:pub |abbrev |unfoldable |private )*([a-z][\w'-]*(?: [a-z][\w'-]*)*) :", t, re.M):
            defined.update(m.group(1).split())
    parts = set()
    for w in defined:
        for part in w.split("-"):
            if PART.match(part):
                parts.add(part)
    # a part of a name is respelled wherever the whole name is one of the repository's own
    new = {}
    for w in sorted(words):
        ps = w.split("-")
        if any(PART.match(p) for p in ps) and (w in defined):
            new[w] = "-".join(snake(p) if PART.match(p) else p for p in ps)
    bad = 0
    seen = {}
    lemmas = {}
    for w, n in new.items():
        if n in seen:
            print(f"falls together: {w} -> {n} ({seen[n]})")
            bad += 1
        seen[n] = w
        if n in defined:
            # a lemma that port.py put into snake case, as its name with dashes was a definition's in capitals
            lemmas[n] = n + "-law"
            if lemmas[n] in words:
                bad += 1
    left = sorted(w for w in words if any(PART.match(p) for p in w.split("-")) and w not in new)
    print(f"{len(new)} names; not the repository's own, left: {' '.join(left)}")
    if bad and "--force" not in sys.argv:
        raise SystemExit(1)
    if "--dry" in sys.argv:
        for w, n in new.items():
            print(w, n)
        return

    alone = re.compile(r"(?<![\w'◌.-])(" + "|".join(map(re.escape, sorted(lemmas))) + r")(?![\w'-]|\.[a-zA-Z])") if lemmas else None
    for p in antt:
        if alone and "/proofs/" in p:
            now = alone.sub(lambda m: lemmas[m.group(1)], texts[p])
            if now != texts[p]:
                with open(p, "w", encoding="utf-8") as f:
                    f.write(now)
    print("lemmas that would fall together with a definition:", " ".join(f"{a} -> {b}" for a, b in lemmas.items()))

    def turn(text):
        return WORD.sub(lambda m: new.get(m.group(0), m.group(0)), text)

    def outside_strings(text):
        return "".join(x if x.startswith(('"', 'b"')) else turn(x) for x in re.split(r'(b?"(?:[^"\\\n]|\\.)*")', text))

    changed = 0
    for p in list(files((".antt", ".rt", ".edit"), ["crates"])) + list(files((".md",), ["README.md", "docs", "compare", "samples", "bindings"])):
        if p.startswith(("docs/01-", "docs/02-", "docs/src")):
            continue
        old = read(p)
        now = outside_strings(old) if p.endswith((".rt", ".edit")) else turn(old)
        if now != old:
            with open(p, "w", encoding="utf-8") as f:
                f.write(now)
            changed += 1
    print(f"{changed} files changed")


main()
