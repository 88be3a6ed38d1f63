#!/usr/bin/env python3
"""Brings the repository's own definitions and lemmas to snake case, after port.py of the kit has turned the sources.

usage: tools/respell_names.py [ROOT]     rewrites the files below ROOT/crates in place, and prints what fell together

A name of ours is one that a file of specs/ or proofs/ declares: a signature, a field, a constructor, a local of a
`where` or a `let`, a bound variable. Its dashes become underscores, wherever the name stands: in specs/ and proofs/,
and in the ghost lines and clauses of src/. Names that the check makes (goals, steps of `c`) and the library's keep
their dashes.
"""
import os
import re
import sys

ROOT = os.path.abspath(sys.argv[1] if len(sys.argv) > 1 else os.path.join(os.path.dirname(os.path.abspath(__file__)), ".."))
CRATES = os.path.join(ROOT, "crates")
WORD = r"[A-Za-z][\w']*(?:-[\w'*+≤<≡]+)+"
HEAD = re.compile(r"^\s*(?:(?:pub|abbrev|unfoldable|let|in|where) )*(%s) :(?=\s)" % WORD)
LET = re.compile(r"(?:^|[\s(])let (%s) (?=[:=]\s)" % WORD)
BOUND = re.compile(r"[({]((?:[^\s(){}:]+ )+): ")
LAMBDA = re.compile(r"λ ((?:[^\s.]+ )*[^\s.]+)\. ")
CLAUSE = re.compile(r"^\s*[A-Za-z][\w'-]* ((?:[^=λ]*?))\s=(?:\s|$)")


def files(ending):
    for folder, dirs, names in os.walk(CRATES):
        dirs[:] = sorted(d for d in dirs if d != "out")
        for name in sorted(names):
            if name.endswith(ending):
                yield os.path.join(folder, name)


def read(path):
    with open(path, encoding="utf-8") as f:
        return f.read()


def bare(line):
    """The line without its comment."""
    return re.split(r"(?:^|\s)--(?:\s|$)", line, maxsplit=1)[0]


def goals(path):
    """The goals that a proof file of a function answers: lines `name : goal.name`."""
    return set(re.findall(r"(?m)^(?:abbrev )?(?:pub )?([\w'-]+) : (?:goal|given)\.", read(path)))


def declared(path):
    names = set()
    made = goals(path)
    for line in map(bare, read(path).splitlines()):
        if line.startswith("use "):
            continue
        for found in (HEAD.match(line), *LET.finditer(line)):
            if found:
                names.add(found.group(1))
        for found in (*BOUND.finditer(line), *LAMBDA.finditer(line)):
            names.update(w for w in found.group(1).split() if re.fullmatch(WORD, w))
        found = CLAUSE.match(line)
        if found:
            names.update(re.findall(r"(?<![\w'.-])(%s)(?![\w'-])" % WORD, found.group(1)))
    return names - made


def main():
    ours = set()
    made = set()
    for path in files(".antt"):
        made |= goals(path)
        ours |= declared(path)
    imported = set()
    for path in (*files(".antt"), *files(".rt")):
        for module, items in re.findall(r"(?m)^(?:ghost )?use ([\w.]+)\.\{([^}]*)\}", read(path)):
            if module.startswith("Rattle.std.") or not module.startswith("Rattle."):
                imported |= {w.strip().split(" as ")[0] for w in items.split(",")}
    clash = sorted(n for n in ours if n in imported)
    skipped = sorted(n for n in ours if n in made)
    turn = {n: n.replace("-", "_") for n in ours if n not in imported and n not in skipped}
    token = re.compile(r"(?<![\w'◌-])(%s)(?![\w'◌-])" % "|".join(sorted(map(re.escape, turn), key=len, reverse=True)))
    there = set()
    for path in (*files(".antt"), *files(".rt")):
        there |= set(re.findall(r"[A-Za-z][\w']*", read(path)))
    changed = 0
    for path in (*files(".antt"), *files(".rt")):
        old = read(path)
        mark = "--" if path.endswith(".antt") else "//"
        out = []
        for line in old.splitlines(keepends=True):
            code, rest = line, ""
            found = re.search(r"(?:^|\s)%s(?:\s|/|$)" % mark, line)
            if found:
                code, rest = line[:found.start()], line[found.start():]
            code = token.sub(lambda m: m.group(1) if code[:m.start()].endswith("goal.") else turn[m.group(1)], code)
            rest = re.sub(r"`[^`]*`", lambda m: token.sub(lambda n: turn[n.group(1)], m.group(0)), rest)
            out.append(code + rest)
        new = "".join(out)
        if new != old:
            changed += 1
            with open(path, "w", encoding="utf-8") as f:
                f.write(new)
    print(f"{len(turn)} names, {changed} files")
    if clash:
        print("the library's too, left: " + ", ".join(clash))
    if skipped:
        print("made by the check, left: " + ", ".join(skipped))
    fell = sorted(t for t in turn.values() if t in there)
    if fell:
        print("stood already in this spelling: " + ", ".join(fell))


main()
