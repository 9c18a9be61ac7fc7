#!/usr/bin/env python3
"""Brings the names of the repository's own definitions and lemmas to snake case.

usage: tools/snake_case.py [--check] [FOLDER]

Run it once, right after the kit's port.py, at the top of the repository (FOLDER: another checkout).
A name in camel case that begins with a small letter becomes snake case, each part between dashes by itself.
A field of a record and a constructor of a data type has no dash afterwards. Types, modules, functions of src/
and what the library declares keep their names. --check prints what falls together and writes nothing.
Exit status 1 if two names of one crate would fall together.
"""
import collections
import glob
import os
import re
import sys

TOKEN = re.compile(r"[^\s(){}\[\],;.`\"=λ:]+")
CAMEL = re.compile(r"[a-z][a-z0-9_']*[A-Zℤℕ]")
# two names that would fall together, and what the first becomes instead
APART = {"sum_over": "sum_over_lem", "pairs_of": "pairs_of_lem"}
# a field and a word that no file has both of
KNOWN = {"radius_at"}
# and in one crate alone
APART_IN = {("worked", "radius-at"): "radius_there"}


def snake_part(part):
    if not CAMEL.match(part) or re.search(r"_[A-Z]", part):
        return part
    out = ""
    for i, ch in enumerate(part):
        if (ch.isupper() or ch in "ℤℕ") and i and part[i - 1] != "_":
            out += "_"
        out += ch.lower() if ch not in "ℤℕ" else ch
    return out


def snake(token):
    if token in APART:
        return APART[token]
    return re.sub(r"[^-→]+", lambda m: snake_part(m[0]), token)


def files(root):
    for pattern in ("crates/*/specs/**/*.antt", "crates/*/proofs/**/*.antt", "crates/*/src/**/*.rt"):
        yield from sorted(glob.glob(os.path.join(root, pattern), recursive=True))


def read(path):
    with open(path, encoding="utf-8", newline="") as f:
        return f.read()


def members(text):
    """The fields and constructors that a text declares."""
    level = None
    for line in text.splitlines():
        if not line.strip() or line.strip().startswith("--"):
            continue
        indent = len(line) - len(line.lstrip())
        if level is not None and indent <= level:
            level = None
        head = re.match(r"\s*(?:(?:abbrev|unfoldable|pub|pattern) )*(record|data) ", line)
        if head:
            level = indent
            continue
        if level is not None:
            m = re.match(r"\s*(?:pub )?([^\s(){}:]+(?: [^\s(){}:]+)*) :", line)
            if m and indent == level + 2:
                yield from m[1].split()


def brought(texts):
    """The names that files import from outside the repository."""
    own = {os.path.basename(c) for c in CRATES}
    out = set()
    for text in texts.values():
        for m in re.finditer(r"use ([\w.'+◌-]+)\.\{([^{}]*)\}", text):
            parts = m[1].split(".")
            if parts[0] == "Rattle" and len(parts) > 1 and parts[1] in own:
                continue
            out |= set(x.strip().split(" as ")[0] for x in m[2].split(","))
    return out


def main(argv):
    global CRATES
    check = "--check" in argv
    argv = [a for a in argv if a != "--check"]
    root = argv[0] if argv else "."
    CRATES = sorted(glob.glob(os.path.join(root, "crates", "*")))
    texts = {p: read(p) for p in files(root)}
    outside = brought(texts)
    fields = set()
    for p, t in texts.items():
        if p.endswith(".antt"):
            fields |= set(members(t))
    tokens = collections.Counter()
    for t in texts.values():
        tokens.update(TOKEN.findall(t))
    names = {}
    for t in tokens:
        if t in outside or t.startswith("b'") or "/" in t or "\\" in t:
            continue
        new = snake(t)
        if t in fields and t not in APART:
            new = new.replace("-", "_")
        if new != t:
            names[t] = new
    bad = 0
    functions = set(n for t in texts.values() for n in re.findall(r"\bfn (\w+)", t))
    # names that fall together: judged crate by crate, by what its files hold
    by_crate = collections.defaultdict(set)
    for p, t in texts.items():
        by_crate[os.path.relpath(p, root).split(os.sep)[1]] |= set(TOKEN.findall(t))
    for crate, held in sorted(by_crate.items()):
        made = collections.defaultdict(set)
        for t in held:
            made[APART_IN.get((crate, t), names.get(t, t))].add(t)
        for new, olds in sorted(made.items()):
            # a word of specs/ may have the name of a function of src/, and records may share a field's name
            olds -= {t for t in olds if t == new and t in functions}
            if len(olds) > 1 and not olds <= fields and new not in KNOWN:
                bad += 1
                print(f"{crate}: {new}: {' '.join(sorted(olds))}")
    if check:
        print(f"{len(names)} names, {bad} fall together")
        return 1 if bad else 0
    done = 0
    for p, t in texts.items():
        crate = os.path.relpath(p, root).split(os.sep)[1]
        new = TOKEN.sub(lambda m: APART_IN.get((crate, m[0]), names.get(m[0], m[0])), t)
        if new != t:
            with open(p, "w", encoding="utf-8", newline="") as f:
                f.write(new)
            done += 1
    with open(os.path.join(root, "tools", "snake_case.tsv"), "w", encoding="utf-8") as f:
        for t in sorted(names):
            f.write(f"{t}\t{names[t]}\n")
    print(f"{done} files, {len(names)} names")
    return 0


if __name__ == "__main__":
    sys.exit(main(sys.argv[1:]))
