#!/usr/bin/env python3
"""Brings the repository's own names to one spelling, after /opt/rattle/port/port.py.

usage: tools/respell.py          rewrites crates/*/specs, crates/*/proofs and the sources' clauses, in place
       tools/respell.py --map    prints each name with its new spelling, and changes nothing

A definition that was in camel case is in snake case: `numberBytes` is `number_bytes`. A lemma joins words by `_`, and keeps a
dash only between two names of definitions: `usable-is` is `usable_is`, `length-numberBytes` is `length-number_bytes`. A field
of a record is in snake case. Types, modules, functions of src/ and exported names keep theirs.
"""
import collections
import os
import re
import sys

ROOT = os.path.dirname(os.path.dirname(os.path.realpath(__file__)))
DECLARED = re.compile(r"^(\s*)(?:(?:pub|abbrev|unfoldable|private)\s+)*([A-Za-z_][^\s:(){}«»]*)\s*:(?!=)\s")
# Names of the library that stand in names of lemmas beside the repository's own.
LIBRARY = {"length", "take", "drop", "set", "append", "nil", "cons", "replicate", "get_or", "zero", "suc", "not"}
# Single words among the repository's definitions that stand in names of lemmas as the definition.
OWN = {"patched", "zeros", "any", "passing"}
# Lemmas that port.py gave the spelling that a definition has now, by crate: as a lemma of its function's name each gets `_lem`.
APART = {"theorems": ["block_size"], "image": ["cut_off", "entry_in"]}


def files(ending):
    for folder, dirs, names in os.walk(os.path.join(ROOT, "crates")):
        dirs[:] = sorted(d for d in dirs if d != "out")
        for name in sorted(names):
            if name.endswith(ending):
                yield os.path.join(folder, name)


def snake(name):
    return re.sub(r"(?<=[a-z0-9])([A-Z])", lambda m: "_" + m[1].lower(), name)


def declared():
    """The names that specs/ and the files of lemmas declare, and those of them that are fields of records."""
    names, fields = set(), set()
    for path in files(".antt"):
        if path.endswith("/Proof.antt"):
            continue
        record = None
        for line in open(path, encoding="utf-8"):
            indent = len(line) - len(line.lstrip())
            if record is not None and line.strip() and indent <= record:
                record = None
            if re.match(r"\s*(pub )?record ", line):
                record = indent
            found = DECLARED.match(line)
            if found and not line.strip().startswith("--"):
                (names if record is None else fields).add(found[2])
    return names, fields


def joined(name, known):
    """A lemma's name: a dash stays between two known names, every other is `_`."""
    parts = [snake(p) for p in name.replace("getD", "get_or").split("-")]
    words, i = [], 0
    while i < len(parts):
        j = next(j for j in range(len(parts), i, -1) if j == i + 1 or "_".join(parts[i:j]) in known)
        words.append("_".join(parts[i:j]))
        i = j
    out = words[0]
    for left, right in zip(words, words[1:]):
        out += ("-" if left in known and right in known else "_") + right
    return out


def mapping():
    names, fields = declared()
    camel = {n for n in names | fields if n[0].islower() and "-" not in n and re.search(r"[a-z0-9][A-Z]", n)}
    known = {snake(n) for n in camel & names} | LIBRARY | OWN
    turned = {n: snake(n) for n in camel}
    taken = set(turned.values()) | {n for n in names if "-" not in n}
    for name in sorted(n for n in names | fields if "-" in n and n[0].islower()):
        if name in fields and name not in names:
            turned[name] = name.replace("-", "_")
        else:
            new = joined(name, known)
            turned[name] = new + "_lem" if new in taken else new
    return {a: b for a, b in turned.items() if a != b}, names | fields


def together(turned, names):
    """Pairs of names that would be one afterwards."""
    by_new = collections.defaultdict(set)
    for name in names:
        by_new[turned.get(name, name)].add(name)
    return {new: old for new, old in by_new.items() if len(old) > 1}


def turn(text, turned, camel_only):
    names = [n for n in turned if not camel_only or "-" not in n]
    pattern = re.compile(r"(?<![\w\-'◌«])(" + "|".join(map(re.escape, sorted(names, key=len, reverse=True))) + r")(?![\w\-'◌»])")
    return pattern.sub(lambda m: turned[m[1]], text)


def main():
    turned, names = mapping()
    clash = together(turned, names)
    if "--map" in sys.argv[1:]:
        for name in sorted(turned):
            print(name, turned[name])
        for new, old in sorted(clash.items()):
            print("together:", new, *sorted(old))
        return 0
    for ending in (".antt", ".rt"):
        for path in files(ending):
            old = open(path, encoding="utf-8").read()
            apart = APART.get(os.path.relpath(path, ROOT).split(os.sep)[1], []) if ending == ".antt" else []
            for name in apart:
                old = re.sub(r"(?<![\w.\-'`:])" + name + r"(?![\w\-'`]|\.[a-z])", name + "_lem", old)
            new = turn(old, turned, ending == ".rt")
            if new != old:
                open(path, "w", encoding="utf-8").write(new)
    return 0


if __name__ == "__main__":
    raise SystemExit(main())
