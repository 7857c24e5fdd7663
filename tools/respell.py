#!/usr/bin/env python3
"""Spell the repository's own antt names as Rattle does now: words in snake case, facts in camel case.

Run once at the top of a checkout, after /opt/rattle/port/port.py. The names are read from the
declarations of specs/ and proofs/, so the script gives the same spelling on any state of the tree.
Goals and invariants that Rattle names, names of std, strings and functions of src/ stay.
"""
import glob
import re
import sys

TOKEN = re.compile(r"[^\s(){}\[\];:.,\"@«»]+")
DECLARED = re.compile(
    r"^(\s*)(?:(?:abbrev|unfoldable|pub)\s+)*(?:(record|data|ruleset)\s+)?([^\s(){}:;.,=]+)\s*(.*)$"
)
WORDS = {"use", "module", "unfolding", "mod", "|", "elim", "let", "open", "mutual", "--"}
# facts and types that had a name in small letters
FACTS = {"blank": "Blank", "cache-did": "CacheDid"}
# names that no declaration shows: a field that port.py left in src/, and other names of imports
OTHERS = {name: name.replace("-", "_") for name in ["in-order", "image-kind", "sector-kind"]}
# words of std that are spelled otherwise now, and a sign that is no letter
PARTS = [("getD", "get_or"), ("left?", "is_left")]


def sources():
    return sorted(
        glob.glob("crates/*/specs/**/*.antt", recursive=True)
        + glob.glob("crates/*/proofs/**/*.antt", recursive=True)
    )


def spelled(name):
    if name in FACTS:
        return FACTS[name]
    for old, new in PARTS:
        name = name.replace(old, new)
    return name.replace("-", "_")


def declared(path):
    """The names that a file declares, but for the answers and invariants that Rattle asks for."""
    for line in open(path):
        m = DECLARED.match(line)
        if not m or m.group(3) in WORDS:
            continue
        kind, name, rest = m.group(2), m.group(3), m.group(4)
        if kind or (rest.startswith(":") and not re.match(r":\s*(goal|need|needs)\.", rest)):
            yield name


def from_std(paths):
    names = set()
    for path in paths:
        for m in re.finditer(r"use Rattle\.std\S*\.\{([^}]*)\}", open(path).read()):
            names |= {part.split(" as ")[0].strip() for part in m.group(1).split(",")}
    return names


def main():
    antt = sources()
    rt = sorted(glob.glob("crates/*/src/**/*.rt", recursive=True))
    std = from_std(antt + rt)
    names, every = dict(OTHERS), set()
    for path in antt:
        for name in declared(path):
            every.add(name)
            if name not in std and spelled(name) != name:
                names[name] = spelled(name)
    taken = {}
    for name in every:
        taken.setdefault(names.get(name, name), set()).add(name)
    together = {new: old for new, old in taken.items() if len(old) > 1}
    if together:
        sys.exit(f"names that fall together: {together}")

    def respell(text):
        return TOKEN.sub(lambda m: names.get(m.group(0), m.group(0)), text)

    changed = 0
    for path in antt + rt:
        old = open(path).read()
        if path.endswith(".rt"):
            new = "".join(
                part if k % 2 else respell(part)
                for k, part in enumerate(re.split(r'("(?:[^"\\\n]|\\.)*")', old))
            )
        else:
            new = respell(old)
        if new != old:
            open(path, "w").write(new)
            changed += 1
    print(f"respell: {len(names)} names, {changed} files")


main()
