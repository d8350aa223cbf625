#!/usr/bin/env python3
"""Spells the names of definitions, constructors, fields and lemmas in specs/ and proofs/ alike: words in snake case, types
in camel case. Run once at the top of the repository; --list prints the names, old and new, and writes nothing.

Functions of src/, exported names and strings keep their spelling, and so do the names that the check makes for goals and steps."""

import collections
import glob
import re
import sys

NAME = r"[^\s:(){},;.\[\]]+"
STD = re.compile(r"Rattle\.std\.[\w.+*']*\.\{([^}]*)\}")
# Names that stand for two things once they are spelled alike, and names that a rule of words does not give.
CHOSEN = {
    "getD-same": "get_or-same",
    "eqb-self": "nat_eq-self",
    "all-free": "all_free_lem",
    "both-forward": "both_forward_lem",
    "in_count": "in_count_lem",
    "in-time": "in_time_lem",
    "in-values": "in_values_lem",
    "put-load": "put_load_lem",
    "take-load": "take_load_lem",
    "Accepted-laid-out": "AcceptedLaidOut",
    "Worked-cases": "WorkedCases",
}


def texts():
    for pattern in ("specs/**/*.antt", "proofs/**/*.antt"):
        yield from sorted(glob.glob("crates/*/" + pattern, recursive=True))


def declared(text):
    """The names that a file declares, each with its kind; answers to goals are left out."""
    block = None
    for line in text.split("\n"):
        if not line.strip() or line.startswith("--"):
            continue
        if line.startswith(" "):
            m = re.match(rf"  (?:pub )?({NAME})(?:\s+[^:]*)?\s*:\s", line)
            if block and m:
                yield m[1], "constructor" if block == "data" else "field"
            continue
        block = None
        if re.match(r"use |pub mod |mod |unfolding ", line):
            continue
        m = re.match(rf"(?:pub )?(data|record)\s+({NAME})", line)
        if m:
            block = m[1]
            yield m[2], m[1]
            continue
        m = re.match(rf"((?:abbrev |unfoldable )?(?:pub )?)({NAME})\s*(?:\{{[^}}]*\}}\s*)?:\s(.*)", line)
        if m and not re.match(r"goal\.|given\.", m[3]):
            yield m[2], "definition" if re.match("abbrev|unfoldable", m[1]) else "lemma"


def spelled(name, kinds):
    if name in CHOSEN:
        return CHOSEN[name]
    if re.search(r"[+*≤∷]", name) or name[0].isupper():
        return name
    snake = re.sub(r"(?<=[a-z0-9])([A-Z])", lambda m: "_" + m[1].lower(), name)
    return snake.replace("-", "_")


def names():
    kinds = collections.defaultdict(set)
    for path in texts():
        with open(path, encoding="utf-8") as f:
            for name, kind in declared(f.read()):
                kinds[name].add(kind)
    return {n: spelled(n, k) for n, k in kinds.items()}, kinds


def turned(text, new, fields, source):
    """The text with its names spelled anew. In source, a name with a dash is one that the file imports, and else a difference."""
    imported = {n.strip() for names in re.findall(r"ghost use [^{]*\{([^}]*)\}", text) for n in names.split(",")}

    def swap(m):
        before, name = m[1], m[2]
        if name not in new or (source and "-" in name and name not in imported):
            return m[0]
        if before == "." and "-" in name and name not in fields:
            return m[0]
        return before + new[name]

    out = []
    for line in text.split("\n"):
        parts = re.split(r'("(?:[^"\\]|\\.)*")', line) if source else [line]
        out.append("".join(p if source and p.startswith('"') else re.sub(rf"(\.?)({NAME})", swap, p) for p in parts))
    return "\n".join(out)


def main(argv):
    new, kinds = names()
    fields = {n for n, k in kinds.items() if "field" in k}
    new = {n: s for n, s in new.items() if n != s}
    if "--list" in argv:
        for n in sorted(new):
            print(n, new[n], ",".join(sorted(kinds[n])))
        together = collections.defaultdict(set)
        for n in kinds:
            together[new.get(n, n)].add(n)
        for s, old in sorted(together.items()):
            if len(old) > 1:
                print("together:", s, *sorted(old))
        return 0
    places = [(p, False) for p in texts()] + [(p, True) for p in sorted(glob.glob("crates/*/src/**/*.rt", recursive=True))]
    places += [(p, True) for p in sorted(glob.glob("crates/*/must-fail/*.edit"))]
    for path, source in places:
        with open(path, encoding="utf-8") as f:
            old = f.read()
        text = turned(old, new, fields, source)
        if text != old:
            with open(path, "w", encoding="utf-8") as f:
                f.write(text)
    return 0


if __name__ == "__main__":
    raise SystemExit(main(sys.argv[1:]))
