#!/usr/bin/env python3
"""Gives the repository's own definitions and lemmas the spelling of today's Rattle: snake case for words, camel case for facts.

usage: python3 tools/respell.py        at the top of the repository, once, after the toolchain's own port script

A name is the repository's own where a file of specs/ or proofs/ gives it a signature, a data type or a record. Goals keep their names, since Rattle makes
them; so do paths that begin at the facts of a goal (`c.`, `w.`, `l.`, `goal.`), and names that a library has too and some file imports from there.
Strings in sources are left alone. It prints what it left.
"""
import collections
import os
import re

TOP = "crates"
# Facts that are named as if they were words.
FACTS = {"reads-marked": "ReadsMarked"}
SIGNATURE = re.compile(r"^\s*(?:\| )?(?:(?:abbrev|unfoldable) )?(?:pub )?([^\s:(){}\[\]\"]+(?: [^\s:(){}\[\]\"]+)*) :(?: (.*))?$")
GOAL = re.compile(r"(goal|rules|choice)s?\.")
IMPORT = re.compile(r"use ([^\s{;]+)\.\{([^}]*)\}")
TOKEN = re.compile(r"[^\W\d]['\w]*(?:-['\w*+=<>≡≤∷]+)*(?:\.[^\W\d]['\w]*(?:-['\w*+=<>≡≤∷]+)*)*")
LEFT_ALONE = ("c", "w", "l", "goal", "rules")


def files(*endings):
    for folder, dirs, names in os.walk(TOP):
        dirs[:] = sorted(d for d in dirs if d != "out")
        yield from (os.path.join(folder, n) for n in sorted(names) if n.endswith(endings))


def read(path):
    with open(path, encoding="utf-8") as f:
        return f.read()


def snake(name):
    return FACTS.get(name) or re.sub(r"(?<=[\w'])-(?=[\w'])", "_", name)


def own_names():
    """Each dashed name that is the repository's own, with what it becomes."""
    own, words = set(), set()
    for path in files(".antt"):
        text = read(path)
        for line in text.splitlines():
            m = SIGNATURE.match(line)
            if m and not line.lstrip().startswith("--") and not GOAL.match((m[2] or "").strip()):
                own.update(m[1].split())
        own.update(re.findall(r"^\s*(?:pub )?(?:data|record) ([^\s:(]+)", text, re.M))
        words.update(re.findall(r"[^\W\d][\w']*", text))
    crates = set(os.listdir(TOP))
    library = collections.defaultdict(set)
    for path in files(".antt", ".rt"):
        for where, names in IMPORT.findall(read(path)):
            m = re.match(r"Rattle\.(\w+)\.", where)
            if not (m and m[1] in crates):
                for name in names.split(","):
                    library[name.strip().split(" as ")[0]].add(where)
    turned = {}
    for name in sorted(own):
        if not re.search(r"\w-\w", name):
            continue
        if name in library:
            print(f"left: {name}, which {', '.join(sorted(library[name]))} has too")
        else:
            turned[name] = snake(name)
    fallen = collections.Counter(turned.values())
    for name, new in turned.items():
        if fallen[new] > 1 or new in own:
            raise SystemExit(f"respell: {name} falls together with another name as {new}")
    return turned


def main():
    turned = own_names()

    def respell(m):
        parts = m[0].split(".")
        if len(parts) > 1 and parts[0] in LEFT_ALONE:
            return m[0]
        return ".".join(turned.get(p, p) for p in parts)

    changed = 0
    for path in files(".antt", ".rt", ".edit"):
        old = read(path)
        if path.endswith(".antt"):
            new = TOKEN.sub(respell, old)
        else:
            pieces = re.split(r'("(?:[^"\\\n]|\\.)*")', old)
            new = "".join(p if p.startswith('"') else TOKEN.sub(respell, p) for p in pieces)
        if new != old:
            changed += 1
            with open(path, "w", encoding="utf-8") as f:
                f.write(new)
    print(f"respell: {len(turned)} names in {changed} files")


if __name__ == "__main__":
    main()
