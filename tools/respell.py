#!/usr/bin/env python3
"""Respells this repository's own names of definitions, types and lemmas: words in snake case, types in camel case.

usage: python3 tools/respell.py [--list]     at the top of the repository; --list prints the names and writes nothing

Names that are declared in the crates' .antt files and have a dash are turned, and capitalised names with a dash or an underscore. Names of
functions in src/, of goals, of the library and of files stay. Where an .antt file would have one name for two things, nothing is written;
in src/ a function may have the name of the definition that its contract cites.
"""

import collections
import os
import re
import sys

TOKEN = re.compile(r"[^\s(){}\[\];,.\"\u03bb\u25cc\u231c\u231d]+")
SIGNATURE = re.compile(r"^\s*(?:unfoldable |abbrev )?(?:pub )?([^\s:(){}=;,.\u03bb\"]+(?: [^\s:(){}=;,.\u03bb\"]+)*) :(?:\s|$)")
DECLARED = re.compile(r"^\s*(?:pub )?(?:data|record) ([^\s(){}:]+)")
LOCAL = re.compile(r"(?:\blet|[({]) ?([^\s:(){}=;,.\u03bb\"]+(?: [^\s:(){}=;,.\u03bb\"]+)*) :\s")
ALIAS = re.compile(r"\bas ([^\s{},;]+)")
GOAL = re.compile(r": (?:goal|need)\.")
WORDS = {"let", "in", "pub", "abbrev", "record", "data", "where", "module", "_"}

# names that no declaration shows (variables of a pattern), and names that have an older word of the library in them
VARIABLES = {"not-waits", "not-out"}
WHOLE = {"getD-filled": "get_or_filled", "getD-replicate-none": "get_or_replicate_none"}


def sources(top):
    for folder, dirs, names in os.walk(os.path.join(top, "crates")):
        dirs[:] = sorted(d for d in dirs if d not in ("out", "must-fail"))
        for name in sorted(names):
            if name.endswith((".antt", ".rt")):
                yield os.path.join(folder, name)


def declared(text):
    """The names that an .antt file declares: definitions, lemmas, fields, constructors and bound variables."""
    found = set()
    for line in text.split("\n"):
        if line.lstrip().startswith("--") or GOAL.search(line):
            continue
        if line.startswith("use "):
            found |= set(ALIAS.findall(line))
            continue
        matches = [m for m in (SIGNATURE.match(line), DECLARED.match(line)) if m] + list(LOCAL.finditer(line))
        for m in matches:
            found |= set(m[1].split()) - WORDS
    return found


def respelled(name):
    if name in WHOLE:
        return WHOLE[name]
    parts = re.split(r"[-_]", name)
    if name[0].isupper():
        return "".join(p[:1].upper() + p[1:] for p in parts)
    return "_".join(parts)


def is_own(name):
    """Whether a declared name is one to turn: words joined by dashes, or a type's words joined by anything."""
    joined = r"-" if not name[0].isupper() else r"[-_]"
    return bool(re.fullmatch(r"[A-Za-z][A-Za-z0-9']*(?:[-_][A-Za-z0-9']+)+", name)) and bool(re.search(joined, name))


def turned(text, table, comment):
    lines = []
    for line in text.split("\n"):
        code, said = (line, "") if comment not in line else (line[: line.index(comment)], line[line.index(comment) :])
        pieces = re.split(r'("(?:[^"\\]|\\.)*")', code)
        pieces = [p if p.startswith('"') else TOKEN.sub(lambda m: table.get(m[0], m[0]), p) for p in pieces]
        lines.append("".join(pieces) + said)
    return "\n".join(lines)


def main(argv):
    top = os.getcwd()
    texts = {path: open(path, encoding="utf-8").read() for path in sources(top)}
    names = set(VARIABLES)
    for path, text in texts.items():
        if path.endswith(".antt"):
            names |= {n for n in declared(text) if is_own(n)}
    table = {n: respelled(n) for n in names}
    clashes = []
    for path, text in texts.items():
        if path.endswith(".rt"):
            continue
        here = {t for line in text.split("\n") for t in TOKEN.findall(line)}
        back = collections.defaultdict(set)
        for t in here:
            back[table.get(t, t)].add(t)
        clashes += [f"{os.path.relpath(path, top)}: {sorted(v)}" for k, v in back.items() if len(v) > 1]
    if "--list" in argv:
        print("\n".join(f"{k} -> {table[k]}" for k in sorted(table)))
        print("\n".join("together: " + c for c in clashes))
        return 0
    if clashes:
        print("one name for two things:\n" + "\n".join(clashes))
        return 1
    for path, text in texts.items():
        new = turned(text, table, "//" if path.endswith(".rt") else "-- ")
        if new != text:
            open(path, "w", encoding="utf-8").write(new)
    print(f"{len(table)} names respelled")
    return 0


if __name__ == "__main__":
    raise SystemExit(main(sys.argv[1:]))
