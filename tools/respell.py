#!/usr/bin/env python3
"""Respells this repository's own names as today's Rattle spells them.

    python3 tools/respell.py

Run once, at the top, after the kit's port.py. Each name that specs/ or proofs/ declare, or that a `let` there binds, has `_` for
each `-`, a fact that is a type is in camel case, and a word of the older library inside a name has its newer word. Names
that the check makes for goals and loops, and names of the library, stay. It ends with an error, and changes nothing, where two
names would fall together.
"""
import glob
import os
import re
import sys

SPECIAL = {"Draft-weighs": "DraftWeighs", "getD-set-default": "get_or_set_default"}
MADE = re.compile(r"(returns|loop|invariant|decreases|overflow|unwrap|goal)-|unwrap-requires")
EDGE = r"[\s(){}\[\],;.:`\"λ⌜⌝]"
FIELD = re.compile(r"(?<=[^\s])\.[^\s(){}\[\],;.:]+")
TOKEN = re.compile(r"[^\s(){}\[\],;.:`\"λ⌜⌝]+")
DECLARES = re.compile(r"\s*(?:abbrev |unfoldable |pub |data |record )*((?:[^\s(){}:;=.,]+ )*[^\s(){}:;=.,]+) :(?:\s|$)")
BINDS = re.compile(r"(?:^|[(\s])let ([^\s:=(]+)")
TAKEN_IN = re.compile(r"use (?:Rattle\.(?:std|core)|mathlib|native|Prim|lib)\.[^{]*\{([^}]*)\}")


def files(*patterns):
    found = set()
    for pattern in patterns:
        found.update(glob.glob(pattern, recursive=True))
    return sorted(found)


def text(path):
    with open(path, encoding="utf-8") as f:
        return f.read()


def renamed(name):
    return SPECIAL.get(name) or name.replace("-", "_")


def main():
    proofs = files("crates/*/specs/**/*.antt", "crates/*/proofs/**/*.antt")
    sources = files("crates/*/src/**/*.rt")
    own, library, seen = set(), set(), set()
    for path in proofs + sources:
        for taken in TAKEN_IN.findall(text(path)):
            library.update(part.strip() for part in taken.split(","))
        for line in text(path).splitlines():
            if path.endswith(".rt") or line.lstrip().startswith("--"):
                continue
            # a name after a dot is a field, or what the check makes of a step, and stands apart
            seen.update(TOKEN.findall(FIELD.sub("", line)))
            declared = DECLARES.match(line)
            names = declared.group(1).split() if declared else []
            own.update(n for n in names + BINDS.findall(line) if "-" in n and not MADE.match(n))
    both = own & library
    table = {name: renamed(name) for name in sorted(own - both)}
    fallen = [n for n in table if table[n] in seen or list(table.values()).count(table[n]) > 1]
    if fallen:
        sys.exit("these would fall together with another name: " + ", ".join(fallen))
    name = re.compile(r"(?<=" + EDGE + r")(" + "|".join(map(re.escape, sorted(table, key=len, reverse=True))) + r")(?=" + EDGE + r"|['!])")
    for path in proofs + sources + files("docs/*.md", "README.md"):
        old = text(path)
        if path.endswith(".md"):
            new = re.sub(r"`[^`\n]*`", lambda m: name.sub(lambda n: table[n.group(1)], m.group(0)), old)
        else:
            new = name.sub(lambda n: table[n.group(1)], "\n" + old + "\n")[1:-1]
        if new != old:
            with open(path, "w", encoding="utf-8") as f:
                f.write(new)
    print(f"{len(table)} names; left to the library: {', '.join(sorted(both)) or 'none'}")


if __name__ == "__main__":
    main()
