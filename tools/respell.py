#!/usr/bin/env python3
"""Respells the repository's own definitions and lemmas as the kit spells its own.

usage: python3 tools/respell.py [--list]      at the top of the repository, once, after the kit's own script

A word or a lemma is in snake case (`goalOf`, `kept-with` become `goal_of`, `kept_with`), a fact or a type in camel case with a capital
(`Every-list-of-turns` becomes `EveryListOfTurns`). Only names that a file of specs/ or proofs/ defines are touched, in clauses and in
proofs alike. Names that the checker makes (goals, steps) and names of the library keep their spelling. With --list nothing is written.
"""

import glob
import re
import sys

# Names that would fall together with another name that the same file needs.
APART = {
    "bit-and": "bit_of_and",
    "bit-or": "bit_of_or",
    "goal-of": "region_goal",
    "item-at": "item_at_read",
    "orLeft": "left_of_or",
    "set-in": "set_within",
}

# Steps that the checker names so in the same files: they keep that name behind `c` or `w`.
STEP = re.compile(r"(?<![^\s({\[])([cw]\.)(all-below|beaten-nodes|effects-of|lowest-level)(?=[.\s){}\],;]|$)")

WORD = re.compile(r"[^\s(){}\[\];,.|«»`\"]+")
DEFINED = re.compile(
    r"^[ \t]*(?:(?:pub|abbrev|unfoldable|private|ruleset)[ \t]+)*(record[ \t]+|data[ \t]+)?([^\s(){}\[\];,.:|]+)(?=[ \t]+[({:])", re.M
)
LET = re.compile(r"\blet[ \t]+([^\s(){}\[\];,.:|=]+)(?=[ \t]+[:=])")
FOREIGN = re.compile(r"^[ \t]*(?:pub[ \t]+)?(?:ghost[ \t]+)?use[ \t]+((?:lib|native|borrow|denote|mathlib|Prim|specs|logic|Rattle\.std|Rattle\.core|std)\b[^{;\n]*)\{([^}]*)\}", re.M)
KEYWORDS = {"use", "module", "let", "in", "mod", "elim", "open", "where", "import", "pub", "abbrev", "record", "data", "--", "λ", "_"}


def files(pattern):
    return sorted(f for f in glob.glob(pattern, recursive=True) if "/out/" not in f)


def respelled(name):
    if name in APART:
        return APART[name]
    name = name.replace("′", "'")
    if name[0].isupper():
        return "".join(part[:1].upper() + part[1:] for part in name.split("-"))
    return re.sub(r"(?<=[a-z0-9])([A-Z])(?=[a-z])", lambda m: "_" + m.group(1).lower(), name.replace("-", "_"))


def main():
    proofs = files("crates/*/specs/**/*.antt") + files("crates/*/proofs/**/*.antt")
    texts = {f: open(f, encoding="utf-8").read() for f in proofs + files("crates/*/src/**/*.rt")}
    made, foreign, own = set(), {}, {}
    for f, t in texts.items():
        made.update(re.findall(r"\bgoal\.([^\s(){}\[\];,.]+)", t))
        for m in FOREIGN.finditer(t):
            for it in re.split(r"[,\s]+", m.group(2)):
                foreign.setdefault(it, set()).add(f)
    for f in proofs:
        for m in list(DEFINED.finditer(texts[f])):
            own.setdefault(m.group(2), set()).add(f)
        for m in LET.finditer(texts[f]):
            own.setdefault(m.group(1), set()).add(f)
    table = {}
    for n in own:
        if n in KEYWORDS or n in made or n in foreign or not (n[0].isalpha()):
            continue
        new = respelled(n)
        if new != n:
            table[n] = new
    if "--list" in sys.argv:
        for n in sorted(table):
            print(n, table[n], sep="\t")
        seen = {}
        for n, new in table.items():
            seen.setdefault(new, []).append(n)
        for new, ns in seen.items():
            if len(ns) > 1 or new in own:
                print("together:", new, ns, "also own" if new in own else "", file=sys.stderr)
            if new in foreign:
                print("library:", new, ns, sorted(foreign[new])[:4], file=sys.stderr)
        for f, t in texts.items():
            for m in re.finditer(r"\b(?:c|w|l)\.((?:[^\s(){}\[\];,]+))", t):
                for part in m.group(1).split("."):
                    if part in table:
                        print("step?", f, m.group(0), part, file=sys.stderr)
        return
    for f, t in texts.items():
        kept = STEP.sub(lambda m: m.group(1) + "\x00" + m.group(2), t)
        new = WORD.sub(lambda m: table.get(m.group(0), m.group(0)), kept).replace("\x00", "")
        if new != t:
            open(f, "w", encoding="utf-8").write(new)


main()
