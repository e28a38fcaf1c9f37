#!/usr/bin/env python3
"""Respells the repository's own definitions and lemmas in the spelling of today's Rattle.

usage: python3 tools/respell.py [ROOT]      rewrites the .antt and .rt files below ROOT/crates in place

A name that a file of specs/ or proofs/ declares and that begins with a small letter becomes snake case: `clampAll` is
`clamp_all`, `over-more` is `over_more`. A part that is a fact keeps its capital and its dash, as `from-Le`. Names that Rattle
makes (goals, steps, invariants), names of the library and names of Rust stay. It was run once, after
/opt/rattle/port/port.py; run a second time it changes nothing.
"""

import os
import re
import sys

WORD = r"[\w'·]"
DECLARED = re.compile(r"^(\s*)(?:(?:abbrev|unfoldable|axiom)\s+)?(?:pub\s+)?(?:(?:data|record)\s+)?([^\s:(){}\[\],;]+)(?:\s*\([^)]*\)|\s*\{[^}]*\})*\s*:\s")
# names that would be another name's, or a word that reads badly
CHOSEN = {"getD-clampAll": "get_or_clamp_all", "kind-placed": "placed_kind", "width-from": "from_width"}


def files(root, ending):
    for folder, dirs, names in os.walk(os.path.join(root, "crates")):
        dirs[:] = sorted(d for d in dirs if d != "out")
        for name in sorted(names):
            if name.endswith(ending):
                yield os.path.join(folder, name)


def read(path):
    with open(path, encoding="utf-8") as f:
        return f.read()


def respelled(name):
    if name in CHOSEN:
        return CHOSEN[name]
    parts = name.split("-")
    out = ""
    for i, part in enumerate(parts):
        fact = part[:1].isupper()
        if i:
            out += "-" if fact or parts[i - 1][:1].isupper() else "_"
        out += part if fact else re.sub(r"(?<=[a-z0-9])([A-Z])", lambda m: "_" + m.group(1).lower(), part)
    return out


def declared(root):
    """The names that files of specs/ and proofs/ declare, and those of them that are fields of a record."""
    names, fields = set(), set()
    for path in files(root, ".antt"):
        generated = os.path.basename(path) in ("Answers.antt", "Invariants.antt", "Proof.antt")
        record, depth = False, 0
        for line in read(path).split("\n"):
            if line.lstrip().startswith(("--", "use ", "let ", "mod ", "pub mod ")):
                continue
            m = DECLARED.match(line)
            if re.match(r"\s*(pub\s+)?record\s", line):
                record, depth = True, len(line) - len(line.lstrip())
            elif line.strip() and len(line) - len(line.lstrip()) <= depth:
                record = False
            if not m or m.group(2) in ("pub", "module", "where", "data", "record", "unfolding"):
                continue
            if generated and re.search(r":\s*goal\.", line):
                continue
            names.add(m.group(2))
            if record and not re.match(r"\s*(pub\s+)?record\s", line):
                fields.add(m.group(2))
    return names, fields


def main():
    root = sys.argv[1] if len(sys.argv) > 1 else "."
    names, fields = declared(root)
    turned = {n: respelled(n) for n in names if not n[:1].isupper() and respelled(n) != n}
    back, clash = {}, False
    for old, new in sorted(turned.items()):
        if new in names or new in back:
            print(f"falls together: {old} and {back.get(new, new)} as {new}", file=sys.stderr)
            clash = True
        back[new] = old
    if clash:
        return 1
    dashed = {n for n in turned if "-" in n}
    for ending in (".antt", ".rt", ".edit"):
        for path in files(root, ending):
            text = read(path)
            wanted = {n for n in turned if n in text and (ending == ".antt" or n not in dashed)}
            new = text
            for n in sorted(wanted, key=len, reverse=True):
                before = r"(?<![\w'·-])" if n in fields else r"(?<![\w'·.-])"
                new = re.sub(before + re.escape(n) + r"(?![\w'·-])", turned[n], new)
            if new != text:
                with open(path, "w", encoding="utf-8") as f:
                    f.write(new)
    print(f"{len(turned)} names respelled")
    return 0


if __name__ == "__main__":
    sys.exit(main())
