#!/usr/bin/env python3
"""Spells this repository's own ghost names as the library does: words in snake case, a dash only where it joins two names.

usage: python3 tools/spelling.py [--list]      at the top of the repository, once, after the kit's own script

It turns what the texts of crates/ declare (definitions, fields, lemmas) and what they bind, in .antt files, in the clauses of .rt files and in
must-fail edits. Names of Rust functions, fields and parameters are in snake case already and stay. Types and modules stay. Names that a proof by
hand takes from the check (in proofs/F/Proof.antt) stay but for the words in them. It stops where two names would fall together.
"""

import os
import re
import sys

NAME = r"[^\s(){}.;,@\"«»]+"
DECLARED = re.compile(r"^ *(?:(?:pub|unfoldable|abbrev|data|record)\s+)*(" + NAME + r")(?: \{[^{}\n]*\})* :(?= |$)")
WORD = re.compile(NAME)
CAMEL = re.compile(r"(?<=[a-z0-9])[A-Z]")
# words of the library that a dash may join
LIBRARY = {"length", "append", "drop", "take", "map", "set", "sum", "bit", "replicate"}
# names whose plain new spelling is taken
SPECIAL = {
    "bit-and": "bit-and",
    "bit-or": "bit-or",
    "is_IsLeaf": "is_IsLeaf",
    "cost-of": "cost_of_rail",
    "hasNot": "has_no_hoses",
    "once-at-most": "entry_once_at_most",
    "order-test": "order_by_test",
    "copiedMore": "row_copied_more",
    "noRecord": "no_record_left",
    "noneAhead": "no_outlet_ahead",
    "noneLeft": "none_left_of",
}


def files(end):
    for folder, dirs, names in os.walk("crates"):
        dirs[:] = sorted(d for d in dirs if d not in ("out", "target"))
        for name in sorted(names):
            if name.endswith(end):
                yield os.path.join(folder, name)


def read(path):
    with open(path, encoding="utf-8") as f:
        return f.read()


def by_hand(path):
    return path.endswith("/Proof.antt")


def declared():
    of_specs, all_names = set(), set()
    for path in files(".antt"):
        for line in read(path).splitlines():
            m = DECLARED.match(line)
            if not m:
                continue
            name = m.group(1)
            if by_hand(path) and "-" in name:
                continue
            all_names.add(name)
            if "/specs/" in path:
                of_specs.add(name)
    return of_specs, all_names


def words(name):
    return CAMEL.sub(lambda m: "_" + m.group(0).lower(), name)


def turned(name, of_specs):
    if name[:1].isupper():
        return name
    parts = name.split("-")
    if len(parts) == 1 or not all(parts):
        return words(name)
    out = words(parts[0])
    for i in range(1, len(parts)):
        joins = ("-".join(parts[:i]) in of_specs or parts[i - 1] in LIBRARY) and ("-".join(parts[i:]) in of_specs or parts[i] in LIBRARY)
        out += ("-" if joins else "_") + words(parts[i])
    return out


def main(argv):
    of_specs, names = declared()
    new = {}
    for n in names:
        t = SPECIAL.get(n, turned(n, of_specs))
        if t != n:
            new[n] = t
    # what is bound in camel case inside a text: fields of a let, variables
    used = {}
    for path in files(".antt"):
        for w in WORD.findall(re.sub(r"--.*", "", read(path))):
            used.setdefault(w, set()).add(path)
            bare = w.strip("λ")
            if w not in new and not w[:1].isupper() and CAMEL.search(w) and "-" not in w and "/" not in w and w.isascii():
                new[w] = words(w)
    bad = []
    back = {}
    for n, t in sorted(new.items()):
        if t in back:
            bad.append(f"{n} and {back[t]} would both be {t}")
        back[t] = n
        if t in used and t not in new:
            both = sorted(used[t] & used.get(n, set()))
            bad.append(f"{n} would be {t}, which stands in {len(used[t])} files" + (f", {len(both)} of them together: {both[:3]}" if both else ""))
    if "--list" in argv:
        for n, t in sorted(new.items()):
            print(n, t)
    for b in bad:
        print("look:", b)
    if "--list" in argv:
        return 0

    def turn(text):
        return WORD.sub(lambda m: new.get(m.group(0), m.group(0)), text)

    n = 0
    for path in list(files(".antt")) + list(files(".rt")) + list(files(".edit")):
        old = read(path)
        if path.endswith(".rt"):
            # clauses and ghost uses alone; the code has no such name
            text = re.sub(r"(?m)^ *(?:ghost use [^;]*;|(?:requires|ensures)\b[^\n]*(?:\n(?! *(?:requires|ensures)\b| *\{? *$|\{)[^\n]*)*)", lambda m: turn(m.group(0)), old)
        else:
            text = turn(old)
        if text != old:
            with open(path, "w", encoding="utf-8") as f:
                f.write(text)
            n += 1
    print(f"{len(new)} names, {n} files")
    return 0


if __name__ == "__main__":
    raise SystemExit(main(sys.argv[1:]))
