#!/usr/bin/env python3
"""Brings the repository's own definitions and lemmas to today's spelling: words in snake case, facts and types in camel case.

usage: python3 tools/respell.py        at the top of the repository, once, after port.py
       python3 tools/respell.py --list prints old and new names, and those that stand already

Names of src/, exported names, strings, inputs and outputs keep their spelling.
"""

import glob
import re
import sys

DEF = re.compile(r"^(\s*)((?:abbrev |unfoldable |pub |record |data |syntax )*)([^\s:(){},;.\[\]]+)((?:\s[^\n]*?)?)\s:(?:\s|$)")
TOKEN = re.compile(r"[^\s(){}\[\],;.|\"`'λ:·⌜⌝«»][^\s(){}\[\],;.|\"`λ:·⌜⌝«»]*")

# Names that would fall together with others. Where a lemma or a field would take the new name of a definition, it keeps its dash, or gets it back.
OWN = {
    "nodePriorities": "node_priorities_of",
    "getD-map-below": "get_or-map-below",
    "getD-mem": "get_or-mem",
    "getD-padded": "get_or-padded",
    "getD-pieces": "get_or-pieces",
    "getD-range": "get_or-range",
}
DASHED = ["is-built", "lowest-is", "translate-says", "wulfrenda-translate-says", "wulfrenda-translate-bytes-says", "read-says", "wulfrenda-run-says"]
DASHED += ["is-root", "in-root", "read-text-says", "wulfrenda-read-hanoi-says", "counts-fit", "in-family", "solve-says", "wulfrenda-solve-says"]
DASHED += ["wulfrenda-solve-bytes-says"]
BACK = ["by_number", "counts_of", "ends_by", "in_order", "is_leaf", "is_read", "mark_set", "row_target", "run_end", "same_graph", "same_head"]
BACK += ["same_target", "target_at"]
# Names under which others are imported, and those of definitions that the pattern below does not see.
EXTRA = ["translateNumberOf", "readNumberOf", "lettersExit", "winnersExit", "bytesReadingOf", "runNumberOf", "edgeColour", "policyOfText", "edgeTarget"]
EXTRA += ["textNumberOf", "runReadingOf", "policyStates", "callsMet", "readRefusalOf", "nameRead", "compareNumberOf"]
OWN |= {name: name for name in DASHED} | {name: name.replace("_", "-") for name in BACK}


def snake(name):
    out = []
    for part in name.split("-"):
        out.append(re.sub(r"(?<=[a-z0-9])([A-Z])", lambda m: "_" + m.group(1).lower(), part) if part[:1].islower() else part)
    return "-".join(out)


def files(*kinds):
    for kind in kinds:
        yield from sorted(glob.glob(kind, recursive=True))


def collect():
    """Each name that is defined, with where: 'spec', 'field' or 'proof'."""
    found = {}
    for path in files("crates/*/specs/**/*.antt", "crates/*/proofs/**/*.antt"):
        where = "spec" if "/specs/" in path else "proof"
        in_record = None
        for line in open(path, encoding="utf-8"):
            if line.strip().startswith("--") or not line.strip():
                continue
            indent = len(line) - len(line.lstrip())
            if in_record is not None and indent <= in_record:
                in_record = None
            m = DEF.match(line)
            if not m:
                continue
            kind = "field" if in_record is not None and indent > in_record else where
            if re.search(r"\b(record|data)\b", m.group(2)):
                in_record = indent
            found.setdefault(m.group(3), set()).add(kind)
    return found


def renamed(found):
    table = {name: snake(name) for name in EXTRA}
    for name, kinds in found.items():
        new = OWN.get(name)
        if new is None:
            new = snake(name)
            if "field" in kinds or ("spec" in kinds and new[:1].islower()):
                new = new.replace("-", "_")
        if new != name:
            table[name] = new
    return table


def tokens(path):
    return TOKEN.findall(open(path, encoding="utf-8").read())


def main(argv):
    found = collect()
    table = renamed(found)
    if argv:
        words = set()
        for path in files("crates/*/specs/**/*.antt", "crates/*/proofs/**/*.antt", "crates/*/src/**/*.rt"):
            words |= set(tokens(path))
        for old, new in sorted(table.items()):
            print(old, new, *(["STANDS"] if new in words else []))
        back = {}
        for old, new in table.items():
            back.setdefault(new, []).append(old)
        for new, olds in back.items():
            if len(olds) > 1:
                print("TOGETHER", new, olds)
        return 0
    for path in files("crates/*/specs/**/*.antt", "crates/*/proofs/**/*.antt", "crates/*/src/**/*.rt", "crates/*/must-fail/*.edit"):
        text = open(path, encoding="utf-8").read()
        turned = TOKEN.sub(lambda m: table.get(m.group(0), m.group(0)), text)
        if turned != text:
            open(path, "w", encoding="utf-8").write(turned)
    return 0


if __name__ == "__main__":
    raise SystemExit(main(sys.argv[1:]))
