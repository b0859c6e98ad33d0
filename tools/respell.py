#!/usr/bin/env python3
"""Respells the repository's own definitions and lemmas as today's Rattle spells names, once, after the kit's porting script.

    tools/respell.py        at the top of the repository

Words are joined by `_`, types are in camel case, and a test ends in no `?`. The names that are turned are those that
specs/ and proofs/ declare; the goals and steps that Rattle names keep their dashes, and so do the library's lemmas.
It stays in the repository so that a text in the old spelling can be turned in the same way.
"""
import pathlib
import re

TOP = pathlib.Path(".")
TOKEN = r"[^\s(){}\[\];:,.«»λ`]+"
# names whose plain respelling would fall together with another name, or that need another word
SPECIAL = {
    "Cell-rule": "CellRuleStands",
    "Part-map": "PartMapStands",
    "cell-rule?": "meets_cell_rule",
    "all-below?": "are_below",
    "distinct?": "are_distinct",
    "hit?": "is_hit",
    "same-counts?": "have_same_counts",
    "getD-upto": "get_or_upto",
    "rulesOf": "rules_of",
    "isStart": "is_start",
    "T-from": "T_from",
    "true-T": "true_T",
    "eqb→eq": "eq_of_eqb",
}
# parameters of definitions
PARAMETERS = {"pattern-classes", "board-classes", "nets-of-pattern", "nets-of-board"}


def respelled(name):
    if name in SPECIAL:
        return SPECIAL[name]
    if name[0].isupper():
        return "".join(word[0].upper() + word[1:] for word in name.split("-"))
    return name.replace("-", "_")


def declared(path):
    """The names that a file declares, and which of them are fields of records."""
    names, fields = set(), set()
    for line in path.read_text().splitlines():
        if line.lstrip().startswith("--"):
            continue
        found = re.match(r"(\s*)(?:unfoldable |abbrev )*(pub )?(?:data |record |ruleset )?(?:pub )?(" + TOKEN + r")(?:\s+[({].*)?\s*:(?:\s|$)", line)
        if not found or found.group(3) in ("let", "use", "mod", "pub"):
            continue
        name = found.group(3)
        if re.search(r":\s*(goal|need)\.", line):
            continue
        names.add(name)
        if found.group(1) and found.group(2):
            fields.add(name)
    return names, fields


def main():
    proofs = sorted(TOP.glob("crates/*/specs/**/*.antt")) + sorted(TOP.glob("crates/*/proofs/**/*.antt"))
    names, fields = set(PARAMETERS), set()
    for path in proofs:
        some, of_records = declared(path)
        names |= some
        fields |= of_records
    turned = {name: respelled(name) for name in names if "-" in name or name in SPECIAL}
    taken = {}
    for name, new in sorted(turned.items()):
        if new in names and new not in turned or new in taken:
            raise SystemExit(f"{name} and {taken.get(new, new)} fall together at {new}")
        taken[new] = name

    def turn(found):
        dot, name = found.group(1), found.group(2)
        if name not in turned or dot and name not in fields:
            return found.group(0)
        return dot + turned[name]

    for path in proofs + sorted(TOP.glob("crates/*/src/**/*.rt")):
        lines = path.read_text().splitlines(keepends=True)
        # strings and comments keep their words; a name behind a dot is turned where it is a field of a record
        new = ["".join(part if re.match(r'"|--|//', part) else re.sub(r"(\.?)(" + TOKEN + r")", turn, part) for part in re.split(r'("[^"]*"|(?<!\S)--.*|//.*)', line)) for line in lines]
        if new != lines:
            path.write_text("".join(new))
    print(len(turned), "names turned")


if __name__ == "__main__":
    main()
