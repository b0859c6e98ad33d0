#!/usr/bin/env python3
"""Tries the planted bugs under planted/CRATE/*.edit on a copy of the repository.

    tools/plant.py [CRATE ..] [--write]

An edit has the form of those under crates/*/must-fail: the lines `file:`, `old:` and `new:`. In the copy the planted
edits stand in the place of the must-fail ones, and `rt must-fail` tries them. Each is to be refused by the prover; one
that is not is printed with what `rt` says of it, and the exit status is then 1. With --write, and all crates, the
results become the table at the end of docs/PLANTED.md. The gate does not run this: it tries the must-fail edits alone.
"""
import argparse
import pathlib
import re
import shutil
import subprocess
import sys
import tempfile

TOP = pathlib.Path(__file__).resolve().parent.parent
PAGE = TOP / "docs" / "PLANTED.md"
TABLE = "| crate | file | instead of | planted | result | first error in |\n|---|---|---|---|---|---|\n"


def read_edit(path):
    fields = dict(line.split(": ", 1) for line in path.read_text().splitlines() if ": " in line)
    return fields["file"], fields["old"], fields["new"]


def copied(scratch, crates):
    """A copy of the repository in which the planted edits of these crates are its only must-fail edits."""
    copy = pathlib.Path(scratch) / "copy"
    shutil.copytree(TOP, copy, ignore=shutil.ignore_patterns(".git", "out", "must-fail"))
    for crate in crates:
        shutil.copytree(TOP / "planted" / crate, copy / "crates" / crate / "must-fail")
    return copy


def answers(copy, crates):
    """What `rt must-fail` says of each edit, by crate and file."""
    log = subprocess.run(["rt", "must-fail", *crates], cwd=copy, capture_output=True, text=True)
    said = {}
    for line in (log.stdout + log.stderr).splitlines():
        found = re.match(r"rt: must-fail (\w+)/(\w+)\.edit: (.*)", line)
        if found:
            said[found.group(1), found.group(2)] = found.group(3)
    return said


def write_table(rows):
    """Puts the results behind the text of the page, in the place of the table that is there."""
    text = PAGE.read_text().split(TABLE)[0]
    lines = ["| {} | `{}` | `{}` | `{}` | {} | `{}` |\n".format(*(cell.replace("|", "\\|") for cell in row)) for row in rows]
    PAGE.write_text(text + TABLE + "".join(lines))


def main():
    parser = argparse.ArgumentParser(description=__doc__, formatter_class=argparse.RawDescriptionHelpFormatter)
    parser.add_argument("crates", nargs="*")
    parser.add_argument("--write", action="store_true")
    args = parser.parse_args()
    planted = TOP / "planted"
    crates = args.crates or sorted(p.name for p in planted.iterdir() if p.is_dir())
    with tempfile.TemporaryDirectory() as scratch:
        said = answers(copied(scratch, crates), crates)
    rows, bad = [], 0
    for crate in crates:
        for path in sorted((planted / crate).glob("*.edit")):
            answer = said.get((crate, path.stem), "no answer")
            refused = answer.startswith("refused")
            found = re.search(r"((?:src|proofs)/\S+?):\d+:\d+: ", answer)
            bad += not refused
            print(f"{crate}/{path.stem}: {answer}")
            name, old, new = read_edit(path)
            result = answer.split(":")[0] if not refused else "refused, for a name" if "only because a proof file names" in answer else "refused"
            rows.append((crate, name, old.strip(), new.strip(), result, found.group(1) if found else ""))
    if args.write:
        write_table(rows)
    print(f"{len(rows)} planted, {len(rows) - bad} refused")
    return 1 if bad else 0


if __name__ == "__main__":
    sys.exit(main())
