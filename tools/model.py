#!/usr/bin/env python3
"""A second reading of docs/FORMATS.md, slow and simple, to compare `findings` with.

    tools/model.py FOLDER...          prints the list of each folder
    tools/model.py --check FOLDER...  compares it with the folder's file `expected`

Hits are found by going through all tuples and looking for a part map by
backtracking, straight from its definition: no cells, no sieve, no bookmark.
"""
import itertools
import os
import sys

SHEETS = ["pattern.parts", "pattern.joins", "board.parts", "board.joins", "board.rails"]
NAMES = [b"kind value", b"net part", b"kind value", b"net part", b"net"]


class Fault(Exception):
    """(file, number, line, place)"""


def numeral(field):
    """1 to 9 digits without a needless leading zero, or None."""
    if not 1 <= len(field) <= 9 or any(not 48 <= c <= 57 for c in field):
        return None
    if len(field) > 1 and field[0] == 48:
        return None
    return int(field)


def at_most(limit, number):
    return number if number is not None and number <= limit else None


def scaled(field):
    for letter, factor in ((b"k", 1000), (b"M", 1000000)):
        if field[-1:] == letter:
            number = numeral(field[:-1])
            return None if number is None else number * factor
    return numeral(field)


def part_row(fields, rows):
    kind, value = fields
    number = at_most(65535, numeral(value)) if kind == b"X" else scaled(value)
    wrong = []
    if number is None:
        wrong.append((44, len(kind) + 1))
    if kind not in (b"R", b"C", b"X"):
        wrong.append((45, 0))
    if len(rows) >= 4096:
        wrong.append((47, 0))
    return (kind, number), wrong


def join_row(fields, rows):
    net, part = (at_most(4095, numeral(f)) for f in fields)
    wrong = []
    if net is None:
        wrong.append((44, 0))
    if part is None:
        wrong.append((44, len(fields[0]) + 1))
    if net is not None and rows and net < rows[-1][0]:
        wrong.append((46, 0))
    if len(rows) >= 16384:
        wrong.append((47, 0))
    return (net, part), wrong


def rail_row(fields, rows):
    net = at_most(4095, numeral(fields[0]))
    wrong = []
    if net is None:
        wrong.append((44, 0))
    if net is not None and rows and net < rows[-1]:
        wrong.append((46, 0))
    if len(rows) >= 4096:
        wrong.append((47, 0))
    return net, wrong


def load(file, sheet):
    """The rows of a sheet; file counts from 1."""
    if len(sheet) > 65536:
        raise Fault((file, 41, 0, 0))
    pieces = sheet.split(b"\n")
    lines = [(text, True) for text in pieces[:-1]] + [(text, False) for text in pieces[-1:] if text]
    if not lines or lines[0] != (NAMES[file - 1], True):
        raise Fault((file, 42, 1, 0))
    row_of = {1: part_row, 2: join_row, 3: part_row, 4: join_row, 5: rail_row}[file]
    rows = []
    for line, (text, ended) in enumerate(lines[1:], start=2):
        fields = text.split(b" ")
        if not ended or len(fields) != (1 if file == 5 else 2):
            raise Fault((file, 43, line, 0))
        row, wrong = row_of(fields, rows)
        if wrong:
            number, place = min(wrong)
            raise Fault((file, number, line, place))
        rows.append(row)
    return rows


def nets_of(joins):
    nets = [[] for _ in range(joins[-1][0] + 1 if joins else 0)]
    for net, part in joins:
        nets[net].append(part)
    return nets


def stray(parts, nets):
    """The first join that is no part, or not above the one before it in its net."""
    place = 0
    for net in nets:
        for k, part in enumerate(net):
            if part >= parts or (k > 0 and net[k - 1] >= part):
                return place
            place += 1
    return None


def prepare(sheets):
    pattern, pattern_joins, board, board_joins, rails = (load(i + 1, s) for i, s in enumerate(sheets))
    if len(pattern) > 64:
        raise Fault((2, 21, 0, 0))
    pattern_nets, board_nets = nets_of(pattern_joins), nets_of(board_joins)
    if not 1 <= len(pattern_nets) <= 16:
        raise Fault((2, 1, 0, 0))
    if not pattern:
        raise Fault((2, 2, 0, 0))
    for i, net in enumerate(pattern_nets):
        if not net:
            raise Fault((2, 3, 0, i))
    place = stray(len(pattern), pattern_nets)
    if place is not None:
        raise Fault((2, 4, 0, place))
    for part in range(len(pattern)):
        if not any(part in net for net in pattern_nets):
            raise Fault((2, 5, 0, part))
    place = stray(len(board), board_nets)
    if place is not None:
        raise Fault((4, 13, 0, place))
    for net in rails:
        if net >= len(board_nets):
            raise Fault((5, 38, 0, net))
    shown = [[] if f in rails else net for f, net in enumerate(board_nets)]
    return pattern, pattern_nets, board, shown


def is_hit(pattern, pattern_nets, board, board_nets, nets):
    if len(set(nets)) != len(nets):
        return False
    image, used = [None] * len(pattern), set()

    def onto():
        return all(sorted(image[u] for u in pattern_nets[i]) == board_nets[f] for i, f in enumerate(nets))

    def place(u):
        if u == len(pattern):
            return onto()
        for v in range(len(board)):
            if v in used or pattern[u] != board[v]:
                continue
            if any((u in pattern_nets[i]) != (v in board_nets[f]) for i, f in enumerate(nets)):
                continue
            used.add(v)
            image[u] = v
            if place(u + 1):
                return True
            used.remove(v)
        return False

    return place(0)


def listing(sheets):
    """The list of five sheets, as text."""
    try:
        pattern, pattern_nets, board, board_nets = prepare(sheets)
    except Fault as fault:
        return "fault %d %d %d %d\n" % fault.args[0]
    m = len(pattern_nets)
    lines = [" ".join("n%d" % i for i in range(m))]
    for nets in itertools.product(range(len(board_nets)), repeat=m):
        if is_hit(pattern, pattern_nets, board, board_nets, nets):
            lines.append(" ".join(map(str, nets)))
    return "\n".join(lines + ["end"]) + "\n"


def read(folder):
    sheets = []
    for name in SHEETS:
        path = os.path.join(folder, name)
        sheets.append(open(path, "rb").read() if os.path.exists(path) else b"")
    return sheets


def main(words):
    check = words[:1] == ["--check"]
    bad = 0
    for folder in words[1:] if check else words:
        text = listing(read(folder))
        if not check:
            print(text, end="")
        elif text != open(os.path.join(folder, "expected")).read():
            print("%s: the list is not as expected" % folder)
            bad += 1
    return 1 if bad else 0


if __name__ == "__main__":
    sys.exit(main(sys.argv[1:]))
