#!/usr/bin/env python3
"""Calls of every operation at the limits, and what the probe has to answer to them, worked out by desk.py.

`limits.py calls` prints the calls, each below a line that names it; `limits.py answers` prints a line for each call.
"""
import sys
from itertools import product

sys.dont_write_bytecode = True
from desk import AND, EQU, IN, NOT, OPEN, OR, OUT, Refused, broken, check_bytes, check_tables, fill, record  # noqa: E402

# each: the case's name, the call's line, the answer's
cases = []


def line(word, *fields):
    return " ".join([word, *(bytes(field).hex() or "." for field in fields)])


def fill_line(name, maker, depot, sheet, size=None):
    out = [9] * (len(sheet) if size is None else size)
    try:
        count, left = fill(maker, depot, sheet, len(out))
        answer = f"filled {count}"
    except Refused as why:
        answer, left = str(why), out  # a refusal writes nothing
    cases.append((name, line("fill", maker, depot, sheet, out), line(answer, left)))


def test_line(name, maker, depot, listed):
    """Test, and what Show gives beside it."""
    part = b""
    try:
        rows = check_tables(maker, depot, len(listed))
        check_bytes(6, listed, 1)
        numbers = broken(rows, listed)
        answer = f"broken {numbers[0]}" if numbers else "fits"
        if numbers:
            part = (maker + depot)[8 * numbers[0]:8 * numbers[0] + 8]
    except Refused as why:
        answer = str(why)
    cases.append((name, line("test", maker, depot, listed), answer))
    cases.append((name, line("show", maker, depot, listed), line("part", part)))


def form():
    for n in (0, 256, 257):
        fill_line(f"{n} boxes", b"", b"", [OPEN] * n)
    # record 1,023 alone joins boxes 1 and 2
    table = record(EQU, 0, 1) * 1023 + record(EQU, 1, 2) + record(EQU, 0, 1)
    for count in (1024, 1025):
        for makers in (512, count, 0):
            name = f"{makers} records in the maker's table and {count - makers} in the depot's"
            fill_line(name, table[:8 * makers], table[8 * makers:8 * count], [IN, OPEN, OPEN])
    full = record(EQU, 0, 1) * 1025
    seven, three = full[:7], [OPEN] * 3
    fill_line("7 bytes in the maker's table", seven, b"", three)
    fill_line("7 bytes in the depot's table", b"", seven, three)
    fill_line("7 bytes in each table", seven, seven, three)
    fill_line("7 bytes in each table, 257 boxes", seven, seven, [OPEN] * 257)
    fill_line("1025 records in the maker's table and 7 bytes in the depot's", full, seven, three)
    for n in (4, 255, 256):
        for place, letter in enumerate("xyz"):
            for box in (n - 1, n):
                boxes = [0, 1, 2]
                boxes[place] = box
                fill_line(f"{n} boxes, box {box} as {letter}", record(AND, 0, 1, 2), record(AND, *boxes), [OPEN] * n)


def small():
    for row in (
        record(0, 0, 1),
        record(5, 0, 1, 2),
        record(EQU, 0, 1, one=1),
        record(EQU, 0, 1),
        record(EQU, 0, 1, 2),
        record(NOT, 0, 1),
        record(NOT, 0, 1, 2),
        record(AND, 0, 1),
        record(OR, 0, 1),
        record(NOT, 0, 0),
        record(AND, 1, 1, 2),
        record(AND, 1, 0, 1),
        record(OR, 0, 1, 1),
    ):
        fill_line("record " + " ".join(map(str, row)), row, b"", [OPEN] * 3)
    fill_line("a record and no boxes", record(EQU, 0, 1), b"", [])
    fill_line("sheet byte 2 is 3", b"", b"", [2, 0, 3])
    fill_line("out buffer one short", b"", b"", [2, 2, 2], size=2)
    fill_line("out buffer one longer", b"", b"", [2, 2, 2], size=4)
    fill_line("both", b"", b"", [2, 0, 3], size=2)
    # table A, byte by byte as the specification prints it
    maker, depot = bytes.fromhex("0300000001000200"), bytes.fromhex("010000000200FFFF")
    fill_line("A 122, the maker's alone", maker, b"", [1, 2, 2])
    fill_line("A 122, the depot's alone", b"", depot, [1, 2, 2])
    for number, sheet in enumerate(([1, 2, 2], [2, 0, 2], [2, 2, 2], [1, 0, 2]), start=1):
        fill_line(f"P{number}, A {''.join(map(str, sheet))}", maker, depot, sheet)
    contrary = record(EQU, 0, 1) + record(NOT, 0, 1)
    fill_line("P10", contrary, b"", [2, 2])
    fill_line("P10 with box 0 in", contrary, b"", [1, 2])
    for listed in [*product((OUT, IN), repeat=3), (1, 2, 0)]:
        test_line(f"Test A {''.join(map(str, listed))}", maker, depot, listed)
    for n in (256, 257):
        test_line(f"Test of {n} boxes", b"", b"", [OUT] * n)


def chain(kind, last):
    """Each of the boxes 0 to `last` joined to the next, the last two first."""
    return b"".join(record(kind, box - 1, box) for box in range(last, 0, -1))


def settled(n, box, state):
    sheet = [OPEN] * n
    sheet[box] = state
    return sheet


def chains():
    for name, kind, makers, box, state in (
        ("255 EQU, box 0 in", EQU, 255, 0, IN),
        ("255 EQU, box 0 out", EQU, 255, 0, OUT),
        ("255 EQU, box 255 in", EQU, 255, 255, IN),
        ("100 EQU in the maker's table, 155 in the depot's, box 0 in", EQU, 100, 0, IN),
        ("255 NOT, box 0 in", NOT, 255, 0, IN),
    ):
        table = chain(kind, 255)
        fill_line(name, table[:8 * makers], table[8 * makers:], settled(256, box, state))
    for last, words, state in (
        (7, "box 0 in", IN),
        (7, "none settled", OPEN),
        (255, "box 0 in", IN),
        (255, "none settled", OPEN),
    ):
        table = chain(EQU, last) + record(NOT, 0, last)
        fill_line(f"{last} EQU and a NOT of the ends, {words}", table, b"", settled(last + 1, 0, state))


def list_lines(name, maker, depot, sheet, lists, most):
    """First, and Next after each list handed out: these lists in their order, and then none, or no more than `most` calls."""
    out = [9] * len(sheet)
    answers = [line("list", each) for each in lists] + [line("refused 9 0", out)]
    calls = [line("first", maker, depot, sheet, out)] + [line("next", maker, depot, sheet, each, out) for each in lists]
    for number, (call, answer) in enumerate(zip(calls[:most], answers)):
        cases.append((f"{name}, list {number}", call, answer))


def counting(n, most):
    """The first lists of n free boxes: the numbers from 0 on, box 0 on top."""
    return [[number >> (n - 1 - box) & 1 for box in range(n)] for number in range(min(most, 2 ** n))]


def lists():
    list_lines("10 free boxes", b"", b"", [OPEN] * 10, counting(10, 2000), 2000)
    # as deep as the search goes
    list_lines("256 free boxes", b"", b"", [OPEN] * 256, counting(256, 65), 65)
    maker, depot = record(AND, 0, 1, 2), record(EQU, 0, 2)
    kits = [each for each in product((OUT, IN), repeat=3) if not broken(check_tables(maker, depot, 3), each)]
    list_lines("P5, A", maker, depot, [OPEN] * 3, kits, 9)


if __name__ == "__main__":
    form()
    small()
    chains()
    lists()
    if sys.argv[1:] == ["calls"]:
        for name, call, _ in cases:
            print(f"# {name}\n{call}")
    elif sys.argv[1:] == ["answers"]:
        for _, _, answer in cases:
            print(answer)
    else:
        sys.exit("limits.py calls, or limits.py answers")
