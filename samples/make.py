#!/usr/bin/env python3
"""make.py KIT.json DIR: writes maker.tab, depot.tab and order.sht into DIR, from boxes and rules by name.

Without arguments it makes the sample anew, from samples/cab/kit.json. KIT.json is one object:

    {"boxes": ["A", "B", "helper"],
     "maker": [["AND", "A", "B", "helper"]],
     "depot": [["EQU", "A", "helper"]],
     "order": {"A": 1}}

A box has the number of its place in "boxes", from 0. A rule is its kind and its boxes x, y and, for AND and OR, z. A box that
"order" does not name is open. A slip in a name would make another kit, and nobody would see it; so it is an error, and so is
what the listing program would refuse in form. An error is one line on standard error and status 1, and nothing is written.
"""
import json
import os
import sys
import tempfile
from difflib import SequenceMatcher

KINDS = {"EQU": (1, 2), "NOT": (2, 2), "AND": (3, 3), "OR": (4, 3)}  # its number, and how many boxes it names
PARTS = {"boxes": list, "maker": list, "depot": list, "order": dict}
NONE = 65535
OPEN = 2


class Slip(Exception):
    """What is wrong with the kit, in words."""


def nearest(name, names):
    def likeness(other):
        return SequenceMatcher(None, str(name).lower(), other.lower()).ratio()

    return f"; the nearest is {max(names, key=likeness)!r}" if names else ""


def once(pairs):
    """An object of JSON, in which Python would let the last of two equal names win."""
    found = {}
    for name, value in pairs:
        if name in found:
            raise Slip(f"{name!r} stands twice in one object")
        found[name] = value
    return found


def parts(kit):
    if not isinstance(kit, dict):
        raise Slip("a kit is an object with boxes, maker, depot and order")
    for name in kit:
        if name not in PARTS:
            raise Slip(f"{name!r} is no part of a kit{nearest(name, PARTS)}")
    for name, form in PARTS.items():
        if not isinstance(kit.get(name), form):
            raise Slip(f"{name!r} is missing, or is not {'a list' if form is list else 'an object'}")
    return [kit[name] for name in PARTS]


def numbers(boxes):
    number = {}
    for b, name in enumerate(boxes):
        if not isinstance(name, str) or not name:
            raise Slip(f"box {b} has no name: {name!r}")
        if name in number:
            raise Slip(f"box {b} has the name of box {number[name]}, {name!r}")
        number[name] = b
    if len(boxes) > 256:
        raise Slip(f"there are {len(boxes)} boxes, and 256 are allowed")
    return number


def box(number, name, where):
    if not isinstance(name, str) or name not in number:
        raise Slip(f"{where}: {name!r} is no box{nearest(name, number)}")
    return number[name]


def record(number, rule, where):
    if not isinstance(rule, list) or not rule:
        raise Slip(f"{where} is not a list of a kind and its boxes: {rule!r}")
    kind, *names = rule
    if not isinstance(kind, str) or kind not in KINDS:
        raise Slip(f"{where}: {kind!r} is no kind{nearest(kind, KINDS)}")
    code, count = KINDS[kind]
    if len(names) != count:
        raise Slip(f"{where}: {kind} takes {count} boxes, and here are {len(names)}")
    boxes = [box(number, name, where) for name in names]
    if len(set(boxes)) < count:
        raise Slip(f"{where}: the boxes of a rule differ, and here one stands twice")
    return bytes([code, 0]) + b"".join(b.to_bytes(2, "little") for b in (boxes + [NONE])[:3])


def sheet(number, order):
    states = bytearray([OPEN] * len(number))
    for name, state in order.items():
        b = box(number, name, "order")
        if type(state) is not int or state not in (0, 1, 2):  # true and 1.0 are equal to 1
            raise Slip(f"order: {name!r} is 0 out, 1 in or 2 open, and not {json.dumps(state)}")
        states[b] = state
    return bytes(states)


def files(kit):
    boxes, maker, depot, order = parts(kit)
    number = numbers(boxes)
    if len(maker) + len(depot) > 1024:
        raise Slip(f"there are {len(maker) + len(depot)} rules, and 1,024 are allowed")

    def table(name, rules):
        return b"".join(record(number, rule, f"{name}, rule {r}") for r, rule in enumerate(rules))

    return {"maker.tab": table("maker", maker), "depot.tab": table("depot", depot), "order.sht": sheet(number, order)}


def read(path):
    try:
        with open(path, encoding="utf-8-sig") as file:
            return json.load(file, object_pairs_hook=once)
    except OSError as why:
        raise Slip(f"cannot be read: {why.strerror}") from None
    except json.JSONDecodeError as why:
        raise Slip(f"is not JSON: line {why.lineno}, column {why.colno}: {why.msg}") from None
    except (ValueError, RecursionError) as why:  # bytes that are no UTF-8, a number too long, lists too deep
        raise Slip(f"is not JSON: {why}") from None


def write(folder, contents):
    """All three are written beside their places before the first takes its place, so a full disk leaves the old ones."""
    for name in contents:
        if os.path.isdir(os.path.join(folder, name)):
            raise Slip(f"cannot be written into {folder!r}: {name} is a folder there")
    try:
        with tempfile.TemporaryDirectory(prefix=".make-", dir=folder) as beside:
            for name, content in contents.items():
                with open(os.path.join(beside, name), "wb") as file:
                    file.write(content)
            for name in contents:
                os.replace(os.path.join(beside, name), os.path.join(folder, name))
    except OSError as why:
        raise Slip(f"cannot be written into {folder!r}: {why.strerror}") from None


def main(arguments):
    if len(arguments) not in (0, 2):
        sys.exit("usage: make.py [KIT.json DIR]")
    cab = os.path.join(os.path.dirname(os.path.realpath(__file__)), "cab")
    path, folder = arguments or (os.path.join(cab, "kit.json"), cab)
    try:
        write(folder, files(read(path)))
    except Slip as slip:
        sys.exit(f"{path!r}: {slip}")


if __name__ == "__main__":
    main(sys.argv[1:])
