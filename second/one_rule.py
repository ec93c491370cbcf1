#!/usr/bin/env python3
"""The one-rule table, computed a second time from the words of the build specification.

Prints the 256 entries in order, one decimal number a line. It shares nothing with the library: a fact is a pair
(place, state), a set of facts is a Python set, and the closure fires rules one at a time until none adds a fact.

The twenty rules stand below as the specification's section of that name says them. Before anything is printed they are
compared with the rules that the four truth tables give, all minimal valid rules by Definition 2.1 of source document
000, and the entries that the specification lists as sample P11 are looked up.
"""
from itertools import combinations, product

OUT, IN = 0, 1

KINDS = ("EQU", "NOT", "AND", "OR")  # kinds 1 to 4

# The twenty rules: premises, then conclusions.
RULES = {
    "EQU": [
        # either box settled gives the other the same state
        ({"x": OUT}, {"y": OUT}),
        ({"x": IN}, {"y": IN}),
        ({"y": OUT}, {"x": OUT}),
        ({"y": IN}, {"x": IN}),
    ],
    "NOT": [
        # either box settled gives the other the opposite state
        ({"x": OUT}, {"y": IN}),
        ({"x": IN}, {"y": OUT}),
        ({"y": OUT}, {"x": IN}),
        ({"y": IN}, {"x": OUT}),
    ],
    "AND": [
        ({"x": OUT}, {"z": OUT}),
        ({"y": OUT}, {"z": OUT}),
        ({"z": IN}, {"x": IN, "y": IN}),
        ({"x": IN, "y": IN}, {"z": IN}),
        ({"x": IN, "z": OUT}, {"y": OUT}),
        ({"y": IN, "z": OUT}, {"x": OUT}),
    ],
    "OR": [
        ({"x": IN}, {"z": IN}),
        ({"y": IN}, {"z": IN}),
        ({"z": OUT}, {"x": OUT, "y": OUT}),
        ({"x": OUT, "y": OUT}, {"z": OUT}),
        ({"x": OUT, "z": IN}, {"y": IN}),
        ({"y": OUT, "z": IN}, {"x": IN}),
    ],
}

# What a kind means, as the column "Meaning" of its table has it.
MEANING = {
    "EQU": ("xy", lambda x, y: x == y),
    "NOT": ("xy", lambda x, y: (1 - x) == y),
    "AND": ("xyz", lambda x, y, z: min(x, y) == z),
    "OR": ("xyz", lambda x, y, z: max(x, y) == z),
}

# P11: these entries hold these numbers.
P11 = {150: 21, 168: 40, 201: 5, 6: 62, 137: 63, 106: 42}


def facts_of(states):
    """The facts that three codes stand for: 0 out, 1 in, 2 open, 3 both."""
    meant = {0: (OUT,), 1: (IN,), 2: (), 3: (OUT, IN)}
    return {(place, state) for place, code in states.items() for state in meant[code]}


def code_of(facts, place):
    """The code of a place by its facts."""
    held = ((place, OUT) in facts, (place, IN) in facts)
    return {(True, False): 0, (False, True): 1, (False, False): 2, (True, True): 3}[held]


def closure(facts, rules):
    """The least set that holds the facts and is closed under the rules."""
    closed = set(facts)
    while True:
        for premises, conclusions in rules:
            if set(premises.items()) <= closed and not set(conclusions.items()) <= closed:
                closed |= set(conclusions.items())
                break
        else:
            return closed


def entry(kind, a, b, c):
    closed = closure(facts_of({"x": a, "y": b, "z": c}), RULES[kind])
    return 16 * code_of(closed, "x") + 4 * code_of(closed, "y") + code_of(closed, "z")


def table():
    entries = {}
    for number, kind in enumerate(KINDS, start=1):
        for a, b, c in product(range(4), repeat=3):
            entries[64 * (number - 1) + 16 * a + 4 * b + c] = entry(kind, a, b, c)
    return [entries[k] for k in range(256)]


def assignments(places):
    """Every way to give some of the places, at least one, a state each."""
    for size in range(1, len(places) + 1):
        for chosen in combinations(places, size):
            for states in product((OUT, IN), repeat=size):
                yield dict(zip(chosen, states))


def minimal_valid_rules(places, meaning):
    """Definition 2.1 of 000: the valid rules that are feasible and not properly implied by another valid rule."""
    rows = [dict(zip(places, row)) for row in product((OUT, IN), repeat=len(places)) if meaning(*row)]

    def agrees(row, part):
        return part.items() <= row.items()

    valid = [
        (premises, conclusions)
        for premises in assignments(places)
        for conclusions in assignments(places)
        if not premises.keys() & conclusions.keys()
        and all(agrees(row, conclusions) for row in rows if agrees(row, premises))
    ]

    def implies(rule, other):
        return rule[0].items() <= other[0].items() and other[1].items() <= rule[1].items()

    return [
        rule
        for rule in valid
        if any(agrees(row, rule[0]) for row in rows)
        and not any(other != rule and implies(other, rule) for other in valid)
    ]


def as_set(rules):
    return {(frozenset(premises.items()), frozenset(conclusions.items())) for premises, conclusions in rules}


def demand(holds, what):
    if not holds:
        raise SystemExit(f"one_rule: {what}")


def main():
    for kind in KINDS:
        demand(as_set(RULES[kind]) == as_set(minimal_valid_rules(*MEANING[kind])), f"the rules of {kind} are not its table's")
    demand(sum(len(RULES[kind]) for kind in KINDS) == 20, "the rules are not twenty")
    entries = table()
    for k, held in P11.items():
        demand(entries[k] == held, f"entry {k} is not P11's")
    for k in range(128):  # kinds 1 and 2
        demand(entries[k] % 4 == k % 4, f"entry {k} does not keep z")
    for held in entries:
        print(held)


if __name__ == "__main__":
    main()
