//! The twenty rules three times more: Table 1 of source document 000 copied by hand, and twice computed from the truth
//! tables, by 000's Definition 2.1 and by the rule generation algorithm of source document 002.

use crate::record::{boxes_named, rows};
use crate::rules::{rules_of, Part, Rule};
use std::collections::BTreeSet;

/// Table 1, "Proof system BOOL": a rule's name, premises and conclusions, in the table's order.
const TABLE_1: [(&str, &str, &str); 20] = [
    ("EQU 1", "x=1", "y=1"),
    ("EQU 2", "y=1", "x=1"),
    ("EQU 3", "x=0", "y=0"),
    ("EQU 4", "y=0", "x=0"),
    ("NOT 1", "x=1", "y=0"),
    ("NOT 2", "x=0", "y=1"),
    ("NOT 3", "y=1", "x=0"),
    ("NOT 4", "y=0", "x=1"),
    ("AND 1", "x=1, y=1", "z=1"),
    ("AND 2", "x=1, z=0", "y=0"),
    ("AND 3", "y=1, z=0", "x=0"),
    ("AND 4", "x=0", "z=0"),
    ("AND 5", "y=0", "z=0"),
    ("AND 6", "z=1", "x=1, y=1"),
    ("OR 1", "x=1", "z=1"),
    ("OR 2", "x=0, y=0", "z=0"),
    ("OR 3", "x=0, z=1", "y=1"),
    ("OR 4", "y=0, z=1", "x=1"),
    ("OR 5", "y=1", "z=1"),
    ("OR 6", "z=0", "x=0, y=0"),
];

const NAMES: [&str; 4] = ["EQU", "NOT", "AND", "OR"];

/// Reads "x=1, y=1".
fn part(text: &str) -> Part {
    let mut part = [None; 3];
    for equation in text.split(", ") {
        let (variable, value) = equation.split_once('=').expect("an equation");
        let place = "xyz".find(variable).expect("x, y or z");
        part[place] = Some(value.parse().expect("0 or 1"));
    }
    part
}

fn table_1(kind: u8) -> BTreeSet<Rule> {
    let of_kind = |name: &str| name.split(' ').next() == Some(NAMES[kind as usize - 1]);
    let lines = TABLE_1.iter().filter(|(name, ..)| of_kind(name));
    let rule = |premises, conclusions| Rule { premises: part(premises), conclusions: part(conclusions) };
    lines.map(|(_, p, c)| rule(p, c)).collect()
}

/// Every part that gives states to some of a kind's variables, or to none.
fn parts(kind: u8) -> Vec<Part> {
    let mut parts = vec![[None; 3]];
    for place in 0..boxes_named(kind) {
        for part in parts.clone() {
            for state in [0, 1] {
                let mut longer = part;
                longer[place] = Some(state);
                parts.push(longer);
            }
        }
    }
    parts
}

fn size(part: &Part) -> usize {
    part.iter().flatten().count()
}

/// "Z = u extends X = s": it says the same and maybe more.
fn extends(longer: &Part, shorter: &Part) -> bool {
    (0..3).all(|i| shorter[i].is_none() || longer[i] == shorter[i])
}

fn disjoint(a: &Part, b: &Part) -> bool {
    (0..3).all(|i| a[i].is_none() || b[i].is_none())
}

/// d[X] = s, for a tuple d of the constraint.
fn agrees(row: &[u8], part: &Part) -> bool {
    (0..row.len()).all(|i| part[i].is_none() || part[i] == Some(row[i]))
}

fn is_feasible(kind: u8, premises: &Part) -> bool {
    rows(kind).iter().any(|row| agrees(row, premises))
}

fn is_valid(kind: u8, rule: &Rule) -> bool {
    let mut matching = rows(kind).iter().filter(|row| agrees(row, &rule.premises));
    matching.all(|row| agrees(row, &rule.conclusions))
}

/// Definition 2.1 by brute force: of all valid rules those that are feasible and not properly implied by a valid rule.
fn by_definition(kind: u8) -> BTreeSet<Rule> {
    let mut valid = Vec::new();
    for premises in parts(kind) {
        for conclusions in parts(kind) {
            let rule = Rule { premises, conclusions };
            let is_rule = size(&premises) > 0 && size(&conclusions) > 0 && disjoint(&premises, &conclusions);
            if is_rule && is_valid(kind, &rule) {
                valid.push(rule);
            }
        }
    }
    let implied =
        |rule: &Rule, by: &Rule| extends(&rule.premises, &by.premises) && extends(&by.conclusions, &rule.conclusions);
    let properly_implied = |rule: &Rule| valid.iter().any(|by| by != rule && implied(rule, by));
    let minimal = |rule: &&Rule| is_feasible(kind, &rule.premises) && !properly_implied(rule);
    valid.iter().filter(minimal).copied().collect()
}

/// 002's algorithm. Its rules conclude that a variable is not a value, which over two values is that it is the other
/// one; its rules with the same premises are then one rule of 000.
fn by_generation(kind: u8) -> BTreeSet<Rule> {
    let variables = boxes_named(kind);
    let mut found: Vec<Rule> = Vec::new();
    for cardinality in 0..variables {
        let assignments = parts(kind);
        let of_this_size = |s: &&Part| size(s) == cardinality && is_feasible(kind, s);
        for premises in assignments.iter().filter(of_this_size) {
            for y in (0..variables).filter(|&y| premises[y].is_none()) {
                for not in [0, 1] {
                    let mut conclusions = [None; 3];
                    conclusions[y] = Some(1 - not);
                    let rule = Rule { premises: *premises, conclusions };
                    let shorter = |r: &Rule| r.conclusions == conclusions && extends(premises, &r.premises);
                    if is_valid(kind, &rule) && !found.iter().any(shorter) {
                        found.push(rule);
                    }
                }
            }
        }
    }
    let mut joined: Vec<Rule> = Vec::new();
    for rule in found {
        match joined.iter_mut().find(|r| r.premises == rule.premises) {
            Some(same) => {
                for (place, state) in rule.conclusions.iter().enumerate() {
                    same.conclusions[place] = same.conclusions[place].or(*state);
                }
            }
            None => joined.push(rule),
        }
    }
    joined.into_iter().collect()
}

/// Compares the four accounts of the rules; what differs is said in words.
pub fn check() -> Vec<String> {
    let mut wrong = Vec::new();
    for kind in 1..=4 {
        let name = NAMES[kind as usize - 1];
        let table = table_1(kind);
        let others = [
            ("the specification's rules", rules_of(kind).iter().copied().collect()),
            ("Definition 2.1 of 000", by_definition(kind)),
            ("the generation algorithm of 002", by_generation(kind)),
        ];
        for (whose, rules) in others {
            for rule in table.symmetric_difference(&rules) {
                wrong.push(format!("{name}: Table 1 of 000 against {whose}: {rule:?}"));
            }
        }
    }
    wrong
}
