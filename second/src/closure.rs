//! Sets of facts, and the closure of one under the rules of the records.

use crate::record::Record;
use crate::rules::{rules_of, Part, Rule};

/// A set of facts: for each box whether "out" is in it and whether "in" is.
#[derive(Clone, PartialEq, Eq, Debug)]
pub struct Facts(pub Vec<[bool; 2]>);

impl Facts {
    /// The facts of a sheet are its settled boxes.
    pub fn of_sheet(sheet: &[u8]) -> Facts {
        Facts(sheet.iter().map(|&byte| [byte == 0, byte == 1]).collect())
    }

    /// The boxes' states coded 0 out, 1 in, 2 open, 3 both. Without a clash this is a sheet.
    pub fn codes(&self) -> Vec<u8> {
        let code = |facts: &[bool; 2]| match facts {
            [true, false] => 0,
            [false, true] => 1,
            [false, false] => 2,
            [true, true] => 3,
        };
        self.0.iter().map(code).collect()
    }

    pub fn of_codes(codes: &[u8]) -> Facts {
        let facts = |code: &u8| [*code == 0 || *code == 3, *code == 1 || *code == 3];
        Facts(codes.iter().map(facts).collect())
    }

    pub fn clash(&self) -> bool {
        self.0.iter().any(|facts| facts[0] && facts[1])
    }

    fn hold(&self, record: &Record, part: &Part) -> bool {
        let holds = |(i, state): (usize, &Option<u8>)| match state {
            Some(state) => self.0[record.places[i]][*state as usize],
            None => true,
        };
        part.iter().enumerate().all(holds)
    }

    /// Whether any of them is new.
    fn add(&mut self, record: &Record, part: &Part) -> bool {
        let mut new = false;
        for (i, state) in part.iter().enumerate() {
            if let Some(state) = state {
                let fact = &mut self.0[record.places[i]][*state as usize];
                new |= !*fact;
                *fact = true;
            }
        }
        new
    }

    /// Every rule of every record once, in the records' order. Whether any fact is new.
    pub fn pass(&mut self, records: &[Record], rules: fn(u8) -> &'static [Rule]) -> bool {
        let mut new = false;
        for record in records {
            for rule in rules(record.kind) {
                // a rule fires even where the opposite fact is there too
                if self.hold(record, &rule.premises) {
                    new |= self.add(record, &rule.conclusions);
                }
            }
        }
        new
    }
}

/// The least set that holds the facts and is closed under the rules: passes until one gives nothing new.
pub fn closure(records: &[Record], mut facts: Facts) -> Facts {
    while facts.pass(records, rules_of) {}
    facts
}

/// The one-rule table: the closure of three boxes' facts under one kind's rules.
pub fn one_rule_table() -> Vec<u8> {
    let mut entries = Vec::new();
    for kind in 1..=4 {
        let record = Record { kind, byte_1: 0, places: [0, 1, 2] };
        for states in 0..64u8 {
            let facts = Facts::of_codes(&[states / 16, states / 4 % 4, states % 4]);
            let codes = closure(&[record], facts).codes();
            entries.push(16 * codes[0] + 4 * codes[1] + codes[2]);
        }
    }
    entries
}
