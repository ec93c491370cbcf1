//! Counts what the calls have reached, so that a run that looks at too little says so.

use crate::answer::{Answer, Refusal};
use crate::call::Call;
use crate::field::MAKER;
use crate::form::accept;
use crate::operation::Operation;
use crate::operations::OPERATIONS;
use std::collections::BTreeMap;

/// By the operation's word and what was reached.
#[derive(Default)]
pub struct Coverage(BTreeMap<(&'static str, String), usize>);

/// A run of at least so many calls is a full one.
pub const FULL_RUN: u64 = 20_000;

/// What a full run must have reached: every refusal at every place, and every other answer.
fn required(op: &Operation) -> Vec<&'static str> {
    let form = op.form.iter().flat_map(|form| form.reaches());
    form.chain(op.reaches).copied().collect()
}

impl Coverage {
    pub fn count(&mut self, call: &Call, answer: &Answer) {
        *self.0.entry((call.op.word, label(call, answer))).or_default() += 1;
    }

    /// What was reached that no operation says it can reach and, if the run was a full one, what was not reached.
    pub fn wrong(&self, full: bool) -> Vec<String> {
        let mut wrong = Vec::new();
        for op in OPERATIONS {
            let required = required(op);
            let reached = self.of(op.word).map(|(label, _)| label);
            let unsaid = reached.filter(|label| !required.contains(label));
            wrong.extend(unsaid.map(|label| format!("REACHED, but not said to be: {} {label}", op.word)));
            let missing =
                required.iter().filter(|label| full && self.of(op.word).all(|(reached, _)| reached != **label));
            wrong.extend(missing.map(|label| format!("NOT REACHED {} {label}", op.word)));
        }
        wrong
    }

    /// What the operation's calls have reached, with how often.
    fn of<'a>(&'a self, word: &'a str) -> impl Iterator<Item = (&'a str, usize)> {
        let own = self.0.iter().filter(move |((of, _), _)| *of == word);
        own.map(|((_, label), count)| (label.as_str(), *count))
    }

    pub fn print(&self) {
        let longest = OPERATIONS.iter().map(|op| op.word.len()).max().unwrap_or(0);
        for op in OPERATIONS {
            let counts: Vec<String> = self.of(op.word).map(|(label, count)| format!("[{label}] {count}")).collect();
            println!("  {:longest$} {}", op.word, counts.join(" "));
        }
    }
}

fn label(call: &Call, answer: &Answer) -> String {
    // an operation may say less than why it refuses
    if let Err(refusal) = accept(call) {
        return label_of_refusal(call, &refusal);
    }
    match ((call.op.label)(call, answer), answer) {
        (Some(label), _) => label.to_string(),
        (None, Answer::Said { text, .. }) => text.split(' ').take(1).collect(),
        (None, Answer::Refused(refusal)) => label_of_refusal(call, refusal),
    }
}

/// The number, and the place as far as it matters.
fn label_of_refusal(call: &Call, refusal: &Refusal) -> String {
    let Refusal { number, place, .. } = refusal;
    match (number, place) {
        (1 | 7, _) => format!("{number}"),
        (2 | 5, _) | (_, 0) => format!("{number}.{place}"),
        (3, _) => whose(call, *place, ["3, maker's", "3, depot's"]).to_string(),
        _ => format!("{number}, later"),
    }
}

/// The first of two words for a record of the maker's, the second for one of the depot's.
pub fn whose(call: &Call, record: usize, words: [&'static str; 2]) -> &'static str {
    words[(8 * record >= call[MAKER].len()) as usize]
}
