//! `show MAKER DEPOT LIST`: the bytes of the record that Test gives. It says no refusal; it then shows nothing.

use super::test;
use crate::answer::{said, Answer};
use crate::call::{hex, Call};
use crate::field::{DEPOT, LIST, MAKER};
use crate::form::accept;
use crate::operation::Operation;
use crate::record::{first_broken, Record};

pub static SHOW: Operation = Operation {
    refuse: |_| part(&[]),
    reaches: test::REACHES,
    label: test::label,
    bugs: &[
        ("Show shows a record of the maker's where none is broken", |call| {
            let fits = first_broken(&accept(call).ok()?, &call[LIST]).is_none();
            (fits && !call[MAKER].is_empty()).then(|| part(&call[MAKER][..8]).line(call))
        }),
        ("Show counts the depot's records from the start of the maker's bytes", |call| {
            let from = 8 * first_broken(&accept(call).ok()?, &call[LIST])?;
            let bytes = call[DEPOT].get(from..from + 8).unwrap_or_default();
            (from >= call[MAKER].len()).then(|| part(bytes).line(call))
        }),
    ],
    ..Operation::new("show", &[MAKER, DEPOT, LIST], test::FORM, show)
};

fn part(bytes: &[u8]) -> Answer {
    said(format!("part {}", hex(bytes)), [])
}

fn show(call: &Call, records: &[Record]) -> Option<Answer> {
    let Some(record) = first_broken(records, &call[LIST]) else { return Some(part(&[])) };
    let (from, makers) = (8 * record, call[MAKER].len());
    let (table, at) = if from < makers { (&call[MAKER], from) } else { (&call[DEPOT], from - makers) };
    Some(part(&table[at..at + 8]))
}
