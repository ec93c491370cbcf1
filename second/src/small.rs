//! All of the smallest calls, so that nothing about one record is left to chance.

use crate::call::Call;
use crate::field::{number_bytes, Field, Kind, DEPOT, LIST, MAKER};
use crate::lists::Lists;
use crate::operation::Operation;
use crate::operations::{OPERATIONS, TEST};
use crate::record::{boxes_named, decode, encode, Bytes, NO_BOX};
use crate::stream::Item;

/// Every call with at most three boxes and at most one sound record, and every way to fill a record's fields with
/// numbers that matter.
pub fn items() -> Vec<Item> {
    let mut calls = Vec::new();
    for n in 0..=3 {
        let tables = std::iter::once(Vec::new()).chain(sound_records(n).into_iter().map(|bytes| bytes.to_vec()));
        for (i, table) in tables.enumerate() {
            let whose = if i % 2 == 0 { MAKER } else { DEPOT };
            calls.extend(OPERATIONS.iter().flat_map(|op| all_buffers(op, whose, &table, n)));
        }
    }
    for bytes in records_of_numbers_that_matter() {
        let mut call = Call::new(&TEST);
        call[MAKER] = bytes.to_vec();
        call[LIST] = vec![0; 3];
        calls.push(call);
    }
    calls.iter().filter_map(Item::of_call).collect()
}

/// Sheets of this length, all of them.
fn sheets(n: usize) -> Vec<Vec<u8>> {
    let mut sheets = vec![Vec::new()];
    for _ in 0..n {
        let longer = |sheet: &Vec<u8>| [0, 1, 2].map(|byte| [sheet.as_slice(), &[byte]].concat());
        sheets = sheets.iter().flat_map(longer).collect();
    }
    sheets
}

fn records_over(kinds: &[u8], numbers: &[usize]) -> Vec<Bytes> {
    let mut records = Vec::new();
    for &kind in kinds {
        for &x in numbers {
            for &y in numbers {
                for &z in numbers {
                    records.push(encode(kind, &[x, y, z]));
                }
            }
        }
    }
    records
}

fn sound_records(n: usize) -> Vec<Bytes> {
    let numbers: Vec<usize> = (0..n).chain([NO_BOX]).collect();
    let mut records = records_over(&[1, 2, 3, 4], &numbers);
    records.retain(|bytes| !decode(bytes).is_bad(n));
    // each of them in every order of its boxes: n (n - 1) with two, n (n - 1) (n - 2) with three
    let orders = |count: usize| (0..count).map(|taken| n.saturating_sub(taken)).product::<usize>();
    let due: usize = (1..=4).map(|kind| orders(boxes_named(kind))).sum();
    assert_eq!(records.len(), due, "the sound records are not as many as they must be");
    records
}

/// For three boxes.
fn records_of_numbers_that_matter() -> Vec<Bytes> {
    let mut records = records_over(&[0, 1, 2, 3, 4, 5], &[0, 1, 2, 3, 256, NO_BOX]);
    for mut bytes in records.clone() {
        bytes[1] = 1;
        records.push(bytes);
    }
    records
}

/// Every call of the operation with this table as the maker's or the depot's.
fn all_buffers(op: &'static Operation, whose: Field, table: &[u8], n: usize) -> Vec<Call> {
    if op.place_of(whose).is_none() && !table.is_empty() {
        return Vec::new();
    }
    let mut calls = vec![Call::new(op)];
    for field in op.fields {
        let all = match field.kind {
            Kind::Table if field.name == whose.name => vec![table.to_vec()],
            Kind::Sheet => sheets(n),
            Kind::List => Lists::keeping(&vec![2; n]).collect(),
            Kind::Boxes => vec![number_bytes(n)],
            Kind::Room => vec![vec![0xee; n * field.a_box]],
            Kind::Table | Kind::Number | Kind::Own => continue,
        };
        let with_each = |call: Call| all.iter().map(move |bytes| with(&call, *field, bytes));
        calls = calls.into_iter().flat_map(with_each).collect();
    }
    calls.into_iter().flat_map(op.small).collect()
}

fn with(call: &Call, field: Field, bytes: &[u8]) -> Call {
    let mut call = call.clone();
    call[field] = bytes.to_vec();
    call
}
