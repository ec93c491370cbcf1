//! Draws a sound call for a kit, by the fields of its operation.

use crate::call::Call;
use crate::field::{number_bytes, Field, Kind, DEPOT, MAKER};
use crate::kit::Kit;
use crate::lists::kits;
use crate::operation::Operation;
use crate::record::{decode, Record};
use crate::rng::Rng;

/// What is the operation's own stays empty.
pub fn by_fields(rng: &mut Rng, op: &'static Operation, kit: &Kit) -> Call {
    let n = kit.sheet.len();
    let mut call = Call::new(op);
    for (field, bytes) in call.fields_mut() {
        match field.kind {
            Kind::Sheet => *bytes = kit.sheet.clone(),
            Kind::List => *bytes = full_list(rng, kit),
            Kind::Boxes => *bytes = number_bytes(n),
            Kind::Number => *bytes = number_bytes(some_number(rng, n)),
            Kind::Room => *bytes = room(rng, field, &kit.sheet),
            Kind::Table | Kind::Own => {}
        }
    }
    if call.has(MAKER) {
        call[MAKER] = kit.records.concat();
        split(rng, &mut call);
    }
    call
}

/// The same bytes as one table, cut at random; whole records where both tables were of whole records. False where the
/// operation has not both tables.
pub fn split(rng: &mut Rng, call: &mut Call) -> bool {
    if !call.has(MAKER) || !call.has(DEPOT) {
        return false;
    }
    let mut table = [call[MAKER].as_slice(), &call[DEPOT]].concat();
    let records = table.len() / 8;
    let makers = match rng.below(5) {
        0 => 0,
        1 => records,
        2 => records / 2,
        _ => rng.between(0, records),
    };
    call[DEPOT] = table.split_off(8 * makers);
    call[MAKER] = table;
    true
}

/// What a buffer holds before it is written to.
fn room(rng: &mut Rng, field: &Field, sheet: &[u8]) -> Vec<u8> {
    let length = field.a_box * sheet.len();
    match rng.below(6) {
        0 => vec![0xee; length],
        1 => vec![2; length],
        2 => sheet.repeat(field.a_box),
        3 => vec![rng.state(); length],
        _ => rng.bytes(length),
    }
}

/// A number that is near something.
fn some_number(rng: &mut Rng, n: usize) -> usize {
    if n > 0 && rng.chance(60) {
        return rng.below(n);
    }
    rng.pick(&[0, 1, 2, n.saturating_sub(1), n, n + 1, 255, 256, 257, 65535, 65536, u32::MAX as usize])
}

/// A full list that may fit or not: one at random, one that is known to fit, one of the kit's own lists, one beside it,
/// or the first or last in order.
fn full_list(rng: &mut Rng, kit: &Kit) -> Vec<u8> {
    let n = kit.sheet.len();
    let mut list = match (rng.below(8), &kit.fitting) {
        (0, _) => vec![0; n],
        (1, _) => vec![1; n],
        (2 | 3, Some(fitting)) => fitting.clone(),
        (4..=6, _) => one_of_its_lists(rng, kit),
        _ => rng.states(n),
    };
    if n > 0 && rng.chance(35) {
        let b = rng.below(n);
        list[b] = 1 - list[b];
    }
    list
}

fn one_of_its_lists(rng: &mut Rng, kit: &Kit) -> Vec<u8> {
    let records: Vec<Record> = kit.records.iter().map(|bytes| decode(bytes)).collect();
    let want = rng.pick(&[1, 2, 5, 64]);
    let mut lists = kits(&records, &kit.sheet, None, want).unwrap_or_default();
    lists.pop().unwrap_or_else(|| rng.states(kit.sheet.len()))
}
