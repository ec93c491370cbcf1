//! Makes a call that differs smaller while it still differs: fewer records, boxes and bytes, then plainer ones.

use crate::call::Call;
use crate::field::{number, number_bytes, Field, Kind, DEPOT, MAKER};
use crate::record::NO_BOX;
use std::ops::Range;

/// The smallest call found for which `first_differing` still finds a difference. It is given candidates and tells the
/// number of the first that differs.
pub fn call(start: Call, mut first_differing: impl FnMut(&[Call]) -> Option<usize>) -> Call {
    let mut best = start;
    let measure = |(field, bytes): (&Field, &Vec<u8>)| if field.is_number() { number(bytes) } else { bytes.len() };
    let mut size = best.fields().map(measure).max().unwrap_or(0).next_power_of_two();
    // some at a time: to find out what is due to all of them takes long where there are many boxes
    let mut first = |candidates: Vec<Call>| {
        candidates.chunks(AT_ONCE).find_map(|some| first_differing(some).map(|i| some[i].clone()))
    };
    while size > 0 {
        match first((best.op.smaller)(&best, size)) {
            Some(fewer) => best = fewer,
            None => size /= 2,
        }
    }
    while let Some(plain) = first((best.op.plainer)(&best)) {
        best = plain;
    }
    best
}

const AT_ONCE: usize = 64;

/// The call without some pieces, boxes or last bytes, that many at a time.
pub fn smaller_by_fields(call: &Call, size: usize) -> Vec<Call> {
    let mut candidates = Vec::new();
    let mut without = |taken: &dyn Fn(&mut Call)| {
        let mut fewer = call.clone();
        taken(&mut fewer);
        candidates.push(fewer);
    };
    for (field, bytes) in call.fields().filter(|(field, _)| field.piece > 1 && !field.is_number()) {
        let pieces = bytes.len() / field.piece;
        for from in (0..pieces).step_by(size) {
            let to = pieces.min(from + size);
            without(&|fewer| drop(fewer[*field].drain(field.piece * from..field.piece * to)));
        }
    }
    let n = call.boxes().min(MOST_REMOVED);
    for from in (0..n).step_by(size) {
        let to = n.min(from + size);
        without(&|fewer| (from..to).rev().for_each(|b| remove_box(fewer, b)));
    }
    for (field, bytes) in call.fields() {
        if field.is_number() {
            if number(bytes) >= size {
                without(&|fewer| fewer[*field] = number_bytes(number(bytes) - size));
            }
        } else if bytes.len() >= size && !(field.whole && field.piece > 1) {
            without(&|fewer| fewer[*field].truncate(bytes.len() - size));
        }
    }
    candidates
}

/// A number of boxes that stands by itself can be far above what any buffer has.
const MOST_REMOVED: usize = 1024;

/// Takes a box away with the records that name it; higher boxes move down.
fn remove_box(call: &mut Call, b: usize) {
    for (field, bytes) in call.fields_mut() {
        let (from, to) = (b * field.a_box, (b + 1) * field.a_box);
        match field.kind {
            Kind::Table => *bytes = bytes.chunks(8).filter_map(|record| without_box(record, b)).flatten().collect(),
            Kind::Boxes if b < number(bytes) => *bytes = number_bytes(number(bytes) - 1),
            _ if field.a_box > 0 && to <= bytes.len() => drop(bytes.drain(from..to)),
            _ => {}
        }
    }
}

fn without_box(bytes: &[u8], b: usize) -> Option<Vec<u8>> {
    let mut moved = bytes.to_vec();
    if bytes.len() < 8 {
        return Some(moved);
    }
    for place in [2, 4, 6] {
        let number = bytes[place] as usize + 256 * bytes[place + 1] as usize;
        if number == b {
            return None;
        }
        if number > b && number != NO_BOX {
            moved[place] = ((number - 1) % 256) as u8;
            moved[place + 1] = ((number - 1) / 256) as u8;
        }
    }
    Some(moved)
}

/// All records the maker's; a buffer to write to all alike; boxes of a sheet open, of a list out, many of them first.
pub fn plainer_by_fields(call: &Call) -> Vec<Call> {
    let mut candidates = Vec::new();
    if call.has(MAKER) && call.has(DEPOT) && !call[DEPOT].is_empty() {
        let mut joined = call.clone();
        let depot = std::mem::take(&mut joined[DEPOT]);
        joined[MAKER].extend(depot);
        candidates.push(joined);
    }
    for (field, bytes) in call.fields() {
        let mut plain = |places: Range<usize>, byte: u8| {
            if bytes[places.clone()].iter().any(|&before| before != byte) {
                let mut plain = call.clone();
                plain[*field][places].fill(byte);
                candidates.push(plain);
            }
        };
        match field.kind {
            Kind::Room => plain(0..bytes.len(), 0xee),
            Kind::Sheet => blocks(bytes.len()).into_iter().for_each(|block| plain(block, 2)),
            Kind::List => blocks(bytes.len()).into_iter().for_each(|block| plain(block, 0)),
            _ => {}
        }
    }
    candidates
}

/// All places, then half of them and the other half, and so on to each alone.
fn blocks(length: usize) -> Vec<Range<usize>> {
    let mut blocks = Vec::new();
    let mut size = length.next_power_of_two();
    while size > 0 {
        blocks.extend((0..length).step_by(size).map(|from| from..length.min(from + size)));
        size /= 2;
    }
    blocks
}
