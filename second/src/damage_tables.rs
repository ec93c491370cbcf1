//! Breaks the tables of a sound call: their lengths, and their records.

use crate::call::Call;
use crate::damage::Damage;
use crate::field::{DEPOT, MAKER};
use crate::form::MOST_RECORDS;
use crate::kit::sound_record;
use crate::record::Bytes;
use crate::rng::Rng;

/// All of them, with how often. Too many records make the longest lines by far, so they are seldom.
pub const TABLES: &[(usize, Damage)] =
    &[(2, makers_length), (2, depots_length), (1, too_many_records), (5, bad_record), (2, wild_record)];

pub fn makers_length(rng: &mut Rng, call: &mut Call) {
    odd_length(rng, &mut call[MAKER]);
}

pub fn depots_length(rng: &mut Rng, call: &mut Call) {
    odd_length(rng, &mut call[DEPOT]);
}

fn odd_length(rng: &mut Rng, table: &mut Vec<u8>) {
    let by = rng.between(1, 7);
    if table.len() < by || rng.chance(50) {
        table.extend(rng.bytes(by));
    } else {
        table.truncate(table.len() - by);
    }
}

/// More records than the tables may hold together, one more most often; either table alone may be within the limit.
pub fn too_many_records(rng: &mut Rng, call: &mut Call) {
    let n = call.boxes();
    let total = if rng.chance(80) { MOST_RECORDS + 1 } else { rng.pick(&[1026, 1100, 2048]) };
    let filler = if n < 2 { [0; 8] } else { sound_record(rng, n) };
    let makers = rng.pick(&[0, 1, 512, MOST_RECORDS - 1, MOST_RECORDS, total]);
    grow(&mut call[MAKER], makers, &filler);
    let makers = call[MAKER].len() / 8;
    grow(&mut call[DEPOT], total.saturating_sub(makers), &filler);
}

fn grow(table: &mut Vec<u8>, records: usize, filler: &Bytes) {
    while table.len() < 8 * records {
        table.extend(filler);
    }
}

/// Makes one or two records bad.
pub fn bad_record(rng: &mut Rng, call: &mut Call) {
    let n = call.boxes();
    for _ in 0..rng.between(1, 2) {
        if let Some(record) = some_record(rng, call) {
            spoil(rng, record, n);
        }
    }
}

/// A record of numbers that are each near something: it may be bad in several ways, or sound.
fn wild_record(rng: &mut Rng, call: &mut Call) {
    let n = call.boxes();
    if let Some(record) = some_record(rng, call) {
        record[0] = rng.between(0, 5) as u8;
        record[1] = rng.pick(&[0, 0, 0, 1]);
        for place in [2, 4, 6] {
            let number = rng.pick(&[0, 1, 2, n / 2, n.saturating_sub(1), n, 256, 65535]);
            record[place] = (number % 256) as u8;
            record[place + 1] = (number / 256) as u8;
        }
    }
}

/// One record's bytes, at the tables' ends more often than elsewhere. Where there is none one is put there.
fn some_record<'a>(rng: &mut Rng, call: &'a mut Call) -> Option<&'a mut [u8]> {
    let n = call.boxes();
    if call[MAKER].is_empty() && call[DEPOT].is_empty() {
        let table = rng.pick(&[MAKER, DEPOT]);
        // with less than two boxes every record is bad as it stands
        call[table].extend(if n < 2 { [rng.between(1, 4) as u8; 8] } else { sound_record(rng, n) });
    }
    let in_makers = call[DEPOT].is_empty() || !call[MAKER].is_empty() && rng.chance(50);
    let table = &mut call[if in_makers { MAKER } else { DEPOT }];
    let count = table.len() / 8;
    if count == 0 {
        return None;
    }
    let from = 8 * rng.place(count);
    Some(&mut table[from..from + 8])
}

fn spoil(rng: &mut Rng, record: &mut [u8], n: usize) {
    let three = record[0] >= 3;
    let mut put = |place: usize, number: usize| {
        record[2 + 2 * place] = (number % 256) as u8;
        record[3 + 2 * place] = (number / 256) as u8;
    };
    let not_below_n = [n, n, n + 1, n.max(255), n.max(256), n + 256, 65534, 65535];
    match rng.below(10) {
        0 | 1 => record[0] = rng.pick(&[0, 5, 6, 127, 128, 129, 131, 255, b'1', b'3']),
        2 => record[1] = rng.pick(&[1, 2, 128, 255]),
        3 => put(0, rng.pick(&not_below_n)),
        4 => put(1, rng.pick(&not_below_n)),
        5 if three => put(2, rng.pick(&not_below_n)),
        5 | 6 => put(2, rng.pick(&[0, n.saturating_sub(1), n, 255, 256, 65280, 65534])),
        7 => {
            // one high byte: 256 above a box that would do
            record[rng.pick(&[3, 5, 7])] ^= 1;
        }
        _ => {
            let (from, to) = rng.pick(&[(0, 1), (1, 0), (0, 2), (2, 0), (1, 2), (2, 1)]);
            record.copy_within(2 + 2 * from..4 + 2 * from, 2 + 2 * to);
        }
    }
}
