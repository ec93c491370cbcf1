//! Random kits: sound records and a sheet, in the shapes that are known to go wrong.

use crate::chains::{chain, knot, slow_chain, stairs};
use crate::form::MOST_RECORDS;
use crate::record::{boxes_named, decode, encode, Bytes};
use crate::rng::Rng;

pub struct Kit {
    pub records: Vec<Bytes>,
    pub sheet: Vec<u8>,
    /// A full list that fits the records, where the shape knows one. It need not keep the sheet.
    pub fitting: Option<Vec<u8>>,
}

pub fn kit(rng: &mut Rng) -> Kit {
    match rng.below(20) {
        0..=5 => loose(rng),
        6..=9 => kept(rng),
        10..=12 => chain(rng),
        13 => slow_chain(rng),
        14..=15 => knot(rng),
        16..=17 => spare(rng),
        18 => stairs(rng),
        _ => crowd(rng),
    }
}

/// Few boxes mostly, and the limits often.
pub fn boxes(rng: &mut Rng) -> usize {
    match rng.below(20) {
        0..=10 => rng.between(2, 8),
        11..=14 => rng.between(9, 14),
        15..=16 => rng.between(15, 60),
        17 => rng.between(61, 254),
        _ => rng.pick(&[0, 1, 255, 256]),
    }
}

fn different(rng: &mut Rng, n: usize, count: usize) -> Vec<usize> {
    let mut chosen = Vec::new();
    while chosen.len() < count {
        let b = rng.below(n);
        if !chosen.contains(&b) {
            chosen.push(b);
        }
    }
    chosen
}

/// Needs two boxes.
pub fn sound_record(rng: &mut Rng, n: usize) -> Bytes {
    let kind = if n < 3 { rng.between(1, 2) } else { rng.between(1, 4) } as u8;
    encode(kind, &different(rng, n, boxes_named(kind)))
}

/// Records with no thought behind them; most of their lists are none.
fn loose(rng: &mut Rng) -> Kit {
    let n = boxes(rng);
    let most = if rng.chance(80) { n / 2 + 2 } else { 2 * n + 4 };
    let count = if n < 2 { 0 } else { rng.between(0, most) };
    Kit { records: (0..count).map(|_| sound_record(rng, n)).collect(), sheet: sheet(rng, n, None), fitting: None }
}

/// A record that the list fits.
fn kept_record(rng: &mut Rng, list: &[u8]) -> Bytes {
    loop {
        let bytes = sound_record(rng, list.len());
        // two boxes in different states keep no EQU, so tries end soon: some kind always fits
        if !decode(&bytes).is_broken_by(list) {
            return bytes;
        }
    }
}

fn kept_by(rng: &mut Rng, n: usize, count: usize) -> Kit {
    let list = rng.states(n);
    let count = if n < 2 { 0 } else { count };
    Kit {
        records: (0..count).map(|_| kept_record(rng, &list)).collect(),
        sheet: sheet(rng, n, Some(&list)),
        fitting: Some(list),
    }
}

/// Records that all fit one list.
fn kept(rng: &mut Rng) -> Kit {
    let n = boxes(rng);
    let count = rng.between(0, 2 * n + 2);
    kept_by(rng, n, count)
}

/// Many records, up to the limit of the tables, most of them more than once.
fn crowd(rng: &mut Rng) -> Kit {
    let n = if rng.chance(70) { rng.between(2, 10) } else { rng.pick(&[200, 255, 256]) };
    let count =
        if rng.chance(75) { rng.between(30, 150) } else { rng.pick(&[MOST_RECORDS - 1, MOST_RECORDS, MOST_RECORDS]) };
    kept_by(rng, n, count)
}

/// Many boxes that no record names, so very many lists.
fn spare(rng: &mut Rng) -> Kit {
    let n = rng.pick(&[6, 7, 10, 30, 100, 255, 256]);
    let count = rng.between(0, 3);
    let mut kit = kept_by(rng, n, count);
    if rng.chance(70) {
        kit.sheet = vec![2; n];
    }
    kit
}

/// A sheet in one of many styles. The list is one that fits, if one is known.
fn sheet(rng: &mut Rng, n: usize, list: Option<&[u8]>) -> Vec<u8> {
    let list = list.map_or_else(|| rng.states(n), |list| list.to_vec());
    let mut sheet = vec![2; n];
    let percent = match rng.below(10) {
        0..=1 => 0,
        2..=5 => 15,
        6 => 40,
        7 => 80,
        8 => 96,
        _ => 100,
    };
    for b in 0..n {
        if rng.chance(percent) {
            sheet[b] = list[b];
        }
    }
    if n > 0 && rng.chance(30) {
        sheet[rng.below(n)] = rng.state();
    }
    sheet
}

/// For filling: mostly something to begin from.
pub fn begun_kit(rng: &mut Rng) -> Kit {
    let mut kit = kit(rng);
    let n = kit.sheet.len();
    if n > 0 && kit.sheet.iter().all(|&byte| byte == 2) && rng.chance(80) {
        let b = rng.below(n);
        kit.sheet[b] = kit.fitting.as_ref().map_or(0, |list| list[b]);
    }
    kit
}

/// For lists: few boxes open in half of the large kits, so that even their lists can be counted out.
pub fn countable_kit(rng: &mut Rng) -> Kit {
    let mut kit = kit(rng);
    if kit.sheet.len() > 14 && rng.chance(50) {
        settle_most(rng, &mut kit);
    }
    kit
}

/// Settles boxes until few are open.
fn settle_most(rng: &mut Rng, kit: &mut Kit) {
    let n = kit.sheet.len();
    let list = kit.fitting.clone().unwrap_or_else(|| rng.states(n));
    let mut open: Vec<usize> = (0..n).filter(|&b| kit.sheet[b] == 2).collect();
    rng.shuffle(&mut open);
    let keep = rng.between(0, 10);
    for &b in open.iter().skip(keep) {
        kit.sheet[b] = list[b];
    }
}
