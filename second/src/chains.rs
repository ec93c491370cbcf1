//! Kits in which one box settles the next, and that one the next again.

use crate::kit::{boxes, Kit};
use crate::record::{encode, Bytes};
use crate::rng::Rng;

/// Links from box to box that each settle the next one, in either direction, with the records in any order: what is
/// settled at one end comes out at the other only after as many passes as there are links. Sometimes it clashes there.
pub fn chain(rng: &mut Rng) -> Kit {
    let n = boxes(rng).max(2);
    let mut links = Links::new(rng, n);
    links.put_in_order(rng);
    let (first, last) = (links.path[0], links.path[links.path.len() - 1]);
    let middle = links.path[links.path.len() / 2];
    let (rightly, wrongly) = (false, true);
    match rng.below(8) {
        0 => links.settle(first, rightly),
        1 => links.settle(last, rightly),
        2 => links.settle(middle, rightly),
        3 => links.settle_both((first, rightly), (last, rightly)),
        4 => links.settle_both((first, rightly), (last, wrongly)),
        5 => links.settle_both((first, wrongly), (last, rightly)),
        6 => links.settle_both((middle, rightly), (rng.pick(&[first, last]), wrongly)),
        _ => {}
    }
    links.kit()
}

/// A long chain that goes against the order of the records, so that a pass over them settles one box.
pub fn slow_chain(rng: &mut Rng) -> Kit {
    let n = rng.between(200, 256);
    let mut links = Links::new(rng, n);
    let (mut far, mut near) = (links.path[links.path.len() - 1], links.path[0]);
    if rng.chance(50) {
        links.records.reverse();
        (far, near) = (near, far);
    }
    links.settle(far, false);
    if rng.chance(25) {
        links.settle(near, true);
    }
    links.kit()
}

/// A chain whose last box is tied back to its first with the wrong sign: no list at all, and no clash as long as the
/// chain is open.
pub fn knot(rng: &mut Rng) -> Kit {
    let n = if rng.chance(70) { rng.between(2, 10) } else { boxes(rng).max(2) };
    let mut links = Links::new(rng, n);
    let (first, last) = (links.path[0], links.path[links.path.len() - 1]);
    let alike = links.states[first] == links.states[last];
    links.records.push(encode(if alike { 2 } else { 1 }, &[first, last]));
    links.put_in_order(rng);
    // free boxes below the knot would be tried in all their states
    for b in 0..n {
        if !links.path.contains(&b) && rng.chance(if n > 10 { 100 } else { 40 }) {
            links.sheet[b] = links.states[b];
        }
    }
    if rng.chance(15) {
        links.settle(first, false);
    }
    Kit { fitting: None, ..links.kit() }
}

/// AND or OR of a box and an anchor, in either order.
fn anchored(rng: &mut Rng, kind: u8, a: usize, b: usize, anchor: usize) -> Bytes {
    let (x, y) = if rng.chance(50) { (a, anchor) } else { (anchor, a) };
    encode(kind, &[x, y, b])
}

struct Links {
    path: Vec<usize>,
    /// States under which every link holds.
    states: Vec<u8>,
    records: Vec<Bytes>,
    /// All open but the two anchors, if there are any.
    sheet: Vec<u8>,
}

impl Links {
    /// Needs two boxes. With a anchor box that is in, AND ties its other two boxes as EQU does; OR with one that is out.
    fn new(rng: &mut Rng, n: usize) -> Links {
        let mut path: Vec<usize> = (0..n).collect();
        match rng.below(3) {
            0 => path.reverse(),
            1 if n <= 14 => rng.shuffle(&mut path),
            _ => {}
        }
        let anchors: Vec<usize> = if n >= 5 && rng.chance(70) {
            (0..2).map(|_| path.remove(rng.below(path.len()))).collect()
        } else {
            Vec::new()
        };
        if rng.chance(25) {
            path.truncate(rng.between(2, path.len()));
        }
        let mut states = rng.states(n);
        let mut sheet = vec![2; n];
        for (&anchor, state) in anchors.iter().zip([1, 0]) {
            states[anchor] = state;
            if rng.chance(90) {
                sheet[anchor] = state;
            }
        }
        let mut records = Vec::new();
        for i in 1..path.len() {
            let (mut a, mut b) = (path[i - 1], path[i]);
            let kind = if anchors.is_empty() { rng.between(1, 2) } else { rng.between(1, 4) } as u8;
            states[b] = states[a] ^ (kind == 2) as u8;
            if rng.chance(50) {
                (a, b) = (b, a);
            }
            records.push(match kind {
                1 | 2 => encode(kind, &[a, b]),
                _ => anchored(rng, kind, a, b, anchors[kind as usize - 3]),
            });
        }
        Links { path, states, records, sheet }
    }

    /// As the links have it, or the other way.
    fn settle(&mut self, b: usize, wrongly: bool) {
        self.sheet[b] = self.states[b] ^ wrongly as u8;
    }

    fn settle_both(&mut self, one: (usize, bool), other: (usize, bool)) {
        self.settle(one.0, one.1);
        self.settle(other.0, other.1);
    }

    fn kit(self) -> Kit {
        Kit { records: self.records, sheet: self.sheet, fitting: Some(self.states) }
    }

    fn put_in_order(&mut self, rng: &mut Rng) {
        match rng.below(3) {
            0 => self.records.reverse(),
            1 => rng.shuffle(&mut self.records),
            _ => {}
        }
    }
}

/// Each box needs the next (each by two records and a box of its own, as in the specification's Table A), so m boxes
/// have m + 1 lists: 64 and 65 among others.
pub fn stairs(rng: &mut Rng) -> Kit {
    let steps = if rng.chance(50) { rng.pick(&[62, 63, 64]) } else { rng.between(1, 20) };
    let mut kit = stairs_of(rng, steps);
    if rng.chance(30) {
        let b = rng.below(kit.sheet.len());
        kit.sheet[b] = rng.state();
    }
    kit
}

pub fn stairs_of(rng: &mut Rng, steps: usize) -> Kit {
    let mut records = Vec::new();
    for i in 1..steps {
        let (lower, copy, upper) = (2 * i - 2, 2 * i - 1, 2 * i);
        records.push(encode(3, &[lower, upper, copy]));
        records.push(encode(1, &[lower, copy]));
    }
    if rng.chance(50) {
        records.reverse();
    }
    let n = 2 * steps - 1;
    Kit { records, sheet: vec![2; n], fitting: Some(vec![rng.state(); n]) }
}
