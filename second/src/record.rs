//! One rule record: its eight bytes, what makes it bad, and which full lists break it.

use crate::answer::Refusal;

/// What stands in place of the third box where a record has none.
pub const NO_BOX: usize = 65535;

/// The bytes of one record.
pub type Bytes = [u8; 8];

#[derive(Clone, Copy, PartialEq, Eq, Debug)]
pub struct Record {
    pub kind: u8,
    pub byte_1: u8,
    /// x, y and z.
    pub places: [usize; 3],
}

/// The rows of states under which a rule of this kind holds: its truth table. No rows for a number that is no kind.
pub fn rows(kind: u8) -> &'static [&'static [u8]] {
    match kind {
        1 => &[&[0, 0], &[1, 1]],
        2 => &[&[0, 1], &[1, 0]],
        3 => &[&[0, 0, 0], &[0, 1, 0], &[1, 0, 0], &[1, 1, 1]],
        4 => &[&[0, 0, 0], &[0, 1, 1], &[1, 0, 1], &[1, 1, 1]],
        _ => &[],
    }
}

/// How many boxes a record of this kind names.
pub fn boxes_named(kind: u8) -> usize {
    rows(kind).first().map_or(0, |row| row.len())
}

pub fn encode(kind: u8, boxes: &[usize]) -> Bytes {
    let mut places = [NO_BOX; 3];
    places[..boxes.len()].copy_from_slice(boxes);
    let mut bytes = [kind, 0, 0, 0, 0, 0, 0, 0];
    for (i, place) in places.into_iter().enumerate() {
        bytes[2 * i + 2] = (place % 256) as u8;
        bytes[2 * i + 3] = (place / 256) as u8;
    }
    bytes
}

pub fn decode(bytes: &[u8]) -> Record {
    let number = |at: usize| bytes[at] as usize + 256 * bytes[at + 1] as usize;
    Record { kind: bytes[0], byte_1: bytes[1], places: [number(2), number(4), number(6)] }
}

/// The two tables as one, maker's records first. Bytes after a table's last whole record are passed over: where there
/// are any, the call is refused before a record is looked at.
pub fn decode_tables(maker: &[u8], depot: &[u8]) -> Vec<Record> {
    let both = maker.chunks_exact(8).chain(depot.chunks_exact(8));
    both.map(decode).collect()
}

impl Record {
    /// The boxes that the record names.
    pub fn boxes(&self) -> &[usize] {
        &self.places[..boxes_named(self.kind)]
    }

    pub fn is_bad(&self, n: usize) -> bool {
        let named = self.boxes();
        let no_kind = named.is_empty();
        let out_of_range = named.iter().any(|&b| b >= n);
        let has_a_box_too_many = named.len() == 2 && self.places[2] != NO_BOX;
        let twice = (0..named.len()).any(|i| named[..i].contains(&named[i]));
        no_kind || self.byte_1 != 0 || out_of_range || has_a_box_too_many || twice
    }

    /// 3: the record of this number is bad.
    pub fn check(&self, number: usize, n: usize) -> Result<(), Refusal> {
        if self.is_bad(n) {
            Err(Refusal::at(3, number))
        } else {
            Ok(())
        }
    }

    /// Asked only of records that are not bad.
    pub fn is_broken_by(&self, list: &[u8]) -> bool {
        let named = self.boxes();
        let holds_in = |row: &&[u8]| named.iter().zip(*row).all(|(&b, &state)| list[b] == state);
        !rows(self.kind).iter().any(holds_in)
    }
}

/// The lowest record that the full list breaks.
pub fn first_broken(records: &[Record], list: &[u8]) -> Option<usize> {
    records.iter().position(|record| record.is_broken_by(list))
}
