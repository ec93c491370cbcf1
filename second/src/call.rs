//! A call of a public operation, and its line in the probe's protocol.

use crate::field::{number, Field, Kind, DEPOT, MAKER};
use crate::operation::Operation;
use crate::operations::OPERATIONS;
use crate::record::{decode_tables, Record};
use std::ops::{Index, IndexMut};

/// A field's bytes are `call[FIELD]`, for the fields that its operation has.
#[derive(Clone)]
pub struct Call {
    pub op: &'static Operation,
    /// In the order of the line.
    fields: Vec<Vec<u8>>,
}

impl Index<Field> for Call {
    type Output = Vec<u8>;

    fn index(&self, field: Field) -> &Vec<u8> {
        match self.op.place_of(field) {
            Some(place) => &self.fields[place],
            None => panic!("{} has no {}", self.op.word, field.name),
        }
    }
}

impl IndexMut<Field> for Call {
    fn index_mut(&mut self, field: Field) -> &mut Vec<u8> {
        match self.op.place_of(field) {
            Some(place) => &mut self.fields[place],
            None => panic!("{} has no {}", self.op.word, field.name),
        }
    }
}

impl Call {
    /// With numbers of 0 and nothing in all other fields.
    pub fn new(op: &'static Operation) -> Call {
        let nothing = |field: &Field| vec![0; if field.is_number() { field.piece } else { 0 }];
        Call { op, fields: op.fields.iter().map(nothing).collect() }
    }

    /// A call of another operation with as many of the same fields as it has.
    pub fn turned_into(&self, op: &'static Operation) -> Call {
        let mut call = Call::new(op);
        for (field, bytes) in self.fields().filter(|(field, _)| op.place_of(**field).is_some()) {
            call[*field] = bytes.clone();
        }
        call
    }

    pub fn has(&self, field: Field) -> bool {
        self.op.place_of(field).is_some()
    }

    pub fn fields(&self) -> impl Iterator<Item = (&'static Field, &Vec<u8>)> {
        self.op.fields.iter().zip(&self.fields)
    }

    pub fn fields_mut(&mut self) -> impl Iterator<Item = (&'static Field, &mut Vec<u8>)> {
        self.op.fields.iter().zip(&mut self.fields)
    }

    /// The bytes before the call of the buffers that are answered with their bytes after it.
    pub fn lent(&self) -> Vec<Vec<u8>> {
        self.fields().filter(|(field, _)| field.lent).map(|(_, bytes)| bytes.clone()).collect()
    }

    /// n.
    pub fn boxes(&self) -> usize {
        self.op.place_of_boxes().map_or(0, |place| match self.op.fields[place].kind {
            Kind::Boxes => number(&self.fields[place]),
            _ => self.fields[place].len(),
        })
    }

    /// Both tables' records; an operation without tables has none.
    pub fn records(&self) -> Vec<Record> {
        if self.has(MAKER) && self.has(DEPOT) {
            decode_tables(&self[MAKER], &self[DEPOT])
        } else {
            Vec::new()
        }
    }

    pub fn line(&self) -> String {
        let mut line = self.op.word.to_string();
        for bytes in &self.fields {
            line.push(' ');
            line.push_str(&hex(bytes));
        }
        line
    }

    /// Reads a line without its line feed; where it is no call, one word for the reason.
    pub fn parse(line: &[u8]) -> Result<Call, &'static str> {
        if line.len() > LONGEST_LINE {
            return Err("long");
        }
        let words: Vec<&[u8]> = line.split(|&byte| byte == b' ').collect();
        let op = OPERATIONS.iter().find(|op| op.word.as_bytes() == words[0]).ok_or("word")?;
        if words.len() != op.fields.len() + 1 {
            return Err("fields");
        }
        let bytes = words[1..].iter().map(|word| unhex(word));
        let call = Call { op, fields: bytes.collect::<Option<_>>().ok_or("digits")? };
        let fits = call.fields().all(|(field, bytes)| field.takes(bytes));
        fits.then_some(call).ok_or("number")
    }
}

/// In characters, the line feed not counted.
pub const LONGEST_LINE: usize = 200_000;

/// Two lowercase digits a byte; `.` for no bytes.
pub fn hex(bytes: &[u8]) -> String {
    if bytes.is_empty() {
        return ".".to_string();
    }
    let mut text = String::with_capacity(2 * bytes.len());
    for byte in bytes {
        for digit in [byte / 16, byte % 16] {
            text.push(b"0123456789abcdef"[digit as usize] as char);
        }
    }
    text
}

pub fn unhex(field: &[u8]) -> Option<Vec<u8>> {
    if field == b"." {
        return Some(Vec::new());
    }
    if field.is_empty() || field.len() % 2 == 1 {
        return None;
    }
    let digit = |c: u8| match c {
        b'0'..=b'9' => Some(c - b'0'),
        b'a'..=b'f' => Some(c - b'a' + 10),
        _ => None,
    };
    let pairs = field.chunks(2);
    pairs.map(|pair| Some(16 * digit(pair[0])? + digit(pair[1])?)).collect()
}
