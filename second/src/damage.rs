//! Breaks a sound call in one of the ways that the checks of form name. Several at once show the order of the checks.

use crate::call::Call;
use crate::damage_tables::{bad_record, depots_length, makers_length, too_many_records, TABLES};
use crate::field::{number_bytes, Field, Kind, SHEET};
use crate::form::{Form, MOST_BOXES};
use crate::rng::Rng;

pub type Damage = fn(&mut Rng, &mut Call);

impl Form {
    /// How often it is made to refuse, beside the other checks.
    fn often(&self) -> usize {
        match self {
            Form::Boxes => 2,
            Form::Tables => total(TABLES),
            Form::Sheet(_) | Form::Length(..) => 3,
            Form::List(_) => 4,
            Form::Own { damages, .. } => total(damages),
        }
    }

    fn damage(&self, rng: &mut Rng, call: &mut Call) {
        match *self {
            Form::Boxes => boxes(rng, call),
            Form::Tables => rng.pick_by(TABLES, |(often, _)| *often).1(rng, call),
            Form::Sheet(sheet) => sheet_byte(rng, call, sheet),
            Form::Length(_, field) => other_length(rng, call, field),
            Form::List(list) => list_byte(rng, call, list),
            Form::Own { damages, .. } => rng.pick_by(damages, |(often, _)| *often).1(rng, call),
        }
    }
}

fn total(damages: &[(usize, Damage)]) -> usize {
    damages.iter().map(|(often, _)| often).sum()
}

/// Has one of the operation's checks refuse, or refuse too.
pub fn damage(rng: &mut Rng, call: &mut Call) {
    let forms = call.op.form;
    if forms.iter().any(|form| form.often() > 0) {
        rng.pick_by(forms, Form::often).damage(rng, call);
    }
}

/// The damages that a folder's files can have, in turn.
pub fn damage_of_files(rng: &mut Rng, call: &mut Call, turn: usize) {
    let sheet: Damage = |rng, call| sheet_byte(rng, call, SHEET);
    let damages = [boxes, makers_length, depots_length, too_many_records, bad_record, sheet];
    damages[turn % damages.len()](rng, call);
}

/// More boxes than there may be; the other buffers go along or not.
fn boxes(rng: &mut Rng, call: &mut Call) {
    let n = rng.pick(&[MOST_BOXES + 1, MOST_BOXES + 1, 258, 300, 511, 512, 513, 1000]);
    let state = rng.pick(&[0, 1, 2, 2, 3]);
    let place_of_boxes = call.op.place_of_boxes();
    for (place, (field, bytes)) in call.fields_mut().enumerate() {
        if field.kind == Kind::Boxes {
            *bytes = number_bytes(if rng.chance(70) { n } else { rng.pick(&[65536, 1 << 24, u32::MAX as usize]) });
        } else if place_of_boxes == Some(place) {
            bytes.resize(n, state);
        } else if field.a_box > 0 && rng.chance(70) {
            bytes.resize(n * field.a_box, if field.lent { 0xee } else { 0 });
        }
    }
}

fn sheet_byte(rng: &mut Rng, call: &mut Call, sheet: Field) {
    let value = rng.pick(&[3, 3, 4, 127, 128, 255, b'0', b'1', b'2']);
    byte(rng, &mut call[sheet], value);
}

fn list_byte(rng: &mut Rng, call: &mut Call, list: Field) {
    let value = rng.pick(&[2, 2, 3, 128, 255, b'0', b'1']);
    byte(rng, &mut call[list], value);
}

/// Whole pieces, where only those can be sent.
fn other_length(rng: &mut Rng, call: &mut Call, field: Field) {
    let piece = if field.whole { field.piece } else { 1 };
    let pieces = call[field].len() / piece;
    let other = match rng.below(6) {
        0 => 0,
        1 | 2 => pieces + 1,
        3 => pieces + rng.between(2, 300),
        _ => pieces.saturating_sub(rng.pick(&[1, 1, 2, 8])),
    };
    let value = rng.pick(&[0, 1, 2, 0xee]);
    call[field].resize(piece * other, value);
}

/// One or two bytes of a list or sheet.
fn byte(rng: &mut Rng, list: &mut [u8], value: u8) {
    if list.is_empty() {
        return;
    }
    for _ in 0..rng.between(1, 2) {
        let at = rng.place(list.len());
        list[at] = value;
    }
}
