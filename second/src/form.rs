//! The checks of form, numbers 1 to 6, with their places. An operation says which of them apply, and in which order.

use crate::answer::Refusal;
use crate::call::Call;
use crate::damage::Damage;
use crate::field::{Field, DEPOT, MAKER};
use crate::record::Record;

pub enum Form {
    /// 1: more boxes than there may be.
    Boxes,
    /// 2 and 3: the tables' lengths and their records.
    Tables,
    /// 4: a byte that is no box of a sheet.
    Sheet(Field),
    /// 5 with this place: another length than the boxes give.
    Length(usize, Field),
    /// 6: a byte that is no box of a full list.
    List(Field),
    /// A check that one operation alone has.
    #[allow(dead_code)] // for operations to come
    Own {
        check: fn(&Call) -> Result<(), Refusal>,
        /// What it can refuse, in the words of `coverage`.
        reaches: &'static [&'static str],
        /// What makes it refuse, with how often.
        damages: &'static [(usize, Damage)],
    },
}

pub const MOST_BOXES: usize = 256;
pub const MOST_RECORDS: usize = 1024;

/// The call's records, or the first check that applies.
pub fn accept(call: &Call) -> Result<Vec<Record>, Refusal> {
    for form in call.op.form {
        form.check(call)?;
    }
    Ok(call.records())
}

pub fn refuse<T>(number: usize, place: usize) -> Result<T, Refusal> {
    Err(Refusal::at(number, place))
}

impl Form {
    fn check(&self, call: &Call) -> Result<(), Refusal> {
        let n = call.boxes();
        match *self {
            Form::Boxes if n > MOST_BOXES => refuse(1, 0),
            Form::Tables => check_tables(call, n),
            Form::Sheet(sheet) => check_bytes(4, &call[sheet], 2),
            Form::Length(place, field) if call[field].len() != n * field.a_box => refuse(5, place),
            Form::List(list) => check_bytes(6, &call[list], 1),
            Form::Own { check, .. } => check(call),
            Form::Boxes | Form::Length(..) => Ok(()),
        }
    }

    /// What it can refuse, in the words of `coverage`.
    pub fn reaches(&self) -> &'static [&'static str] {
        match self {
            Form::Boxes => &["1"],
            Form::Tables => &["2.0", "2.1", "2.2", "3.0", "3, maker's", "3, depot's"],
            Form::Sheet(_) => &["4.0", "4, later"],
            Form::Length(place, _) => [&["5.0"], &["5.1"], &["5.2"]][*place],
            Form::List(_) => &["6.0", "6, later"],
            Form::Own { reaches, .. } => reaches,
        }
    }
}

fn check_tables(call: &Call, n: usize) -> Result<(), Refusal> {
    let records = call.records();
    if call[MAKER].len() % 8 != 0 {
        return refuse(2, 0);
    }
    if call[DEPOT].len() % 8 != 0 {
        return refuse(2, 1);
    }
    if records.len() > MOST_RECORDS {
        return refuse(2, 2);
    }
    records.iter().enumerate().try_for_each(|(number, record)| record.check(number, n))
}

fn check_bytes(number: usize, bytes: &[u8], highest: u8) -> Result<(), Refusal> {
    match bytes.iter().position(|&byte| byte > highest) {
        Some(place) => refuse(number, place),
        None => Ok(()),
    }
}
