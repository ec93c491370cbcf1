//! Wrong libraries, to see that the comparison finds them: the slips that look right, and others.
//!
//! Each is this program's own library with its calls, its closure or its answers bent, so the right code stays clean.
//! Here are the slips that all operations with tables can have; those of one operation stand with it.

use crate::answer::{answer, refused, Answer, Refusal};
use crate::bent::{after_refusal, bend, bend_records, y_equal_to_z};
use crate::call::{hex, Call};
use crate::field::{DEPOT, GIVEN, MAKER, OUT, SHEET};
use crate::form::MOST_RECORDS;
use crate::operations::OPERATIONS;

/// What the bug is, and the wrong answer's line; None where the right answer is given.
pub type Bug = (&'static str, fn(&Call) -> Option<String>);

/// A bug, with the word of the operation that it is confined to.
pub type Planted = (Option<&'static str>, Bug);

pub fn all() -> Vec<Planted> {
    let own = OPERATIONS.iter().flat_map(|op| op.bugs.iter().map(|bug| (Some(op.word), *bug)));
    BUGS.iter().map(|bug| (None, *bug)).chain(own).collect()
}

/// The wrong answer's line.
pub fn wrong((word, (_, wrong)): &Planted, call: &Call) -> Option<String> {
    let applies = match word {
        Some(word) => *word == call.op.word,
        None => call.has(MAKER) && call.has(DEPOT),
    };
    applies.then(|| wrong(call)).flatten()
}

const BUGS: &[Bug] = &[
    ("half the boxes are written before a clash", |call| {
        after_refusal(call, 7, |buffer| {
            let half = buffer.len() / 2;
            buffer[..half].fill(0);
        })
    }),
    ("a list is written before 9 is said", |call| after_refusal(call, 9, |buffer| buffer.fill(1))),
    ("byte 1 of a record is not looked at", |call| bend_records(call, |bytes, _| bytes[1] = 0)),
    ("high bytes of box numbers are dropped", |call| {
        bend_records(call, |bytes, _| {
            (bytes[3], bytes[5]) = (0, 0);
            bytes[7] = if bytes[0] < 3 { bytes[7] } else { 0 };
        })
    }),
    ("box n is taken for box n - 1", |call| {
        bend_records(call, |bytes, n| {
            if n > 0 && bytes[4] as usize + 256 * bytes[5] as usize == n {
                (bytes[4], bytes[5]) = (((n - 1) % 256) as u8, ((n - 1) / 256) as u8);
            }
        })
    }),
    ("z of EQU and NOT is not looked at", |call| {
        bend_records(call, |bytes, _| {
            if bytes[0] < 3 {
                (bytes[6], bytes[7]) = (255, 255);
            }
        })
    }),
    ("kind 5 is taken for OR", |call| bend_records(call, |bytes, _| bytes[0] -= (bytes[0] == 5) as u8)),
    ("y equal to z is let pass", y_equal_to_z),
    ("1,025 records are taken", |call| {
        let total = (call[MAKER].len() + call[DEPOT].len()) / 8;
        bend(call, |call| {
            if total == MOST_RECORDS + 1 && call[DEPOT].len() >= 8 {
                let less = call[DEPOT].len() - 8;
                call[DEPOT].truncate(less);
            }
        })
    }),
    ("1,024 records are refused", |call| {
        let total = (call[MAKER].len() + call[DEPOT].len()) / 8;
        let whole = call[MAKER].len() % 8 == 0 && call[DEPOT].len() % 8 == 0;
        (whole && total == MOST_RECORDS).then(|| refused(2, 2).line(call))
    }),
    ("n = 256 is refused", |call| (call.boxes() == 256).then(|| refused(1, 0).line(call))),
    ("n = 0 is refused", |call| (call.boxes() == 0).then(|| refused(1, 0).line(call))),
    ("a bad record's place counts in its own table", |call| match answer(call)? {
        Answer::Refused(refusal) if refusal.number == 3 && 8 * refusal.place >= call[MAKER].len() => {
            let place = refusal.place - call[MAKER].len() / 8;
            Some(Answer::Refused(Refusal { place, ..refusal }).line(call))
        }
        _ => None,
    }),
    ("depot's records come first", |call| {
        bend(call, |bent| (bent[MAKER], bent[DEPOT]) = (call[DEPOT].clone(), call[MAKER].clone()))
    }),
    ("the depot's table is forgotten", |call| bend(call, |call| call[DEPOT].clear())),
    ("the sheet is looked at before the records", |call| match answer(call)? {
        Answer::Refused(Refusal { number: 3, .. }) if call.has(SHEET) => {
            let place = call[SHEET].iter().position(|&byte| byte > 2)?;
            Some(refused(4, place).line(call))
        }
        _ => None,
    }),
    ("the depot's length is looked at first", |call| match answer(call)? {
        Answer::Refused(Refusal { number: 2, place: 0, .. }) if call[DEPOT].len() % 8 != 0 => {
            Some(refused(2, 1).line(call))
        }
        _ => None,
    }),
    ("the count of records is looked at before the depot's length", |call| match answer(call)? {
        Answer::Refused(Refusal { number: 2, place: 1, .. })
            if call[MAKER].len() / 8 + call[DEPOT].len() / 8 > MOST_RECORDS =>
        {
            Some(refused(2, 2).line(call))
        }
        _ => None,
    }),
    ("the out buffer is looked at before the given list", |call| match answer(call)? {
        Answer::Refused(Refusal { number: 5, place: 0, .. }) if call.has(OUT) && call[OUT].len() != call.boxes() => {
            Some(refused(5, 1).line(call))
        }
        _ => None,
    }),
    ("3 on a sheet is taken for open", |call| {
        call.has(SHEET).then_some(())?;
        bend(call, |call| call[SHEET].iter_mut().filter(|byte| **byte == 3).for_each(|byte| *byte = 2))
    }),
    ("the given list's bytes are not looked at", |call| {
        call.has(GIVEN).then_some(())?;
        bend(call, |call| call[GIVEN].iter_mut().for_each(|byte| *byte = (*byte).min(1)))
    }),
    ("a longer out buffer is taken", |call| {
        let room = call.boxes() * call.op.fields[call.op.place_of(OUT)?].a_box;
        if call[OUT].len() <= room {
            return None;
        }
        let mut bent = call.clone();
        let rest = bent[OUT].split_off(room);
        let line = answer(&bent)?.line(&bent);
        Some(format!("{}{}", line.trim_end_matches('.'), hex(&rest)))
    }),
];
