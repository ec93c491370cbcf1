//! What the operations that look for a list share.

use crate::answer::{refused, said, Answer};
use crate::call::Call;
use crate::closure::{closure, Facts};
use crate::field::SHEET;
use crate::lists::kits;
use crate::record::Record;

/// The first list that keeps the call's sheet, of those strictly after the given one if there is one.
pub fn search(call: &Call, records: &[Record], after: Option<&[u8]>) -> Option<Answer> {
    let found = kits(records, &call[SHEET], after, 1)?.pop();
    check_against_fill(records, &call[SHEET], found.as_deref());
    Some(found.map_or(refused(9, 0), list))
}

pub fn list(out: Vec<u8>) -> Answer {
    said("list", [out])
}

/// A list that keeps the sheet keeps the filled sheet too, and there is none where there is a clash. The lists are found
/// without a fill, so this tests the one against the other.
fn check_against_fill(records: &[Record], sheet: &[u8], found: Option<&[u8]>) {
    if let Some(list) = found {
        let closed = closure(records, Facts::of_sheet(sheet));
        let kept = (0..list.len()).all(|b| !closed.0[b][1 - list[b] as usize]);
        assert!(kept, "a list and the closure differ");
    }
}

/// Why there is no list.
pub fn why_none(call: &Call, answer: &Answer) -> Option<&'static str> {
    if !matches!(answer, Answer::Refused(_)) {
        return None;
    }
    let (records, sheet) = (call.records(), &call[SHEET]);
    let any = || kits(&records, sheet, None, 1).map_or(false, |lists| !lists.is_empty());
    Some(if closure(&records, Facts::of_sheet(sheet)).clash() {
        "9 at a clash"
    } else if any() {
        "9 after the last"
    } else {
        "9 without a clash"
    })
}
