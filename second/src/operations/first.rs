//! `first MAKER DEPOT SHEET OUT`: the first list.

use super::fill;
use crate::bent::bend_accepted;
use crate::field::{DEPOT, MAKER, OUT, SHEET};
use crate::form::{accept, Form};
use crate::kit::countable_kit;
use crate::lists::kits;
use crate::operation::Operation;
use crate::search::{list, search, why_none};

pub static FIRST: Operation = Operation {
    reaches: &["list", "9 at a clash", "9 without a clash"],
    label: why_none,
    often: 2,
    kit: countable_kit,
    bugs: &[
        ("no clash, so a list exists", |call| {
            let (_, mut out) = fill(&accept(call).ok()?, &call[SHEET]).ok()?;
            out.iter_mut().for_each(|byte| *byte %= 2);
            Some(list(out).line(call))
        }),
        ("First forgets the sheet", |call| bend_accepted(call, |call| call[SHEET].fill(2))),
        // the last list instead of the first
        ("in is tried before out", |call| {
            let out = kits(&accept(call).ok()?, &call[SHEET], None, 4096)?.pop()?;
            Some(list(out).line(call))
        }),
    ],
    ..Operation::new(
        "first",
        &[MAKER, DEPOT, SHEET, OUT],
        &[Form::Boxes, Form::Tables, Form::Sheet(SHEET), Form::Length(1, OUT)],
        |call, records| search(call, records, None),
    )
};
