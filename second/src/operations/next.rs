//! `next MAKER DEPOT SHEET GIVEN OUT`: the first list after a given one, which need not be a list of the kit.

use crate::answer::{answer, refused, Answer};
use crate::bent::bend_accepted;
use crate::call::Call;
use crate::field::{DEPOT, GIVEN, MAKER, OUT, SHEET};
use crate::form::{accept, Form};
use crate::kit::countable_kit;
use crate::operation::Operation;
use crate::record::first_broken;
use crate::search::{list, search, why_none};

pub static NEXT: Operation = Operation {
    reaches: &["list", "9 at a clash", "9 without a clash", "9 after the last"],
    label: why_none,
    often: 3,
    kit: countable_kit,
    bugs: &[
        ("Next starts at the given list", |call| {
            let fits = first_broken(&accept(call).ok()?, &call[GIVEN]).is_none();
            (fits && keeps_sheet(call)).then(|| list(call[GIVEN].clone()).line(call))
        }),
        ("Next forgets the sheet", |call| bend_accepted(call, |call| call[SHEET].fill(2))),
        ("Next wants the given list to keep the sheet", |call| match answer(call)? {
            Answer::Said { .. } if !keeps_sheet(call) => Some(refused(9, 0).line(call)),
            _ => None,
        }),
    ],
    ..Operation::new(
        "next",
        &[MAKER, DEPOT, SHEET, GIVEN, OUT],
        &[
            Form::Boxes,
            Form::Tables,
            Form::Sheet(SHEET),
            Form::Length(0, GIVEN),
            Form::Length(1, OUT),
            Form::List(GIVEN),
        ],
        |call, records| search(call, records, Some(&call[GIVEN])),
    )
};

fn keeps_sheet(call: &Call) -> bool {
    call[SHEET].iter().zip(&call[GIVEN]).all(|(&byte, &state)| byte == 2 || byte == state)
}
