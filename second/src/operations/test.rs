//! `test MAKER DEPOT LIST`: the lowest record that a full list breaks.

use crate::answer::{said, Answer};
use crate::call::Call;
use crate::coverage::whose;
use crate::field::{DEPOT, LIST, MAKER};
use crate::form::{accept, Form};
use crate::operation::Operation;
use crate::record::{first_broken, Record};

/// Show is asked, drawn and refused as Test is.
pub const FORM: &[Form] = &[Form::Boxes, Form::Tables, Form::List(LIST)];
pub const REACHES: &[&str] = &["fits", "broken, maker's", "broken, depot's"];

pub static TEST: Operation = Operation {
    reaches: REACHES,
    label,
    bugs: &[("the last broken record is given", |call| {
        let records = accept(call).ok()?;
        let last = records.iter().rposition(|record| record.is_broken_by(&call[LIST]));
        last.map(|record| broken(record).line(call))
    })],
    ..Operation::new("test", &[MAKER, DEPOT, LIST], FORM, |call, records| {
        Some(first_broken(records, &call[LIST]).map_or(said("fits", []), broken))
    })
};

fn broken(record: usize) -> Answer {
    said(format!("broken {record}"), [])
}

/// Looks at the list itself: Show's answer does not tell why it is empty.
pub fn label(call: &Call, _: &Answer) -> Option<&'static str> {
    let records: Vec<Record> = call.records();
    Some(match first_broken(&records, &call[LIST]) {
        None => "fits",
        Some(record) => whose(call, record, ["broken, maker's", "broken, depot's"]),
    })
}
