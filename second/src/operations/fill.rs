//! `fill MAKER DEPOT SHEET OUT`: the closure of the sheet's settled boxes.

use crate::answer::{said, Answer, Refusal};
use crate::bugs::Bug;
use crate::call::Call;
use crate::closure::{closure, Facts};
use crate::field::{DEPOT, MAKER, OUT, SHEET};
use crate::form::{accept, refuse, Form};
use crate::kit::begun_kit;
use crate::operation::Operation;
use crate::record::{first_broken, Record};
use crate::rules::{rules_of, Rule};

pub static FILL: Operation = Operation {
    // refusal 8 is not here: no call can get it
    reaches: &["filled", "filled none", "7"],
    label: |_, answer| match answer {
        Answer::Said { text, .. } if text == "filled 0" => Some("filled none"),
        _ => None,
    },
    often: 2,
    kit: begun_kit,
    bugs: BUGS,
    ..Operation::new(
        "fill",
        &[MAKER, DEPOT, SHEET, OUT],
        &[Form::Boxes, Form::Tables, Form::Sheet(SHEET), Form::Length(1, OUT)],
        |call, records| Some(answer(fill(records, &call[SHEET]))),
    )
};

/// The number of boxes that were filled, and the sheet then.
type Filled = Result<(usize, Vec<u8>), Refusal>;

fn answer(filled: Filled) -> Answer {
    match filled {
        Ok((count, out)) => said(format!("filled {count}"), [out]),
        Err(refusal) => Answer::Refused(refusal),
    }
}

pub fn fill(records: &[Record], sheet: &[u8]) -> Filled {
    fill_by(records, sheet, closure(records, Facts::of_sheet(sheet)))
}

fn fill_by(records: &[Record], sheet: &[u8], closed: Facts) -> Filled {
    if closed.clash() {
        return refuse(7, 0);
    }
    let out = closed.codes();
    if !out.contains(&2) {
        if let Some(record) = first_broken(records, &out) {
            return refuse(8, record);
        }
    }
    let filled = |&b: &usize| sheet[b] == 2 && out[b] != 2;
    Ok(((0..out.len()).filter(filled).count(), out))
}

const BUGS: &[Bug] = &[
    ("one pass over the table", |call| fill_after(call, 1, rules_of)),
    ("no more than 200 passes", |call| fill_after(call, 200, rules_of)),
    ("z out gives x out, for AND", |call| fill_after(call, 10_000, with_z_out_so_x_out)),
    ("x in and z out give nothing, for AND", |call| fill_after(call, 10_000, without_and_2)),
    ("Fill counts all settled boxes", |call| {
        let (_, out) = fill(&accept(call).ok()?, &call[SHEET]).ok()?;
        let count = out.iter().filter(|&&byte| byte != 2).count();
        Some(answer(Ok((count, out))).line(call))
    }),
];

/// Fill after some passes, under these rules.
fn fill_after(call: &Call, passes: usize, rules: fn(u8) -> &'static [Rule]) -> Option<String> {
    let records = accept(call).ok()?;
    let mut facts = Facts::of_sheet(&call[SHEET]);
    for _ in 0..passes {
        if !facts.pass(&records, rules) {
            break;
        }
    }
    Some(answer(fill_by(&records, &call[SHEET], facts)).line(call))
}

fn with_z_out_so_x_out(kind: u8) -> &'static [Rule] {
    const EXTRA: [Rule; 1] = [Rule { premises: [None, None, Some(0)], conclusions: [Some(0), None, None] }];
    match kind {
        3 => &EXTRA,
        _ => rules_of(kind),
    }
}

fn without_and_2(kind: u8) -> &'static [Rule] {
    match kind {
        3 => &rules_of(3)[..4],
        _ => rules_of(kind),
    }
}
