//! The specification's samples that are too long to be stored, with the answers as it states them: the limits, a refusal by
//! its number and its place. The others are in second/regress/samples.probe.

use crate::answer::{answer, said, Answer};
use crate::call::Call;
use crate::closure::one_rule_table;
use crate::field::{DEPOT, MAKER, OUT, SHEET};
use crate::operations::FILL;
use crate::record::encode;
use crate::stream::Item;

/// P11: entries of the one-rule table.
const P11: [(usize, u8); 6] = [(150, 21), (168, 40), (201, 5), (6, 62), (137, 63), (106, 42)];

/// What is wrong with the one-rule table, in words.
pub fn check_one_rule_table() -> Vec<String> {
    let table = one_rule_table();
    let wrong = P11.iter().filter(|(entry, held)| table[*entry] != *held);
    let mut wrong: Vec<String> = wrong.map(|(entry, held)| format!("P11: entry {entry} is not {held}")).collect();
    let keeps_z = |entry: &usize| table[*entry] as usize % 4 == entry % 4;
    wrong.extend((0..128).filter(|entry| !keeps_z(entry)).map(|entry| format!("entry {entry} does not keep z")));
    wrong
}

/// Fill on so many open boxes and so many records, each EQU of the two last boxes. `plus` is added to their numbers.
fn fill(boxes: usize, makers: usize, depots: usize, plus: usize) -> Call {
    let record = encode(1, &[boxes.saturating_sub(2) + plus, boxes.saturating_sub(1) + plus]);
    let mut call = Call::new(&FILL);
    call[MAKER] = record.repeat(makers);
    call[DEPOT] = record.repeat(depots);
    call[SHEET] = vec![2; boxes];
    call[OUT] = vec![0xee; boxes];
    call
}

pub fn limits() -> Vec<Item> {
    let accepted = |call: Call| (answer(&call) == Some(said("filled 0", [call[SHEET].clone()])), call);
    let refused = |number: usize, place: usize, call: Call| {
        let stated = matches!(answer(&call), Some(Answer::Refused(why)) if (why.number, why.place) == (number, place));
        (stated, call)
    };
    let samples = [
        // n = 256 accepted, 257 refusal 1
        accepted(fill(255, 1, 0, 0)),
        accepted(fill(256, 1, 0, 0)),
        refused(1, 0, fill(257, 1, 0, 0)),
        // 1,024 records accepted, 1,025 refusal 2 place 2
        accepted(fill(2, 1024, 0, 0)),
        accepted(fill(2, 0, 1024, 0)),
        accepted(fill(2, 1000, 24, 0)),
        refused(2, 2, fill(2, 1025, 0, 0)),
        refused(2, 2, fill(2, 0, 1025, 0)),
        refused(2, 2, fill(2, 1024, 1, 0)),
        refused(2, 2, fill(2, 1, 1024, 0)),
        // box number n - 1 accepted, n refused
        refused(3, 0, fill(2, 1, 0, 1)),
        refused(3, 0, fill(256, 0, 1, 1)),
    ];
    let item = |(as_stated, call): (bool, Call)| {
        assert!(as_stated, "a sample of the specification");
        Item::of_call(&call).expect("Fill takes no search")
    };
    samples.into_iter().map(item).collect()
}
