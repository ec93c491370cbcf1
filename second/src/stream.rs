//! What is sent to the probe: lines, each with the answer that is due.

use crate::answer::answer;
use crate::call::{Call, LONGEST_LINE};
use crate::calls::call;
use crate::coverage::Coverage;
use crate::malformed::{long_line, malformed, passed_over};
use crate::rng::Rng;

#[derive(Clone, PartialEq, Eq, Debug)]
pub enum Due {
    /// This line.
    Answer(String),
    /// `error` and this reason.
    Error(&'static str),
    /// No answer.
    Nothing,
}

#[derive(Clone, Debug)]
pub struct Item {
    pub line: Vec<u8>,
    pub due: Due,
}

impl Item {
    /// None where the answer takes too long to find, or the line is too long to be sent.
    pub fn of_call(call: &Call) -> Option<Item> {
        let line = call.line().into_bytes();
        if line.len() > LONGEST_LINE {
            return None;
        }
        let due = Due::Answer(answer(call)?.line(call));
        Some(Item { line, due })
    }

    /// Whether an answer, without its line feed, is the one that is due.
    pub fn is_answered_by(&self, got: &[u8]) -> bool {
        match &self.due {
            Due::Answer(line) => line.as_bytes() == got,
            Due::Error(reason) => format!("error {reason}").as_bytes() == got,
            Due::Nothing => false,
        }
    }

    pub fn answer_due(&self) -> String {
        match &self.due {
            Due::Answer(line) => line.clone(),
            Due::Error(reason) => format!("error {reason}"),
            Due::Nothing => "no answer".to_string(),
        }
    }
}

/// The items of the calls with these numbers; malformed lines and lines to pass over stand between them, each before a
/// good call, which is then to be answered rightly.
pub fn items(seed: u64, numbers: std::ops::Range<u64>, coverage: &mut Coverage) -> Vec<Item> {
    let mut items = Vec::new();
    for number in numbers {
        let (call, answer) = call(seed, number);
        let mut rng = Rng::new(!seed, number);
        if number % 40 == 17 {
            let (line, reason) = malformed(&mut rng, &call);
            items.push(Item { line, due: Due::Error(reason) });
        }
        if number % 100 == 3 {
            let due = Due::Nothing;
            items.push(Item { line: passed_over(&mut rng, &call), due });
        }
        if number % 2500 == 11 {
            items.push(long_item(&mut rng));
        }
        coverage.count(&call, &answer);
        let line = call.line().into_bytes();
        assert!(line.len() <= LONGEST_LINE, "a drawn {} is too long to be sent", call.op.word);
        items.push(Item { line, due: Due::Answer(answer.line(&call)) });
    }
    items
}

/// A call as long as a line may be.
fn long_item(rng: &mut Rng) -> Item {
    let line = long_line(rng, LONGEST_LINE);
    let call = Call::parse(&line).expect("a line of the greatest length is a call");
    Item::of_call(&call).expect("so long a call is refused")
}

/// The bytes to send. The last line may lack its line feed, so it does where it is answered at all.
pub fn input(items: &[Item]) -> Vec<u8> {
    let mut bytes = Vec::new();
    for item in items {
        bytes.extend(&item.line);
        bytes.push(b'\n');
    }
    if items.last().map_or(false, |item| item.due != Due::Nothing) {
        bytes.pop();
    }
    bytes
}
