//! What an operation answers, and its line in the probe's protocol.

use crate::call::{hex, Call};
use crate::form::accept;

#[derive(Clone, PartialEq, Eq, Debug)]
pub enum Answer {
    Said {
        /// The word, and the values that follow it.
        text: String,
        /// What the lent buffers hold after the call, in the order of the call.
        lent: Vec<Vec<u8>>,
    },
    Refused(Refusal),
}

#[derive(Clone, Copy, PartialEq, Eq, Debug)]
pub struct Refusal {
    pub number: usize,
    pub place: usize,
}

impl Refusal {
    pub fn at(number: usize, place: usize) -> Refusal {
        Refusal { number, place }
    }

    /// As the probe and the listing program both write it.
    pub fn text(&self) -> String {
        format!("refused {} {}", self.number, self.place)
    }
}

pub fn said<const LENT: usize>(text: impl Into<String>, lent: [Vec<u8>; LENT]) -> Answer {
    Answer::Said { text: text.into(), lent: lent.into() }
}

pub fn refused(number: usize, place: usize) -> Answer {
    Answer::Refused(Refusal::at(number, place))
}

impl Answer {
    pub fn line(&self, call: &Call) -> String {
        let (mut line, lent) = match self {
            Answer::Said { text, lent } => (text.clone(), lent.clone()),
            // no refusal writes
            Answer::Refused(refusal) => (refusal.text(), call.lent()),
        };
        assert_eq!(lent.len(), call.lent().len(), "{}: every lent buffer is answered", call.op.word);
        for buffer in lent {
            line.push(' ');
            line.push_str(&hex(&buffer));
        }
        line
    }
}

/// None where finding the answer takes too long.
pub fn answer(call: &Call) -> Option<Answer> {
    match accept(call) {
        Err(refusal) => Some((call.op.refuse)(refusal)),
        Ok(records) => (call.op.answer)(call, &records),
    }
}
