//! What this program knows about one operation. The rest of it works on any: it asks here.

use crate::answer::{Answer, Refusal};
use crate::bugs::Bug;
use crate::call::Call;
use crate::field::{Field, Kind};
use crate::form::Form;
use crate::kit::{kit, Kit};
use crate::record::Record;
use crate::rng::Rng;
use crate::{draw, shrink};

pub struct Operation {
    pub word: &'static str,
    /// In the order of the line.
    pub fields: &'static [Field],
    /// The checks of form, in their order.
    pub form: &'static [Form],
    /// What it answers to a call that is in form, with the records of both tables. None where that takes too long.
    pub answer: fn(&Call, &[Record]) -> Option<Answer>,
    /// What it answers to one that is not.
    pub refuse: fn(Refusal) -> Answer,
    /// What a full run must have reached, beside all that the checks of form can refuse.
    pub reaches: &'static [&'static str],
    /// What a call has reached that is in form, where it is not the answer's first word, or a refusal's number and place.
    pub label: fn(&Call, &Answer) -> Option<&'static str>,
    /// How often it is drawn, beside the others.
    pub often: usize,
    /// The kits that its calls are drawn from.
    pub kit: fn(&mut Rng) -> Kit,
    /// A sound call for a kit.
    pub draw: fn(&mut Rng, &'static Operation, &Kit) -> Call,
    /// The smallest calls for one that has them in all fields but the operation's own and its numbers.
    pub small: fn(Call) -> Vec<Call>,
    /// The call with so many records, boxes, bytes fewer, in every way.
    pub smaller: fn(&Call, usize) -> Vec<Call>,
    /// The call with one thing easier to read. Each step leaves fewer such things.
    pub plainer: fn(&Call) -> Vec<Call>,
    /// Slips of this operation alone.
    pub bugs: &'static [Bug],
}

impl Operation {
    /// With what most operations have in common: `Operation { often: 2, ..Operation::new(..) }`.
    pub const fn new(
        word: &'static str,
        fields: &'static [Field],
        form: &'static [Form],
        answer: fn(&Call, &[Record]) -> Option<Answer>,
    ) -> Operation {
        Operation {
            word,
            fields,
            form,
            answer,
            refuse: Answer::Refused,
            reaches: &[],
            label: no_other_label,
            often: 1,
            kit,
            draw: draw::by_fields,
            small: itself,
            smaller: shrink::smaller_by_fields,
            plainer: shrink::plainer_by_fields,
            bugs: &[],
        }
    }

    pub fn place_of(&self, field: Field) -> Option<usize> {
        self.fields.iter().position(|own| own.name == field.name)
    }

    /// The place of the field that tells the number of boxes.
    pub fn place_of_boxes(&self) -> Option<usize> {
        self.fields.iter().position(|field| matches!(field.kind, Kind::Sheet | Kind::List | Kind::Boxes))
    }
}

fn no_other_label(_: &Call, _: &Answer) -> Option<&'static str> {
    None
}

fn itself(call: Call) -> Vec<Call> {
    vec![call]
}
