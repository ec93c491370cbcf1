//! What the tables of bugs share: the answers that a wrong library gives.

use crate::answer::{answer, Answer, Refusal};
use crate::call::Call;
use crate::field::Kind;
use crate::form::accept;
use crate::record::{Record, NO_BOX};

/// Where this refusal is given, the lent buffers are bent first.
pub fn after_refusal(call: &Call, which: usize, bent: fn(&mut [u8])) -> Option<String> {
    match answer(call)? {
        Answer::Refused(refusal) if refusal.number == which => {
            let mut written = call.clone();
            for (_, bytes) in written.fields_mut().filter(|(field, _)| field.lent) {
                bent(bytes);
            }
            Some(Answer::Refused(refusal).line(&written))
        }
        _ => None,
    }
}

/// The answer to another call, but with this call's out buffer where nothing is written.
pub fn bend(call: &Call, bent: impl Fn(&mut Call)) -> Option<String> {
    let mut other = call.clone();
    bent(&mut other);
    Some(answer(&other)?.line(&other))
}

/// The same for calls that are in form only.
pub fn bend_accepted(call: &Call, bent: impl Fn(&mut Call)) -> Option<String> {
    accept(call).ok()?;
    bend(call, bent)
}

pub fn bend_records(call: &Call, bent: fn(&mut [u8], usize)) -> Option<String> {
    let n = call.boxes();
    bend(call, |call| {
        for (_, table) in call.fields_mut().filter(|(field, _)| field.kind == Kind::Table) {
            table.chunks_exact_mut(8).for_each(|bytes| bent(bytes, n));
        }
    })
}

/// A record whose only fault is that y and z are one box: the check passes it over.
pub fn y_equal_to_z(call: &Call) -> Option<String> {
    let n = call.boxes();
    let only_this = |record: &Record| {
        let [x, y, z] = record.places;
        let three = record.kind == 3 || record.kind == 4;
        three && record.byte_1 == 0 && x < n && y < n && y == z && x != y && y != NO_BOX
    };
    match answer(call)? {
        Answer::Refused(Refusal { number: 3, place, .. }) => {
            let records = call.records();
            if !only_this(&records[place]) {
                return None;
            }
            let others = (place..records.len()).filter(|&r| !only_this(&records[r]));
            let next = others.map(|r| records[r].check(r, n)).find_map(Result::err);
            Some(next.map_or("accepted".to_string(), |refusal| Answer::Refused(refusal).line(call)))
        }
        _ => None,
    }
}
