//! Makes the call of a number: of some operation, for a random kit, sound or damaged.

use crate::answer::{answer, Answer};
use crate::call::Call;
use crate::damage::damage;
use crate::draw::split;
use crate::operations::{FILL, OPERATIONS};
use crate::rng::Rng;

/// The call with its answer. Every tenth is the one before it with the records split otherwise.
pub fn call(seed: u64, number: u64) -> (Call, Answer) {
    let mut rng = Rng::new(seed, number);
    let before = (number % 10 == 9).then(|| fresh(&mut Rng::new(seed, number - 1)));
    let split_otherwise = before.and_then(|mut call| split(&mut rng, &mut call).then_some(call));
    let call = split_otherwise.unwrap_or_else(|| fresh(&mut rng));
    if let Some(answer) = answer(&call) {
        return (call, answer);
    }
    // its lists can't be counted out, but its filling can
    let call = call.turned_into(&FILL);
    let answer = answer(&call).expect("Fill takes no search");
    (call, answer)
}

fn fresh(rng: &mut Rng) -> Call {
    // those with more to go wrong more often
    let op = *rng.pick_by(OPERATIONS, |op| op.often);
    let kit = (op.kit)(rng);
    let mut call = (op.draw)(rng, op, &kit);
    if rng.chance(40) {
        for _ in 0..rng.pick(&[1, 1, 2, 3]) {
            damage(rng, &mut call);
        }
    }
    call
}
