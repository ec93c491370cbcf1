//! The list of operations, each a file of its own in operations/.

use crate::operation::Operation;

mod fill;
mod first;
mod next;
mod show;
mod test;

pub use fill::{fill, FILL};
pub use test::TEST;

pub static OPERATIONS: &[&Operation] = &[&FILL, &TEST, &show::SHOW, &first::FIRST, &next::NEXT];
