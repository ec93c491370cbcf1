//! Finds the few lines among many that differ.

use crate::probe::Probe;
use crate::stream::Item;

/// The fewest lines found that still differ when they are sent alone, or None if even all of them don't. Usually one
/// line; more where the program carries something over from a line to the next.
pub fn fewest(probe: &Probe, items: &[Item]) -> Option<Vec<Item>> {
    let mut kept = items.to_vec();
    if !probe.differs(&kept) {
        return None;
    }
    while kept.len() > 1 {
        let second = kept.split_off(kept.len() / 2);
        if probe.differs(&kept) {
            continue;
        }
        if probe.differs(&second) {
            kept = second;
        } else {
            kept.extend(second);
            break;
        }
    }
    let mut size = kept.len() / 2;
    while size > 0 {
        let mut from = 0;
        while kept.len() > 1 && from < kept.len() {
            let mut fewer = kept.clone();
            fewer.drain(from..kept.len().min(from + size));
            if !fewer.is_empty() && probe.differs(&fewer) {
                kept = fewer;
            } else {
                from += size;
            }
        }
        size /= 2;
    }
    Some(kept)
}
