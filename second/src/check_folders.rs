//! Compares the listing program: stored folders first, then random ones.

use crate::call::Call;
use crate::check::{outline, short, tell_stored, Check};
use crate::folders::{as_call, as_folder, folder, Listing};
use crate::listing::Folder;
use crate::{regress, shrink};
use std::collections::BTreeMap;

/// What a full run must have reached: how listings begin and end.
const REQUIRED: [&str; 12] = [
    "refused 1 0",
    "refused 2 0",
    "refused 2 1",
    "refused 2 2",
    "refused 3",
    "refused 4",
    "refused 7 0",
    "no boxes",
    "end 0",
    "end 1",
    "end 64",
    "more",
];

/// Runs of the listing program to make one folder smaller.
const MOST_RUNS: usize = 500;

/// A run of at least so many folders is a full one.
pub const FULL_RUN: u64 = 300;

impl Check {
    pub fn stored_folders(&mut self, listing: &Listing) {
        let cases = regress::listing_cases(&self.regress).unwrap_or_else(|wrong| {
            self.wrong(&wrong);
            Vec::new()
        });
        for (path, folder) in &cases {
            let due = folder.listing().unwrap_or_default();
            if let Some(got) = listing.difference(folder, &due) {
                self.wrong(&format!("{}: due {due:?}; got {got:?}", path.display()));
            }
        }
        println!("stored folders: {}", cases.len());
    }

    pub fn folders(&mut self, listing: &Listing, folders: u64) {
        let mut counts: BTreeMap<String, usize> = REQUIRED.map(|label| (label.to_string(), 0)).into();
        for number in 0..folders {
            let (folder, due) = folder(self.seed, number);
            *counts.entry(label(&due)).or_default() += 1;
            if let Some(got) = listing.difference(&folder, &due) {
                self.differences += 1;
                let kind = kind(&due, &got);
                if self.is_new(&kind) {
                    self.look_into_folder(listing, &folder, &kind);
                }
            }
        }
        let told: Vec<String> = counts.iter().map(|(label, count)| format!("[{label}] {count}")).collect();
        println!("random folders: {folders}\n  {}", told.join(" "));
        if folders >= FULL_RUN {
            for label in REQUIRED.iter().filter(|label| counts[**label] == 0) {
                self.differences += 1;
                println!("NOT REACHED listing {label}");
            }
        }
    }

    fn look_into_folder(&mut self, listing: &Listing, folder: &Folder, like: &str) {
        let differs = |call: &Call| {
            let smaller = as_folder(call, folder);
            let got = smaller.listing().and_then(|due| Some((listing.difference(&smaller, &due)?, due)));
            got.map_or(false, |(got, due)| kind(&due, &got) == like)
        };
        // each candidate is a run of its own, so there is a limit
        let mut runs = 0;
        let call = shrink::call(as_call(folder), |calls| {
            let tried = &calls[..calls.len().min(MOST_RUNS - runs)];
            let found = tried.iter().position(differs);
            runs += found.map_or(tried.len(), |i| i + 1);
            found
        });
        let smallest = as_folder(&call, folder);
        let due = smallest.listing().unwrap_or_default();
        let got = short(&listing.difference(&smallest, &due).unwrap_or_default());
        println!("DIFFERS listing of {}", short(&format!("{smallest:?}")));
        println!("  due: {}\n  got: {got}", short(&due));
        let remark = format!("seed {}; got: {got}", self.seed);
        tell_stored(regress::store_listing(&self.regress, &smallest, &remark));
    }
}

fn kind(due: &str, got: &str) -> String {
    format!("listing | {} | {}", outline(due), outline(got))
}

/// How a listing begins or ends, as far as it matters.
fn label(due: &str) -> String {
    let last = due.lines().last().unwrap_or_default();
    match last {
        _ if due.starts_with("refused 3") || due.starts_with("refused 4") => outline(due),
        _ if due.starts_with("positions 0 ") => "no boxes".to_string(),
        _ if REQUIRED.contains(&last) => last.to_string(),
        _ if due.starts_with("refused") => last.to_string(),
        _ => "other".to_string(),
    }
}
