//! What the comparisons share: the count of differences, which of them are looked into, and how they are told.

use crate::stream::Item;
use std::io;
use std::path::PathBuf;

/// So many different ones are made small and stored; the rest are counted.
pub const MOST_STORED: usize = 6;

pub struct Check {
    pub seed: u64,
    /// Where stored cases are.
    pub regress: PathBuf,
    pub differences: usize,
    /// The kinds of difference seen, so that one bug is not stored a thousand times.
    kinds: Vec<String>,
}

impl Check {
    pub fn new(seed: u64, regress: PathBuf) -> Check {
        Check { seed, regress, differences: 0, kinds: Vec::new() }
    }

    pub fn wrong(&mut self, text: &str) {
        self.differences += 1;
        println!("DIFFERS {text}");
    }

    /// Takes note of a difference's kind; true if it is a new one and should be looked into.
    pub fn is_new(&mut self, kind: &str) -> bool {
        let new = self.kinds.len() < MOST_STORED && !self.kinds.iter().any(|seen| seen == kind);
        if new {
            self.kinds.push(kind.to_string());
        }
        new
    }
}

/// What kind of difference it is: the call, what was due and what came, without their bytes.
pub fn kind(item: &Item, got: &str, lost: bool) -> String {
    let word = item.line.split(|&c| c == b' ').next().unwrap_or_default();
    let got = if lost { "lost".to_string() } else { outline(got) };
    format!("{} | {} | {got}", word.escape_ascii(), outline(&item.answer_due()))
}

/// An answer's word, and its number if it is a refusal.
pub fn outline(answer: &str) -> String {
    let words = if answer.starts_with("refused") { 2 } else { 1 };
    answer.split_whitespace().take(words).collect::<Vec<_>>().join(" ")
}

pub fn tell(item: &Item) -> String {
    format!("{}; due: {}", short(&item.line.escape_ascii().to_string()), short(&item.answer_due()))
}

pub fn short(text: &str) -> String {
    let text = text.as_bytes().escape_ascii().to_string();
    if text.len() <= 400 {
        return text;
    }
    format!("{}.. ({} characters)", &text[..300], text.len())
}

pub fn tell_stored(stored: io::Result<PathBuf>) {
    match stored {
        Ok(path) => println!("  stored: {}", path.display()),
        Err(error) => println!("  not stored: {error}"),
    }
}
