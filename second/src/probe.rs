//! Runs the probe over lines and tells which answers differ.

use crate::coverage::FULL_RUN;
use crate::program::{Outcome, Program};
use crate::stream::{input, Due, Item};
use std::io;
use std::path::PathBuf;
use std::time::Duration;

pub struct Probe {
    pub program: Program,
    pub folder: PathBuf,
    /// For a full run; shorter ones get less.
    pub limit: Duration,
}

#[derive(Clone, Debug)]
pub struct Difference {
    /// The item's number in the run.
    pub at: usize,
    pub got: String,
}

pub struct Report {
    pub differences: Vec<Difference>,
    /// Why answers and lines can't be matched one by one. Then only the first difference is there, and the item that
    /// causes it may be another one.
    pub lost: Option<String>,
}

impl Probe {
    pub fn send(&self, input: &[u8], lines: usize) -> io::Result<Outcome> {
        let share = self.limit.mul_f64(lines as f64 / FULL_RUN as f64);
        let limit = self.limit.min(share + Duration::from_secs(20));
        self.program.run(&self.folder, input, limit)
    }

    pub fn run(&self, items: &[Item]) -> Report {
        match self.send(&input(items), items.len()) {
            Ok(outcome) => compare(items, &outcome),
            Err(error) => {
                let wrong = format!("(the program can't be run: {error})");
                let differences = vec![Difference { at: 0, got: wrong.clone() }];
                Report { differences, lost: Some(wrong) }
            }
        }
    }

    pub fn differs(&self, items: &[Item]) -> bool {
        !self.run(items).differences.is_empty()
    }
}

fn compare(items: &[Item], outcome: &Outcome) -> Report {
    let mut answers: Vec<&[u8]> = outcome.output.split(|&byte| byte == b'\n').collect();
    // what follows the last line feed is no line
    let rest = answers.pop().unwrap_or_default();
    let due: Vec<usize> = (0..items.len()).filter(|&i| items[i].due != Due::Nothing).collect();

    let pairs = due.iter().zip(&answers);
    let wrong = pairs.filter(|(&i, answer)| !items[i].is_answered_by(answer));
    let mut differences: Vec<Difference> =
        wrong.map(|(&at, answer)| Difference { at, got: String::from_utf8_lossy(answer).into_owned() }).collect();

    if answers.len() == due.len() && rest.is_empty() && outcome.bad_end.is_none() {
        return Report { differences, lost: None };
    }
    let count = format!("{} answers to {} lines", answers.len(), due.len());
    let end = outcome.bad_end.as_deref().unwrap_or("ended well");
    let rest = if rest.is_empty() { String::new() } else { format!(", then {}", rest.escape_ascii()) };
    let lost = format!("({count}{rest}; the program {end})");
    if differences.is_empty() {
        let at = due.get(answers.len()).copied().unwrap_or(items.len() - 1);
        differences.push(Difference { at, got: lost.clone() });
    }
    differences.truncate(1);
    Report { differences, lost: Some(lost) }
}
