//! This program in place of the probe and of the listing program, right or with a bug planted, so that the comparison
//! itself can be tried.

use crate::answer::answer;
use crate::bugs::{self, Planted};
use crate::call::Call;
use crate::listing::{Folder, MOST_LISTS};
use std::fs;
use std::io::{self, BufRead, Write};

/// Bugs of reading and writing lines, after those of the library.
pub const LINE_BUGS: &[&str] = &[
    "the line after a malformed one is lost",
    "a malformed line is answered twice",
    "capital digits are taken",
    "a line that begins with # is answered",
    "lines end with a carriage return too",
    "a call after one that was refused with 9 keeps that number",
    "the program breaks off at 40 boxes",
    "an empty buffer is written as nothing",
    "lines of 200,000 characters are too long",
    "the last line without its line feed is lost",
    "the rest of a line that is too long is answered as a line",
];

pub const LISTING_BUGS: &[&str] = &[
    "`more` after exactly 64 lists",
    "no line for the empty list",
    "refused 9 where there is no list",
    "8,192 bytes of a table are read",
    "`open` counts before the fill",
    "no line feed at the end",
    "nothing at all where a file is missing",
    "`more` with a number",
    "65 lists are written",
];

/// A probe with at most one bug, and what it remembers of the lines before.
struct Probe {
    bug: Option<Planted>,
    /// 0 is none.
    line_bug: usize,
    lose: bool,
    nine: bool,
}

impl Probe {
    /// The library's bugs are counted before those of lines.
    fn new(bug: usize) -> Probe {
        let bugs = bugs::all();
        let line_bug = bug.saturating_sub(bugs.len());
        Probe { bug: bugs.into_iter().nth(bug.wrapping_sub(1)), line_bug, lose: false, nine: false }
    }

    fn has(&self, line_bug: usize) -> bool {
        self.line_bug == line_bug
    }

    /// The line as the program takes it; None where it is passed over.
    fn taken(&self, mut line: Vec<u8>, whole: bool) -> Option<Vec<u8>> {
        if self.has(10) && !whole || line.is_empty() || line[0] == b'#' && !self.has(4) {
            return None;
        }
        if self.has(3) {
            line.make_ascii_lowercase();
        }
        if self.has(9) && line.len() == crate::call::LONGEST_LINE {
            line.extend(b"0000");
        }
        Some(line)
    }

    fn answer(&mut self, line: &[u8]) -> Option<String> {
        let call = match Call::parse(line) {
            Err(reason) => {
                self.lose = self.has(1);
                let twice = self.has(2) || self.has(11) && reason == "long";
                let times = if twice { 2 } else { 1 };
                return Some(vec![format!("error {reason}"); times].join("\n"));
            }
            Ok(call) => call,
        };
        if std::mem::take(&mut self.lose) {
            return None;
        }
        let wrong = self.bug.as_ref().and_then(|bug| bugs::wrong(bug, &call));
        let right = || answer(&call).map_or("too long".to_string(), |answer| answer.line(&call));
        Some(wrong.unwrap_or_else(right))
    }

    /// The answer as the program writes it.
    fn written(&mut self, mut text: String) -> String {
        if self.has(6) && self.nine {
            text = text.replacen("refused 7", "refused 9", 1);
        }
        self.nine = text.starts_with("refused 9");
        if self.has(5) {
            text.push('\r');
        }
        if self.has(8) {
            text = text.replace(" .", " ");
        }
        text
    }
}

/// Answers probe lines until the input ends. Bug 0 is none.
pub fn probe(bug: usize) -> io::Result<()> {
    let mut probe = Probe::new(bug);
    let mut out = io::BufWriter::new(io::stdout().lock());
    let mut input = io::stdin().lock();
    loop {
        let mut line = Vec::new();
        if input.read_until(b'\n', &mut line)? == 0 {
            return out.flush();
        }
        let whole = line.last() == Some(&b'\n');
        if whole {
            line.pop();
        }
        let Some(line) = probe.taken(line, whole) else { continue };
        if probe.has(7) && Call::parse(&line).is_ok_and(|call| call.boxes() == 40) {
            out.flush()?;
            std::process::abort();
        }
        if let Some(text) = probe.answer(&line) {
            writeln!(out, "{}", probe.written(text))?;
        }
    }
}

/// Writes the listing of the current folder. Bug 0 is none.
pub fn listing(bug: usize) -> io::Result<()> {
    let file = |name| fs::read(name).ok();
    let mut folder = Folder { maker: file("maker.tab"), depot: file("depot.tab"), sheet: file("order.sht") };
    if bug == 4 {
        for table in [&mut folder.maker, &mut folder.depot].into_iter().flatten() {
            table.truncate(8192);
        }
    }
    let mut text = folder.listing().unwrap_or_default();
    let full = format!("end {MOST_LISTS}\n");
    match bug {
        1 => text = text.replace(&full, "more\n"),
        2 => text = text.replace("\n\n", "\n"),
        3 if text.ends_with("\nend 0\n") => text = "refused 9 0\n".to_string(),
        5 => {
            let open = folder.sheet.iter().flatten().filter(|&&byte| byte == 2).count();
            if let Some((head, tail)) = text.clone().split_once('\n') {
                if let Some((start, _)) = head.rsplit_once(' ').filter(|_| head.starts_with('p')) {
                    text = format!("{start} {open}\n{tail}");
                }
            }
        }
        6 => text.truncate(text.len() - 1),
        7 if folder.files().iter().any(|(_, file)| file.is_none()) => text.clear(),
        8 => text = text.replace("more\n", "more 65\n"),
        9 => text = text.replace("more\n", "1\nmore\n"),
        _ => {}
    }
    io::stdout().write_all(text.as_bytes())
}
