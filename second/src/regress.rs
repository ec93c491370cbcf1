//! Stored cases: what once differed, made small, and the specification's own samples. They are run before anything else.
//!
//! `NAME.probe` is sent to the probe as it stands; a line `#= ANSWER` gives the answer that is due to the next line.
//! `NAME.listing` has a line for each file, its bytes or `missing`, then the listing, each line after `= `.

use crate::answer::answer;
use crate::call::{hex, unhex, Call};
use crate::listing::Folder;
use crate::stream::{Due, Item};
use std::fs;
use std::io;
use std::path::{Path, PathBuf};

fn files(folder: &Path, ending: &str) -> Vec<PathBuf> {
    let entries = fs::read_dir(folder).into_iter().flatten().flatten();
    let mut files: Vec<PathBuf> = entries.map(|entry| entry.path()).collect();
    files.retain(|path| path.extension().map_or(false, |e| e == ending));
    files.sort();
    files
}

/// All stored runs of the probe. What is wrong with a file is said in words.
pub fn probe_cases(folder: &Path) -> Result<Vec<(PathBuf, Vec<Item>)>, String> {
    let mut cases = Vec::new();
    for path in files(folder, "probe") {
        let items = read_items(&path).map_err(|wrong| format!("{}: {wrong}", path.display()))?;
        cases.push((path, items));
    }
    Ok(cases)
}

fn read_items(path: &Path) -> Result<Vec<Item>, String> {
    let bytes = fs::read(path).map_err(|error| error.to_string())?;
    let text = bytes.strip_suffix(b"\n").unwrap_or(&bytes);
    let mut items = Vec::new();
    let mut due = None;
    for line in text.split(|&byte| byte == b'\n') {
        if let Some(answer) = line.strip_prefix(b"#= ") {
            due = Some(String::from_utf8_lossy(answer).into_owned());
        }
        let item = item(line)?;
        if item.due != Due::Nothing {
            check(&item, &due.take().ok_or("a line has no answer")?)?;
        }
        items.push(item);
    }
    Ok(items)
}

fn item(line: &[u8]) -> Result<Item, String> {
    let passed_over = line.is_empty() || line[0] == b'#';
    let due = match Call::parse(line) {
        _ if passed_over => Due::Nothing,
        Err(reason) => Due::Error(reason),
        Ok(call) => Due::Answer(answer(&call).ok_or("a stored call takes too long")?.line(&call)),
    };
    Ok(Item { line: line.to_vec(), due })
}

/// A stored answer must be this program's own.
fn check(item: &Item, stored: &str) -> Result<(), String> {
    let ours = item.answer_due();
    if stored == ours {
        Ok(())
    } else {
        let line = String::from_utf8_lossy(&item.line);
        Err(format!("stored is {stored}, computed {ours}, for {line}"))
    }
}

pub fn store_probe(folder: &Path, items: &[Item], remark: &str) -> io::Result<PathBuf> {
    let mut bytes = format!("# {remark}\n").into_bytes();
    for item in items {
        if item.due != Due::Nothing {
            bytes.extend(format!("#= {}\n", item.answer_due()).bytes());
        }
        bytes.extend(&item.line);
        bytes.push(b'\n');
    }
    let last = items.last().map_or(&[][..], |item| &item.line);
    let word = Call::parse(last).map_or("line", |call| call.op.word);
    store(folder, &format!("{word}-{:08x}.probe", digest(last)), &bytes)
}

pub fn listing_cases(folder: &Path) -> Result<Vec<(PathBuf, Folder)>, String> {
    let mut cases = Vec::new();
    for path in files(folder, "listing") {
        let case = read_folder(&path).map_err(|wrong| format!("{}: {wrong}", path.display()))?;
        cases.push((path, case));
    }
    Ok(cases)
}

fn read_folder(path: &Path) -> Result<Folder, String> {
    let text = fs::read_to_string(path).map_err(|error| error.to_string())?;
    let mut stored = String::new();
    let [mut maker, mut depot, mut sheet] = [None, None, None];
    for line in text.lines().filter(|line| !line.starts_with('#')) {
        match line.split_once(' ').ok_or("a line has no field")? {
            ("=", rest) => stored.push_str(&format!("{rest}\n")),
            ("maker", "missing") | ("depot", "missing") | ("sheet", "missing") => {}
            (name, field) => {
                let bytes = Some(unhex(field.as_bytes()).ok_or("a file's bytes are no bytes")?);
                match name {
                    "maker" => maker = bytes,
                    "depot" => depot = bytes,
                    "sheet" => sheet = bytes,
                    _ => return Err(format!("no such file: {name}")),
                }
            }
        }
    }
    let folder = Folder { maker, depot, sheet };
    match folder.listing() {
        Some(ours) if ours == stored => Ok(folder),
        ours => Err(format!("stored is {stored:?}, computed {ours:?}")),
    }
}

pub fn store_listing(folder: &Path, case: &Folder, remark: &str) -> io::Result<PathBuf> {
    let mut text = format!("# {remark}\n");
    for (name, file) in ["maker", "depot", "sheet"].iter().zip(case.files()) {
        let bytes = file.1.as_ref().map_or("missing".to_string(), |bytes| hex(bytes));
        text.push_str(&format!("{name} {bytes}\n"));
    }
    let files = text.clone();
    for line in case.listing().unwrap_or_default().lines() {
        text.push_str(&format!("= {line}\n"));
    }
    store(folder, &format!("listing-{:08x}.listing", digest(files.as_bytes())), text.as_bytes())
}

fn store(folder: &Path, name: &str, bytes: &[u8]) -> io::Result<PathBuf> {
    fs::create_dir_all(folder)?;
    let path = folder.join(name);
    fs::write(&path, bytes)?;
    Ok(path)
}

/// FNV-1a: a short name for a case.
fn digest(bytes: &[u8]) -> u32 {
    bytes.iter().fold(0x811c_9dc5, |h, &byte| (h ^ byte as u32).wrapping_mul(0x0100_0193))
}
