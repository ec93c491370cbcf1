//! The command line.

use crate::{check_folders, coverage};
use std::path::PathBuf;

const USAGE: &str = "second/run [--seed N] [--calls N] [--folders N] [--probe CMD] [--listing CMD] [--limit SECONDS]
           [--regress FOLDER]
second/run --one-rule | --bugs | --serve | --serve-bug N | --serve-listing | --serve-listing-bug N";

#[derive(Clone)]
pub struct Options {
    pub seed: u64,
    pub calls: u64,
    pub folders: u64,
    pub probe: String,
    pub listing: String,
    /// Seconds for a full run of the probe.
    pub limit: u64,
    pub regress: PathBuf,
}

pub enum Job {
    Compare(Options),
    OneRule,
    Bugs(Options),
    Serve(usize),
    ServeListing(usize),
}

pub fn read_arguments() -> Result<Job, String> {
    let mut options = Options {
        seed: 1,
        calls: coverage::FULL_RUN,
        folders: check_folders::FULL_RUN,
        probe: "tools/run crates/probe/out/probe".to_string(),
        listing: "tools/run crates/listing/out/listing".to_string(),
        limit: 300,
        regress: PathBuf::from("second/regress"),
    };
    let mut bugs = false;
    let mut arguments = std::env::args().skip(1);
    while let Some(name) = arguments.next() {
        let mut value = || arguments.next().ok_or(format!("{name} wants a value"));
        let number = |text: String| text.parse::<u64>().map_err(|_| format!("{text} is no number"));
        match name.as_str() {
            "--seed" => options.seed = number(value()?)?,
            "--calls" => options.calls = number(value()?)?,
            "--folders" => options.folders = number(value()?)?,
            "--limit" => options.limit = number(value()?)?,
            "--probe" => options.probe = value()?,
            "--listing" => options.listing = value()?,
            "--regress" => options.regress = PathBuf::from(value()?),
            "--one-rule" => return Ok(Job::OneRule),
            "--bugs" => bugs = true,
            "--serve" => return Ok(Job::Serve(0)),
            "--serve-bug" => return Ok(Job::Serve(number(value()?)? as usize)),
            "--serve-listing" => return Ok(Job::ServeListing(0)),
            "--serve-listing-bug" => return Ok(Job::ServeListing(number(value()?)? as usize)),
            _ => return Err(format!("{name} is no option\n{USAGE}")),
        }
    }
    Ok(if bugs { Job::Bugs(options) } else { Job::Compare(options) })
}
