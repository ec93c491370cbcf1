//! The independent second program. It does the specification's operations again, from its words alone and by brute
//! force, and compares the library's probe and listing program with that, answer by answer and byte by byte.
//!
//! It shares no code with the library. What the specification leaves open is read as docs/DECISIONS.md has it.

mod answer;
mod bent;
mod bugs;
mod call;
mod calls;
mod chains;
mod check;
mod check_calls;
mod check_folders;
mod closure;
mod coverage;
mod damage;
mod damage_tables;
mod draw;
mod field;
mod folders;
mod form;
mod kit;
mod listing;
mod lists;
mod malformed;
mod operation;
mod operations;
mod options;
mod paper;
mod probe;
mod program;
mod record;
mod regress;
mod rng;
mod rules;
mod samples;
mod search;
mod serve;
mod shrink;
mod shrink_lines;
mod small;
mod stream;

use check::Check;
use coverage::FULL_RUN;
use folders::Listing;
use options::{read_arguments, Job, Options};
use probe::Probe;
use program::Program;
use serve::{LINE_BUGS, LISTING_BUGS};
use std::fs;
use std::path::{Path, PathBuf};
use std::process::ExitCode;
use std::time::{Duration, Instant};

fn main() -> ExitCode {
    let done = match read_arguments() {
        Ok(Job::Compare(options)) => in_work_folder(|work| compare(&options, work)),
        Ok(Job::Bugs(options)) => in_work_folder(|work| try_bugs(&options, work)),
        Ok(Job::OneRule) => {
            closure::one_rule_table().iter().for_each(|entry| println!("{entry}"));
            Ok(true)
        }
        Ok(Job::Serve(bug)) => serve::probe(bug).map(|()| true).map_err(|e| e.to_string()),
        Ok(Job::ServeListing(bug)) => serve::listing(bug).map(|()| true).map_err(|e| e.to_string()),
        Err(wrong) => Err(wrong),
    };
    match done {
        Ok(true) => ExitCode::SUCCESS,
        Ok(false) => ExitCode::FAILURE,
        Err(wrong) => {
            eprintln!("second: {wrong}");
            ExitCode::from(2)
        }
    }
}

/// A folder of this run's own, taken away at its end however it ends.
struct WorkFolder(PathBuf);

impl Drop for WorkFolder {
    fn drop(&mut self) {
        if let Err(error) = fs::remove_dir_all(&self.0) {
            eprintln!("second: {}: {error}", self.0.display());
        }
    }
}

fn in_work_folder(job: impl FnOnce(&Path) -> Result<bool, String>) -> Result<bool, String> {
    let here = std::env::current_dir().map_err(|error| error.to_string())?;
    let path = here.join(format!("target/second/work-{}", std::process::id()));
    fs::create_dir_all(&path).map_err(|error| format!("{}: {error}", path.display()))?;
    job(&WorkFolder(path).0)
}

fn probe(options: &Options, work: &Path) -> Result<Probe, String> {
    let program = Program::new(&options.probe, work)?;
    Ok(Probe { program, folder: work.to_path_buf(), limit: Duration::from_secs(options.limit) })
}

fn listing(options: &Options, work: &Path) -> Result<Listing, String> {
    let program = Program::new(&options.listing, work)?;
    Ok(Listing { program, folder: work.join("folder"), limit: Duration::from_secs(options.limit.min(20)) })
}

/// True if nothing differs.
fn compare(options: &Options, work: &Path) -> Result<bool, String> {
    let started = Instant::now();
    let mut check = Check::new(options.seed, options.regress.clone());
    println!("seed {}", options.seed);

    let mut wrong = paper::check();
    wrong.extend(samples::check_one_rule_table());
    wrong.iter().for_each(|text| check.wrong(text));
    println!("rules: the specification's, Table 1 of 000, Definition 2.1 of 000 and the algorithm of 002 compared");

    // no calls, or no folders, leaves that program alone
    if options.calls > 0 {
        let probe = probe(options, work)?;
        check.stored_calls(&probe);
        check.empty_inputs(&probe);
        let coverage = check.calls(&probe, options.calls);
        coverage.print();
        for text in coverage.wrong(options.calls >= FULL_RUN) {
            check.differences += 1;
            println!("{text}");
        }
    }
    if options.folders > 0 {
        let listing = listing(options, work)?;
        check.stored_folders(&listing);
        check.folders(&listing, options.folders);
    }
    println!(
        "second: {} differences; seed {}, {} calls, {} folders, {} seconds",
        check.differences,
        options.seed,
        options.calls,
        options.folders,
        started.elapsed().as_secs()
    );
    Ok(check.differences == 0)
}

/// Compares this program with itself, right and with each bug planted. True if only the bugs are found, and all.
fn try_bugs(options: &Options, work: &Path) -> Result<bool, String> {
    let me = std::env::current_exe().map_err(|error| error.to_string())?.display().to_string();
    let names = bugs::all().into_iter().map(|(_, (name, _))| name).chain(LINE_BUGS.iter().copied());
    let mut missed = 0;
    let mut judge = |name: &str, differences: usize, due: bool| {
        let right = (differences > 0) == due;
        missed += !right as usize;
        println!("{} {name}: {differences} differences\n", if right { "ok" } else { "MISSED" });
    };
    for (bug, name) in std::iter::once("no bug").chain(names).enumerate() {
        println!("bug {bug}: {name}");
        let options = Options { probe: format!("{me} --serve-bug {bug}"), ..options.clone() };
        let mut check = Check::new(options.seed, work.join("stored"));
        check.calls(&probe(&options, work)?, options.calls);
        judge(name, check.differences, bug > 0);
    }
    for (bug, name) in std::iter::once(&"no bug").chain(LISTING_BUGS).enumerate() {
        println!("listing bug {bug}: {name}");
        let options = Options { listing: format!("{me} --serve-listing-bug {bug}"), ..options.clone() };
        let mut check = Check::new(options.seed, work.join("stored"));
        check.folders(&listing(&options, work)?, options.folders);
        judge(name, check.differences, bug > 0);
    }
    println!("second: {missed} bugs missed");
    Ok(missed == 0)
}
