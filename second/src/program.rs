//! Runs a program on bytes, in a folder, for a limited time.

use std::fs::{self, File};
use std::io;
use std::os::unix::process::ExitStatusExt;
use std::path::{Path, PathBuf};
use std::process::{Command, ExitStatus};
use std::time::{Duration, Instant};

pub struct Program {
    words: Vec<String>,
    /// Where its input and output are kept while it runs.
    work: PathBuf,
}

pub struct Outcome {
    pub output: Vec<u8>,
    /// How it ended, if not well.
    pub bad_end: Option<String>,
}

impl Program {
    /// A command's words are parted by spaces. Words that name files are made absolute: the program runs elsewhere.
    pub fn new(command: &str, work: &Path) -> Result<Program, String> {
        let here = std::env::current_dir().map_err(|error| error.to_string())?;
        let absolute = |word: &str| match here.join(word) {
            path if path.exists() => path.display().to_string(),
            _ => word.to_string(),
        };
        let words: Vec<String> = command.split_whitespace().map(absolute).collect();
        let missing = words.iter().find(|word| word.contains('/') && !Path::new(word).exists());
        match missing {
            Some(word) => Err(format!("{word} is not there (command: {command})")),
            None if words.is_empty() => Err("a command is empty".to_string()),
            None => Ok(Program { words, work: work.to_path_buf() }),
        }
    }

    pub fn run(&self, folder: &Path, input: &[u8], limit: Duration) -> io::Result<Outcome> {
        let [input_file, output_file, error_file] = ["input", "output", "errors"].map(|name| self.work.join(name));
        fs::write(&input_file, input)?;
        let mut child = Command::new(&self.words[0])
            .args(&self.words[1..])
            .current_dir(folder)
            .stdin(File::open(&input_file)?)
            .stdout(File::create(&output_file)?)
            .stderr(File::create(&error_file)?)
            .spawn()?;
        let started = Instant::now();
        let mut pause = Duration::from_micros(200);
        let bad_end = loop {
            if let Some(status) = child.try_wait()? {
                break bad_end(status);
            }
            if started.elapsed() > limit {
                child.kill()?;
                child.wait()?;
                break Some(format!("stopped after {} seconds", limit.as_secs()));
            }
            std::thread::sleep(pause);
            pause = (pause * 3 / 2).min(Duration::from_millis(20));
        };
        Ok(Outcome { output: fs::read(&output_file)?, bad_end })
    }

    /// The first words that it wrote to its standard error, for a report.
    pub fn complaint(&self) -> String {
        let errors = fs::read(self.work.join("errors")).unwrap_or_default();
        String::from_utf8_lossy(&errors).chars().take(300).collect()
    }
}

fn bad_end(status: ExitStatus) -> Option<String> {
    match (status.signal(), status.code()) {
        (Some(signal), _) => Some(format!("ended by signal {signal}")),
        (None, Some(0)) => None,
        (None, code) => Some(format!("ended with status {}", code.unwrap_or(-1))),
    }
}
