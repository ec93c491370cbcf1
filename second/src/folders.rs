//! Folders for the listing program: random kits as files, some missing, some too long.

use crate::call::Call;
use crate::chains::stairs_of;
use crate::damage::damage_of_files;
use crate::draw::by_fields;
use crate::field::{DEPOT, MAKER, SHEET};
use crate::kit::{kit, sound_record, Kit};
use crate::listing::{Folder, MOST_OF_A_SHEET, MOST_OF_A_TABLE};
use crate::operations::FILL;
use crate::program::{Outcome, Program};
use crate::rng::Rng;
use std::fs;
use std::io;
use std::path::{Path, PathBuf};
use std::time::Duration;

/// The folder of this number, with the listing that is due.
pub fn folder(seed: u64, number: u64) -> (Folder, String) {
    let mut rng = Rng::new(seed.rotate_left(32), number);
    loop {
        let folder = any(&mut rng, number as usize);
        if let Some(listing) = folder.listing() {
            return (folder, listing);
        }
    }
}

/// In turn: a number of lists at the limit, files at the limit, a damage, whatever comes.
fn any(rng: &mut Rng, number: usize) -> Folder {
    let turn = number / 20;
    let kit = match number % 20 {
        0 => lists_at_the_limit(rng, turn),
        _ => kit(rng),
    };
    let mut call = by_fields(rng, &FILL, &kit);
    match number % 20 {
        1..=3 => lengthen(rng, &mut call),
        4..=6 => damage_of_files(rng, &mut call, 3 * turn + number % 20),
        7 => call = Call::new(&FILL),
        _ => {}
    }
    let mut file = |field| {
        let missing = rng.chance(if call[field].is_empty() { 50 } else { 4 });
        (!missing).then(|| call[field].clone())
    };
    Folder { maker: file(MAKER), depot: file(DEPOT), sheet: file(SHEET) }
}

/// 63, 64 or 65 lists, or 64 or 128 by boxes that no rule names.
fn lists_at_the_limit(rng: &mut Rng, turn: usize) -> Kit {
    match turn % 5 {
        0 => stairs_of(rng, 63),
        1 => stairs_of(rng, 64),
        2 => stairs_of(rng, 62),
        spare => {
            let sheet = vec![2; spare + 3];
            Kit { records: Vec::new(), sheet, fitting: None }
        }
    }
}

/// Files at and beyond what is read of them. Of a table 8,200 bytes are whole records, so a longer one is cut to whole
/// records, whatever its length.
fn lengthen(rng: &mut Rng, call: &mut Call) {
    if rng.chance(30) {
        let length = rng.pick(&[255, 256, MOST_OF_A_SHEET, MOST_OF_A_SHEET + 1, 300, 5000]);
        call[SHEET].resize(length, 2);
    }
    let n = call.boxes();
    for table in [MAKER, DEPOT] {
        let table = &mut call[table];
        if rng.chance(60) {
            let over = [8192, 8193, 8199, MOST_OF_A_TABLE, MOST_OF_A_TABLE + 1, 8208, 9000, 20000];
            let length = rng.pick(&over);
            let filler = if n < 2 { [1; 8] } else { sound_record(rng, n) };
            while table.len() < length {
                table.extend(filler);
            }
            table.truncate(length);
        } else if rng.chance(30) {
            table.clear();
        }
    }
}

pub struct Listing {
    pub program: Program,
    /// The folder that it is run in, made anew each time.
    pub folder: PathBuf,
    pub limit: Duration,
}

impl Listing {
    /// None if it writes what is due, else what it did.
    pub fn difference(&self, folder: &Folder, due: &str) -> Option<String> {
        match self.run(folder) {
            Ok(outcome) if outcome.output == due.as_bytes() && outcome.bad_end.is_none() => None,
            Ok(outcome) => {
                let end = outcome.bad_end.map_or(String::new(), |end| format!(" ({end})"));
                Some(format!("{}{end}", String::from_utf8_lossy(&outcome.output)))
            }
            Err(error) => Some(format!("(the program can't be run: {error})")),
        }
    }

    fn run(&self, folder: &Folder) -> io::Result<Outcome> {
        clear(&self.folder)?;
        for (name, file) in folder.files() {
            if let Some(bytes) = file {
                fs::write(self.folder.join(name), bytes)?;
            }
        }
        self.program.run(&self.folder, b"", self.limit)
    }
}

fn clear(folder: &Path) -> io::Result<()> {
    if folder.exists() {
        fs::remove_dir_all(folder)?;
    }
    fs::create_dir_all(folder)
}

/// A folder as a call, so that it can be made smaller as one; a missing file stays missing.
pub fn as_call(folder: &Folder) -> Call {
    let mut call = Call::new(&FILL);
    for (field, file) in [(MAKER, &folder.maker), (DEPOT, &folder.depot), (SHEET, &folder.sheet)] {
        call[field] = file.clone().unwrap_or_default();
    }
    call
}

pub fn as_folder(call: &Call, like: &Folder) -> Folder {
    let file = |bytes: &Vec<u8>, like: &Option<Vec<u8>>| {
        let empty = bytes.is_empty() && like.is_none();
        (!empty).then(|| bytes.clone())
    };
    Folder {
        maker: file(&call[MAKER], &like.maker),
        depot: file(&call[DEPOT], &like.depot),
        sheet: file(&call[SHEET], &like.sheet),
    }
}
