//! Lines that are no call, and lines that are to be passed over.

use crate::call::{hex, Call, LONGEST_LINE};
use crate::field::Field;
use crate::operations::{FILL, TEST};
use crate::rng::Rng;

/// A line that is no call, made out of a good one, and the reason. Without its line feed.
pub fn malformed(rng: &mut Rng, good: &Call) -> (Vec<u8>, &'static str) {
    loop {
        let line = spoil(rng, good);
        if line.is_empty() || line[0] == b'#' {
            continue;
        }
        if let Err(reason) = Call::parse(&line) {
            return (line, reason);
        }
    }
}

const WRONG_WORDS: [&str; 10] = ["fil", "fills", "Fill", "TEST", "shown", "quit", "error", "0", "-", "\u{e9}"];

fn spoil(rng: &mut Rng, good: &Call) -> Vec<u8> {
    let mut line = good.line().into_bytes();
    let word = good.op.word.len();
    match rng.below(18) {
        // unknown words
        0 => drop(line.splice(..word, rng.pick(&WRONG_WORDS).bytes())),
        1 => line[rng.below(word)] ^= rng.pick(&[1, 32, 128]),
        2 => return rng.pick(&[" ", ".", "fill", "next ", "show . .", "fill . . .", "\r", "\t", "\0"]).into(),
        // too few fields, too many
        3 => line.truncate(line.iter().rposition(|&c| c == b' ').unwrap_or(word)),
        4 => line.extend(rng.pick(&[" .", " 00", " fits", " 0 0"]).bytes()),
        // spaces where none belong, and what is no space
        5 => line.insert(rng.below(line.len() + 1), b' '),
        6 => line.push(b' '),
        7 => line.insert(0, rng.pick(b" \t.")),
        8 => {
            let space = line.iter().position(|&c| c == b' ').unwrap_or(word);
            line[space] = rng.pick(b"\t\0,_");
        }
        9 => line.extend(rng.pick(&["\r", "\0", "\t", ";", "."]).bytes()),
        // odd and wrong digits
        10 => {
            line.remove(rng.between(word + 1, line.len() - 1));
        }
        11 => line.insert(rng.between(word + 1, line.len()), rng.pick(b"0f")),
        12 | 13 => {
            let at = rng.between(word + 1, line.len() - 1);
            line[at] = rng.pick(b"ABCDEFGgxz/:@`-+.# \xff\x80\0");
        }
        14 => line = line.to_ascii_uppercase(),
        // bytes too few or too many for a number; where the operation has none, this is a good line still
        15 | 16 => line = other_pieces(rng, good),
        // too long, by one character or by many; or cut anywhere
        _ if rng.chance(30) => {
            let over = rng.pick(&[1, 2, 3, 1000, 100_000, 700_000]);
            return long_line(rng, LONGEST_LINE + over);
        }
        _ => line.truncate(rng.below(line.len())),
    }
    line
}

/// One field longer or shorter.
fn other_pieces(rng: &mut Rng, good: &Call) -> Vec<u8> {
    let whole: Vec<&Field> = good.op.fields.iter().filter(|field| field.whole).collect();
    let mut other = good.clone();
    if !whole.is_empty() {
        let bytes = &mut other[*rng.pick(&whole)];
        let length = if rng.chance(50) { bytes.len() + rng.between(1, 5) } else { rng.below(bytes.len() + 1) };
        bytes.resize(length, 0);
    }
    other.line().into_bytes()
}

/// A call of this many characters, if it is allowed to be so long. Needs some hundreds of characters.
pub fn long_line(rng: &mut Rng, characters: usize) -> Vec<u8> {
    // "fill" and "test" with their spaces leave an even or an odd number of characters for the bytes
    let op = if characters % 2 == 0 { &FILL } else { &TEST };
    let fields = op.fields.len();
    let total = (characters - op.word.len() - fields) / 2;
    let mut line = op.word.to_string();
    let large = rng.below(fields);
    for field in 0..fields {
        let bytes = if field == large { total - 8 * (fields - 1) } else { 8 };
        line.push(' ');
        line.push_str(&hex(&vec![rng.pick(&[0, 1, 2, 0xee]); bytes]));
    }
    assert_eq!(line.len(), characters);
    line.into_bytes()
}

/// A line that is passed over without an answer.
pub fn passed_over(rng: &mut Rng, good: &Call) -> Vec<u8> {
    match rng.below(5) {
        0 => Vec::new(),
        1 => b"#".to_vec(),
        2 if rng.chance(30) => vec![b'#'; LONGEST_LINE + rng.pick(&[0, 1, 500_000])],
        2 => format!("# {}", rng.next()).into_bytes(),
        _ => format!("#{}", good.line()).into_bytes(),
    }
}
