//! The streams of `settled_test`: the table of settled examples.
//!
//! Its input has 113 bytes for each case, numbers with their lowest byte first:
//! the length of its name in two bytes and 3 for the name; its kind in one; the
//! length of its file in two and 92 for the file; three multipliers of four; a
//! feature in one. Training is lent the three multipliers, certifying and
//! classifying are given the first two, and the feature is the word to classify.
//! Writing is given the parameters in the file's header, and the items of its
//! records 1 and 2, the second one again and again; how many items there are
//! stands where the first multiplier does, how many places the output has where
//! the second does. Importing is given the parameters in the file's header, and as
//! text the bytes behind it, of which the first line is taken as often as the first
//! multiplier says; the second is the places of the output again.

use crate::{two_bytes, Streams};
use reference::settled::{table, Call, Case};

const NAME: usize = 3;
const FILE: usize = 92;

pub fn streams() -> Streams {
    let cases = table();
    println!("settled_test: {} cases", cases.len());
    let line = |case: &Case| format!("{} {}\n", case.name, case.result);
    Streams {
        stdin: cases.iter().flat_map(entry).collect(),
        stdout: cases.iter().map(line).collect(),
    }
}

fn entry(case: &Case) -> Vec<u8> {
    let (kind, multipliers, word) = match case.call {
        Call::Train => (0, [9, 9, 9], 0),
        Call::Certify([first, second]) => (1, [first, second, 0], 0),
        Call::Classify([first, second], word) => (2, [first, second, 0], word),
        Call::Write { items, places } => (3, [items as u32, places as u32, 0], 0),
        Call::Import { times, places } => (4, [times as u32, places as u32, 0], 0),
    };
    let mut entry = padded(case.name.as_bytes(), NAME);
    entry.push(kind);
    entry.extend(padded(&case.file, FILE));
    entry.extend(multipliers.iter().flat_map(|a: &u32| a.to_le_bytes()));
    entry.push(word as u8);
    entry
}

/// The length of a part, then its bytes and zeros.
fn padded(part: &[u8], places: usize) -> Vec<u8> {
    assert!(part.len() <= places, "a part is too long");
    let zeros = vec![0; places - part.len()];
    [&two_bytes(part.len())[..], part, &zeros].concat()
}
