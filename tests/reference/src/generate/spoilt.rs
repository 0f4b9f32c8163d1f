//! An accepted file, spoilt so that it draws a refusal of a file's own, wherever its
//! records are.

use super::chains::{chain, records, with_first, with_next, HIGHEST_NEXT};
use super::damage::one_sided;
use super::draft::NO_FEATURE;
use super::random::Random;
use super::with;
use crate::file::{record_start, HEADER_BYTES, MOST_RECORDS, RECORD_BYTES, STORED_FEATURES};

/// Refusal 2: the file with each field of its header beyond its range, and with each
/// spare byte not 0.
pub(super) fn with_header_beyond(file: &[u8]) -> Vec<Vec<u8>> {
    let at = |start: usize, bytes: &[u8]| with(file, start, bytes);
    let over = with_first(file, records(file) + 1);
    let mut files = vec![over, at(2, &[255, 255]), at(2, &[4, 1])];
    files.extend([0, 17, 255].map(|d| at(4, &[d])));
    files.extend([3, 255].map(|kernel| at(5, &[kernel])));
    files.extend([6, 7].map(|spare| at(spare, &[1])));
    files.extend([6, 7].map(|spare| at(spare, &[128])));
    files.extend([0, 1_048_577, u32::MAX].map(|units: u32| at(8, &units.to_le_bytes())));
    files.extend([0, 65_537, u32::MAX].map(|ceiling: u32| at(12, &ceiling.to_le_bytes())));
    files.extend([1_000_000_000_001, 1 << 63, u64::MAX].map(|t: u64| at(16, &t.to_le_bytes())));
    files.extend([1_000_001, u32::MAX].map(|budget: u32| at(24, &budget.to_le_bytes())));
    let seconds = [65_537, 65_792, 1 << 17, 1 << 24, 1 << 31, u32::MAX];
    files.extend(seconds.map(|second: u32| at(28, &second.to_le_bytes())));
    files
}

/// An accepted file after a change that draws this refusal, of those that a file can
/// draw.
pub fn refused_with(number: u8, file: &[u8], random: &mut Random) -> Vec<u8> {
    match number {
        1 => of_another_length(file, random),
        2 => {
            let mut files = with_header_beyond(file);
            files.swap_remove(random.below(files.len() as u64) as usize)
        }
        3 | 16 => broken_with(number, file, random),
        4 => with_spoilt_record(file, random),
        _ => one_sided(file, random),
    }
}

/// Refusal 1: cut, also within the header, made longer, or with another m.
fn of_another_length(file: &[u8], random: &mut Random) -> Vec<u8> {
    let (whole, m) = (file.len(), records(file));
    let within_header = random.below(HEADER_BYTES as u64) as usize;
    let other = |m: usize| with(file, 0, &(m as u16).to_le_bytes());
    match random.below(7) {
        0 => file[..within_header].to_vec(),
        1 => file[..random.pick(&[0, HEADER_BYTES - 1])].to_vec(),
        2 => file[..whole - random.pick(&[1, RECORD_BYTES])].to_vec(),
        3 => [file, &random.bytes(1)].concat(),
        4 => [file, &random.bytes(RECORD_BYTES)].concat(),
        5 => other(random.pick(&[m - 1, m + 1, usize::from(u16::MAX)])),
        _ => {
            let over = MOST_RECORDS + 1;
            let more = random.bytes(RECORD_BYTES * (over - m));
            [&other(over)[..], &more].concat()
        }
    }
}

/// Refusals 3 and 16, from any place of the chain.
fn broken_with(number: u8, file: &[u8], random: &mut Random) -> Vec<u8> {
    let (chain, m) = (chain(file), records(file));
    let place = random.below(chain.len() as u64) as usize;
    let next = match number {
        3 => random.pick(&[m + 1, MOST_RECORDS + 1, HIGHEST_NEXT]),
        _ => random.pick(&chain[..=place]),
    };
    with_next(file, chain[place], next)
}

/// Refusal 4, from any place of the chain.
fn with_spoilt_record(file: &[u8], random: &mut Random) -> Vec<u8> {
    let start = record_start(random.pick(&chain(file)));
    let used: usize = file[4].into();
    let at = |byte: usize, value: u8| with(file, start + byte, &[value]);
    match random.below(4) {
        0 => at(2, random.pick(&[0, 3, 255])),
        1 => at(3, random.pick(&[1, 255])),
        2 if used < STORED_FEATURES => at(4 + random.pick(&[used, STORED_FEATURES - 1]), 1),
        _ => at(4 + random.below(used as u64) as usize, NO_FEATURE as u8),
    }
}
