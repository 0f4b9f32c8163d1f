//! Next numbers: every chain of a few records, chains of as many records as can
//! be, chains that break, and whole ones beside spare records that lead anywhere.

use super::draft::{Draft, LOOKED_UP};
use super::random::Random;
use super::with;
use crate::examples::{by_turns, full_chain};
use crate::file::{
    number, record_start, HEADER_BYTES, HIGHEST_CEILING, MOST_RECORDS, RECORD_BYTES,
};
use crate::settled::p1;

/// Where fields are, in the header and in a record.
const FIRST_RECORD: usize = 2;
const SPARE_OF_HEADER: usize = 6;
const SECOND_CEILING: usize = 28;
const LABEL: usize = 2;

/// The highest next number that two bytes can say.
pub const HIGHEST_NEXT: usize = u16::MAX as usize;

pub fn with_first(file: &[u8], record: usize) -> Vec<u8> {
    with(file, FIRST_RECORD, &(record as u16).to_le_bytes())
}

pub fn with_next(file: &[u8], record: usize, next: usize) -> Vec<u8> {
    with(file, record_start(record), &(next as u16).to_le_bytes())
}

pub fn with_label(file: &[u8], record: usize, label: u8) -> Vec<u8> {
    with(file, record_start(record) + LABEL, &[label])
}

/// The file with a spare byte of the header not 0, and with a second ceiling
/// beyond its range.
pub fn with_header_faults(file: &[u8]) -> [Vec<u8>; 2] {
    let beyond = HIGHEST_CEILING as u32 + 1;
    [
        with(file, SPARE_OF_HEADER, &[1]),
        with(file, SECOND_CEILING, &beyond.to_le_bytes()),
    ]
}

/// m as the header has it.
pub fn records(file: &[u8]) -> usize {
    number(file, 0, 2) as usize
}

/// The next number of a record.
pub fn next_of(file: &[u8], record: usize) -> usize {
    number(file, record_start(record), 2) as usize
}

/// The records that a walk meets before anything is wrong with it.
pub fn chain(file: &[u8]) -> Vec<usize> {
    let mut met = Vec::new();
    if file.len() < HEADER_BYTES {
        return met;
    }
    let stored = (file.len() - HEADER_BYTES) / RECORD_BYTES;
    let mut next = number(file, FIRST_RECORD, 2) as usize;
    while next != 0 && next <= stored && !met.contains(&next) {
        met.push(next);
        next = next_of(file, next);
    }
    met
}

/// Whether an accepted file is laid out as those that are written: "records 1 to n,
/// chained in that order, with no spares".
pub fn is_as_written(file: &[u8]) -> bool {
    chain(file).into_iter().eq(1..=records(file))
}

/// Every chain that so many records can have, broken ones too: the first record
/// and each next number are all numbers from 0 to one over m.
pub fn every_chain(records: usize) -> Vec<Vec<u8>> {
    let items = by_turns(records, |k| k as i8);
    let file = Draft { items, ..p1() }.plain();
    let numbers = || 0..=records + 1;
    let mut files: Vec<Vec<u8>> = numbers().map(|first| with_first(&file, first)).collect();
    for record in 1..=records {
        files = files
            .iter()
            .flat_map(|file| numbers().map(move |next| with_next(file, record, next)))
            .collect();
    }
    files
}

/// Every chain of two records beside another fault, in the header or in one of
/// the records, so that the order of the tests shows.
pub fn every_chain_beside_a_fault() -> Vec<Vec<u8>> {
    let with_faults = |file: &Vec<u8>| {
        let records = [1, 2].map(|record| with_label(file, record, 0));
        with_header_faults(file).into_iter().chain(records)
    };
    every_chain(2).iter().flat_map(with_faults).collect()
}

/// As many records as can be, chained in order, one of them leading elsewhere:
/// back, to itself, to the last, over m, or to the end.
pub fn full_chains() -> Vec<Vec<u8>> {
    let mut files = Vec::new();
    for record in [MOST_RECORDS, MOST_RECORDS - 1, 128, 2, 1] {
        let over = MOST_RECORDS + 1;
        for next in [0, 1, 128, record, MOST_RECORDS, over, HIGHEST_NEXT] {
            files.push(with_next(&full_chain(), record, next));
        }
    }
    files
}

/// An accepted file after a change to its chain that breaks most of them; half
/// have another fault, too, so that the order of the tests shows.
pub fn broken(file: &[u8], random: &mut Random) -> Vec<u8> {
    let chain = chain(file);
    let broken = broken_once(file, &chain, random);
    if random.chance(1, 2) {
        spoilt(&broken, &chain, random)
    } else {
        broken
    }
}

/// Makes a record of the chain, often its first or its last, lead to a record
/// met before, to itself, over m, to m, or to any record.
fn broken_once(file: &[u8], chain: &[usize], random: &mut Random) -> Vec<u8> {
    let m = records(file);
    let anywhere = random.below(chain.len() as u64) as usize;
    let place = random.pick(&[0, chain.len() - 1, anywhere]);
    let met = chain[random.below(place as u64 + 1) as usize];
    let over = m + 1 + random.below((HIGHEST_NEXT - m) as u64) as usize;
    let any = 1 + random.below(m as u64) as usize;
    let (first, own) = (chain[0], chain[place]);
    let next = random.pick(&[first, own, met, met, m + 1, over, HIGHEST_NEXT, m, any]);
    with_next(file, own, next)
}

/// Another fault: in the header, a label, one label alone, or a next number.
fn spoilt(file: &[u8], chain: &[usize], random: &mut Random) -> Vec<u8> {
    let looked_up = |file: Vec<u8>, &record| with_label(&file, record, LOOKED_UP);
    match random.below(4) {
        0 => with_header_faults(file)[random.below(2) as usize].clone(),
        1 => with_label(file, random.pick(chain), 0),
        2 => chain.iter().fold(file.to_vec(), looked_up),
        _ => broken_once(file, chain, random),
    }
}

/// An accepted file whose spare records lead over m, to themselves or into the
/// chain, or each to the following one and the last to the first.
pub fn with_relinked_spares(file: &[u8], random: &mut Random) -> Vec<u8> {
    let (m, chain) = (records(file), chain(file));
    let spares: Vec<usize> = (1..=m).filter(|record| !chain.contains(record)).collect();
    let in_a_cycle = random.chance(1, 3);
    let mut file = file.to_vec();
    for (k, &spare) in spares.iter().enumerate() {
        let chained = random.pick(&chain);
        let next = if in_a_cycle {
            spares[(k + 1) % spares.len()]
        } else {
            random.pick(&[spare, chained, m + 1, HIGHEST_NEXT])
        };
        file = with_next(&file, spare, next);
    }
    file
}
