//! Damaged training files: every byte changed, every length, and each refusal
//! of the file provoked by each of its causes.

use super::chains::{chain, records, with_first, with_label, with_next};
use super::draft::{any_feature, Draft, LINEAR, LOOKED_UP, NO_FEATURE, PASSED_OVER};
use super::random::Random;
use super::spoilt::with_header_beyond;
use super::with;
use crate::file::{
    record_start, HEADER_BYTES, HIGHEST_FEATURE, LOWEST_FEATURE, MOST_RECORDS, RECORD_BYTES,
};
use crate::refusal::Refusal;

/// The file after one to three random damages. Two at once show which refusal
/// comes first.
pub fn damaged(file: &[u8], random: &mut Random) -> Vec<u8> {
    let mut damaged = file.to_vec();
    for _ in 0..random.pick(&[1, 1, 2, 3]) {
        damage_once(&mut damaged, random);
    }
    damaged
}

/// An accepted file after a change that leaves a label without an item: one label
/// for all, or a chain that ends with its first record, or that is empty.
pub fn one_sided(file: &[u8], random: &mut Random) -> Vec<u8> {
    let chain = chain(file);
    let label = random.pick(&[LOOKED_UP, PASSED_OVER]);
    let alike = |file: Vec<u8>, &record| with_label(&file, record, label);
    match random.below(4) {
        0 => with_first(file, 0),
        1 => with_next(file, chain[0], 0),
        _ => chain.iter().fold(file.to_vec(), alike),
    }
}

fn damage_once(file: &mut Vec<u8>, random: &mut Random) {
    match random.below(10) {
        0 => file.truncate(random.below(file.len() as u64 + 1) as usize),
        1 => {
            let more = random.pick(&[1, 19, 20, 21, 40]);
            file.extend(random.bytes(more));
        }
        2..=4 => *file = with_changed_header(file, random),
        5 => lead_anywhere(file, random),
        _ => *file = with_changed_record(file, random),
    }
}

/// The file with a byte of its header changed.
pub fn with_changed_header(file: &[u8], random: &mut Random) -> Vec<u8> {
    let byte = random.below(HEADER_BYTES as u64) as usize;
    changed(file, byte, random)
}

/// The file with a byte of a chained record changed, if there is one.
pub fn with_changed_record(file: &[u8], random: &mut Random) -> Vec<u8> {
    match chained_byte(file, random) {
        Some(byte) => changed(file, byte, random),
        None => file.to_vec(),
    }
}

/// One byte set to a neighbour of its value, to an end of its range, or to noise.
fn changed(file: &[u8], byte: usize, random: &mut Random) -> Vec<u8> {
    let choice = random.below(CHANGES as u64) as usize;
    let noise = random.draw() as u8;
    let mut changed = file.to_vec();
    if let Some(value) = changed.get_mut(byte) {
        *value = changes(*value, noise)[choice];
    }
    changed
}

const CHANGES: usize = 11;

fn changes(value: u8, noise: u8) -> [u8; CHANGES] {
    [
        value.wrapping_add(1),
        value.wrapping_sub(1),
        value ^ 0x80,
        0,
        1,
        2,
        255,
        HIGHEST_FEATURE as u8,
        LOWEST_FEATURE as u8,
        NO_FEATURE as u8,
        noise,
    ]
}

/// Makes a next number of the chain lead anywhere.
fn lead_anywhere(file: &mut Vec<u8>, random: &mut Random) {
    let chain = chain(file);
    if chain.is_empty() {
        return;
    }
    let record = random.pick(&chain);
    let over = records(file) + 1;
    let anywhere = random.below(over as u64 + 1) as usize;
    *file = with_next(file, record, random.pick(&[anywhere, over, record]));
}

fn chained_byte(file: &[u8], random: &mut Random) -> Option<usize> {
    let chain = chain(file);
    if chain.is_empty() {
        return None;
    }
    let record = random.pick(&chain);
    Some(record_start(record) + random.below(RECORD_BYTES as u64) as usize)
}

/// Every header byte and every chained byte changed in several ways, the file
/// cut at every length, and made longer.
pub fn every_damage(file: &[u8], random: &mut Random) -> Vec<Vec<u8>> {
    let mut files = vec![file.to_vec()];
    for byte in (0..HEADER_BYTES).chain(chained_bytes(file)) {
        files.extend(
            changes(file[byte], random.draw() as u8).map(|value| with(file, byte, &[value])),
        );
    }
    files.extend((0..file.len()).map(|length| file[..length].to_vec()));
    files.extend([1, 19, 20, 21, 40].map(|more| [file, &random.bytes(more)].concat()));
    files
}

fn chained_bytes(file: &[u8]) -> Vec<usize> {
    let bytes = |record: usize| record_start(record)..record_start(record + 1);
    chain(file).into_iter().flat_map(bytes).collect()
}

/// Each refusal of the file by each of its causes, as the papers have it.
pub fn causes(random: &mut Random) -> Vec<(Refusal, Vec<u8>)> {
    let base = Base::draw(random);
    let all = |number: u8, files: Vec<Vec<u8>>| {
        let refused = move |file| (Refusal::from(number), file);
        files.into_iter().map(refused)
    };
    let mut files: Vec<(Refusal, Vec<u8>)> = all(1, base.lengths(random)).collect();
    files.extend(all(2, base.headers()));
    files.extend(base.chains());
    files.extend(all(4, base.records()));
    files.extend(all(5, base.one_sided()));
    files
}

/// Four items of three features in records 4, 1, 6 and 3 of six.
struct Base {
    draft: Draft,
    spare: Vec<u8>,
    file: Vec<u8>,
}

const PLACES: [usize; 4] = [4, 1, 6, 3];

impl Base {
    fn draw(random: &mut Random) -> Base {
        let labels = [LOOKED_UP, PASSED_OVER, PASSED_OVER, LOOKED_UP];
        let mut features = || (0..3).map(|_| any_feature(random)).collect();
        let draft = Draft {
            features: 3,
            kernel: LINEAR,
            units: 1_000,
            ceiling: 50,
            tolerance: 0,
            budget: 20,
            second_ceiling: 70,
            items: labels.map(|label| (label, features())).to_vec(),
        };
        let spare = random.bytes(6 * RECORD_BYTES);
        let file = draft.stored(&PLACES, spare.clone());
        Base { draft, spare, file }
    }

    /// Refusal 1.
    fn lengths(&self, random: &mut Random) -> Vec<Vec<u8>> {
        let whole = self.file.len();
        let over = MOST_RECORDS + 1;
        let mut too_many = [&self.file[..], &random.bytes(RECORD_BYTES * (over - 6))].concat();
        too_many[..2].copy_from_slice(&(over as u16).to_le_bytes());
        vec![
            Vec::new(),
            self.file[..1].to_vec(),
            self.file[..HEADER_BYTES - 1].to_vec(),
            self.file[..HEADER_BYTES].to_vec(),
            self.file[..whole - 1].to_vec(),
            self.file[..whole - RECORD_BYTES].to_vec(),
            [&self.file[..], &[0]].concat(),
            [&self.file[..], &[0; RECORD_BYTES]].concat(),
            too_many,
            with(&self.file, 0, &[5, 0]),
            with(&self.file, 0, &[7, 0]),
            with(&self.file, 0, &[255, 255]),
        ]
    }

    /// Refusal 2.
    fn headers(&self) -> Vec<Vec<u8>> {
        with_header_beyond(&self.file)
    }

    /// Refusals 3 and 16: a next number over m or of a record already met, from
    /// each place of the chain.
    fn chains(&self) -> Vec<(Refusal, Vec<u8>)> {
        let mut files = Vec::new();
        for (position, &record) in PLACES.iter().enumerate() {
            let broken = |number: u8, next: usize| {
                let refusal = Refusal::with_record(number, record);
                (refusal, with_next(&self.file, record, next))
            };
            files.extend([7, 255, 256, 257, 65_535].map(|over| broken(3, over)));
            files.extend(PLACES[..=position].iter().map(|&met| broken(16, met)));
        }
        files
    }

    /// Refusal 4, from each place of the chain.
    fn records(&self) -> Vec<Vec<u8>> {
        let mut files = Vec::new();
        for start in PLACES.map(record_start) {
            let at = |byte: usize, value: u8| with(&self.file, start + byte, &[value]);
            files.extend([0, 3, 128, 255].map(|label| at(2, label)));
            files.extend([1, 128, 255].map(|third| at(3, third)));
            for used in 4..7 {
                files.push(at(used, NO_FEATURE as u8));
            }
            for past in 7..RECORD_BYTES {
                files.extend(
                    [1, -1, HIGHEST_FEATURE, NO_FEATURE].map(|feature| at(past, feature as u8)),
                );
            }
        }
        files
    }

    /// Refusal 5: no record, no chain, one item, or one label alone.
    fn one_sided(&self) -> Vec<Vec<u8>> {
        let mut files = vec![with(&self.file, 2, &[0, 0])];
        for label in [LOOKED_UP, PASSED_OVER] {
            let mut draft = self.draft.clone();
            draft.items.iter_mut().for_each(|item| item.0 = label);
            files.push(draft.stored(&PLACES, self.spare.clone()));
            draft.items.truncate(1);
            files.push(draft.plain());
            files.push(draft.stored(&PLACES[..1], self.spare.clone()));
            draft.items.clear();
            files.push(draft.plain());
        }
        files
    }
}
