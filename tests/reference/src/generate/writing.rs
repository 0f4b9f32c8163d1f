//! What a caller hands over to be written, right and wrong: parameters at both ends
//! of their ranges and beyond, up to 256 items and more, and outputs of lengths
//! around the file's. Two faults at once show which test comes first.

use super::draft::{any_feature, LOOKED_UP, NO_FEATURE, PASSED_OVER};
use super::random::Random;
use crate::file::{
    HEADER_BYTES, HIGHEST_BUDGET, HIGHEST_CEILING, HIGHEST_FEATURE, HIGHEST_TOLERANCE,
    LOWEST_FEATURE, MOST_RECORDS, MOST_UNITS, RECORD_BYTES, STORED_FEATURES,
};
use crate::write::{file_length, Numbers, Row, LABEL};
use std::fmt;

/// What a call of writing is handed over and lent.
pub struct Writing {
    pub numbers: Numbers,
    pub rows: Vec<Row>,
    /// The length of the output.
    pub places: usize,
}

/// Of too many rows, the first are shown.
impl fmt::Debug for Writing {
    fn fmt(&self, out: &mut fmt::Formatter) -> fmt::Result {
        let shown = &self.rows[..self.rows.len().min(MOST_RECORDS + 1)];
        let (numbers, places, items) = (&self.numbers, self.places, self.rows.len());
        write!(
            out,
            "{numbers:?}, output of {places} bytes, {items} items {shown:?}"
        )
    }
}

/// The refusals of writing, in the order of the tests.
const REFUSALS: [u8; 5] = [2, 1, 4, 5, 10];

/// More items than 16 bits can count, by two: a number cut to them would be small.
pub const MORE_THAN_16_BITS: usize = (1 << 16) + 2;

/// What a caller may hand over. A fault in one item is made after those in how many
/// items there are and in their labels, which could undo it.
pub fn handed_in(random: &mut Random) -> Writing {
    let faults = faults(random);
    let mut numbers = numbers(random);
    let mut rows = rows(random, numbers.used);
    if faults.contains(&5) {
        make_one_sided(&mut rows, random);
    }
    if faults.contains(&1) {
        make_too_many(&mut rows, random);
    }
    if faults.contains(&4) {
        spoil_one(&mut rows, numbers.used, random);
    }
    if faults.contains(&2) {
        numbers = one_beyond(numbers, random);
    }
    let places = if faults.contains(&10) {
        too_short(rows.len(), random)
    } else {
        long_enough(rows.len(), random)
    };
    Writing {
        numbers,
        rows,
        places,
    }
}

/// The refusals that have a cause: none, one, or two that are tested one after the
/// other.
fn faults(random: &mut Random) -> Vec<u8> {
    let first = random.below(4) as usize;
    match random.below(20) {
        0..=5 => Vec::new(),
        6..=10 => vec![2],
        11 => vec![1],
        12..=14 => vec![4],
        15 => vec![5],
        16 | 17 => vec![10],
        _ => REFUSALS[first..first + 2].to_vec(),
    }
}

/// Parameters in their ranges, each often at an end.
pub(super) fn numbers(random: &mut Random) -> Numbers {
    let lowest_second = random.below(2);
    let mut within = |lowest: u64, highest: u64| {
        let between = lowest + random.below(highest - lowest + 1);
        random.pick(&[lowest, highest, between])
    };
    Numbers {
        used: within(1, STORED_FEATURES as u64) as usize,
        kernel: within(0, 2) as u8,
        grid: within(1, MOST_UNITS) as u32,
        ceiling: within(1, HIGHEST_CEILING) as u32,
        second_ceiling: within(lowest_second, HIGHEST_CEILING) as u32,
        tolerance: within(0, HIGHEST_TOLERANCE),
        budget: within(0, HIGHEST_BUDGET) as u32,
    }
}

/// The parameters with one of them just beyond an end of its range, or as high as
/// its type allows; d also such that its lower bytes alone are allowed.
pub(super) fn one_beyond(numbers: Numbers, random: &mut Random) -> Numbers {
    let mut beyond = numbers;
    let d = numbers.used;
    let over = |highest: u64| highest as u32 + 1;
    match random.below(7) {
        0 => beyond.used = random.pick(&[0, 17, (1 << 8) + d, (1 << 32) + d, usize::MAX]),
        1 => beyond.kernel = random.pick(&[3, 1 << 7, u8::MAX]),
        2 => beyond.grid = random.pick(&[0, over(MOST_UNITS), u32::MAX]),
        3 => beyond.ceiling = random.pick(&[0, over(HIGHEST_CEILING), u32::MAX]),
        4 => beyond.second_ceiling = random.pick(&[over(HIGHEST_CEILING), u32::MAX]),
        5 => beyond.tolerance = random.pick(&[HIGHEST_TOLERANCE + 1, 1 << 63, u64::MAX]),
        _ => beyond.budget = random.pick(&[over(HIGHEST_BUDGET), u32::MAX]),
    }
    beyond
}

/// Items of both labels with so many features in use.
fn rows(random: &mut Random, used: usize) -> Vec<Row> {
    let count = match random.below(10) {
        0 => MOST_RECORDS - 1,
        1 => MOST_RECORDS,
        2..=7 => random.between(2, 9) as usize,
        _ => random.between(2, MOST_RECORDS as i64) as usize,
    };
    let labels = both_labels(count, random).into_iter();
    labels.map(|label| row(label, used, random)).collect()
}

/// So many labels, of which neither is missing.
pub fn both_labels(count: usize, random: &mut Random) -> Vec<u8> {
    let mut labels = vec![LOOKED_UP, PASSED_OVER];
    labels.resize_with(count, || random.pick(&[LOOKED_UP, PASSED_OVER]));
    random.shuffle(&mut labels);
    labels
}

fn row(label: u8, used: usize, random: &mut Random) -> Row {
    let mut row = [0; LABEL + 1];
    row[LABEL] = label as i8;
    for feature in &mut row[..used] {
        let any = any_feature(random);
        *feature = random.pick(&[LOWEST_FEATURE, HIGHEST_FEATURE, any, any]);
    }
    row
}

/// No items, one, or all of one label.
fn make_one_sided(rows: &mut Vec<Row>, random: &mut Random) {
    let label = random.pick(&[LOOKED_UP, PASSED_OVER]) as i8;
    match random.below(4) {
        0 => rows.clear(),
        1 => rows.truncate(1),
        _ => rows.iter_mut().for_each(|row| row[LABEL] = label),
    }
}

/// The same items again and again, until there are too many.
fn make_too_many(rows: &mut Vec<Row>, random: &mut Random) {
    let over = MOST_RECORDS + 1;
    let mut count = random.pick(&[over, over, over, over + 1, 2 * MOST_RECORDS]);
    if random.chance(1, 10) {
        count = MORE_THAN_16_BITS;
    }
    *rows = rows.iter().copied().cycle().take(count).collect();
}

/// A wrong label, a feature out of its range or one past d in one of the items, often
/// in the first or the last.
fn spoil_one(rows: &mut [Row], used: usize, random: &mut Random) {
    if rows.is_empty() {
        return;
    }
    let anywhere = random.below(rows.len() as u64) as usize;
    let place = random.pick(&[0, rows.len() - 1, anywhere]);
    let row = &mut rows[place];
    match random.below(4) {
        0 | 1 => row[LABEL] = wrong_label(random),
        2 if used < LABEL => {
            let feature = random.pick(&[1, -1, HIGHEST_FEATURE, NO_FEATURE]);
            row[random.pick(&[used, LABEL - 1])] = feature;
        }
        _ => row[random.below(used as u64) as usize] = NO_FEATURE,
    }
}

fn wrong_label(random: &mut Random) -> i8 {
    let any = random.between(3, 255) as u8 as i8;
    random.pick(&[0, 3, -1, i8::MIN, any])
}

/// An output as long as the file or longer. For too many items it is long enough for
/// one too many, or it would be as large as they are.
pub(super) fn long_enough(items: usize, random: &mut Random) -> usize {
    let length = file_length(items.min(MOST_RECORDS + 1));
    length + random.pick(&[0, 0, 1, RECORD_BYTES, 300])
}

pub(super) fn too_short(items: usize, random: &mut Random) -> usize {
    let length = file_length(items);
    let any = random.below(length as u64) as usize;
    let shorter = [0, HEADER_BYTES - 1, HEADER_BYTES, length - 1, any];
    random.pick(&shorter).min(length - 1)
}
