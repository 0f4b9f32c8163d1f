//! What a caller hands over to be imported, right and wrong, drawn at random. Two
//! faults at once show which test comes first.

use super::random::Random;
use super::texts::{any_byte, any_line, changed, joined, misformed, outside, Fields};
use super::writing::{
    both_labels, long_enough, numbers, one_beyond, too_short, MORE_THAN_16_BITS,
};
use crate::file::MOST_RECORDS;
use crate::import::pieces;
use crate::write::Numbers;
use std::fmt;

/// What a call of importing is handed over and lent.
#[derive(Clone)]
pub struct Importing {
    pub numbers: Numbers,
    pub text: Vec<u8>,
    /// The length of the output.
    pub places: usize,
}

/// Of a long text, both ends are shown.
impl fmt::Debug for Importing {
    fn fmt(&self, out: &mut fmt::Formatter) -> fmt::Result {
        const SHOWN: usize = 10_000;
        let (numbers, places, bytes) = (&self.numbers, self.places, self.text.len());
        let first = self.text[..bytes.min(SHOWN)].escape_ascii();
        let last = self.text[bytes.saturating_sub(SHOWN).max(bytes.min(SHOWN))..].escape_ascii();
        write!(
            out,
            "{numbers:?}, output of {places} bytes, text of {bytes} bytes \"{first}\" .. \"{last}\""
        )
    }
}

/// The refusals of importing, in the order of the tests.
pub const REFUSALS: [u8; 6] = [2, 11, 12, 4, 5, 10];

/// What a caller may hand over. A fault in one line is made after those in how many
/// lines there are and in their labels, which could undo it.
pub fn handed_in(random: &mut Random) -> Importing {
    let faults = faults(random);
    let numbers = numbers(random);
    let mut lines = lines(random, numbers.used);
    if faults.contains(&5) {
        make_one_sided(&mut lines, random);
    }
    if faults.contains(&12) {
        make_too_many(&mut lines, random);
    }
    if faults.contains(&4) {
        spoil_values(&mut lines, numbers.used, random);
    }
    let mut lines: Vec<Vec<u8>> = lines.iter().map(|fields| joined(fields)).collect();
    if faults.contains(&11) {
        spoil_form(&mut lines, numbers.used, random);
    }
    let text = lines.concat();
    Importing {
        numbers: if faults.contains(&2) {
            one_beyond(numbers, random)
        } else {
            numbers
        },
        places: if faults.contains(&10) {
            too_short(pieces(&text).count(), random)
        } else {
            long_enough(pieces(&text).count(), random)
        },
        text,
    }
}

/// The refusals that have a cause: none, one, or two.
fn faults(random: &mut Random) -> Vec<u8> {
    let mut any = REFUSALS;
    random.shuffle(&mut any);
    match random.below(20) {
        0..=2 => Vec::new(),
        3 => vec![2],
        4..=11 => vec![11],
        12 => vec![12],
        13 | 14 => vec![4],
        15 => vec![5],
        16 => vec![10],
        _ => any[..2].to_vec(),
    }
}

/// Lines of both labels with so many features in use.
fn lines(random: &mut Random, used: usize) -> Vec<Fields> {
    let count = match random.below(20) {
        0 => MOST_RECORDS - 1,
        1 => MOST_RECORDS,
        2..=17 => random.between(2, 5) as usize,
        _ => random.between(2, MOST_RECORDS as i64) as usize,
    };
    let labels = both_labels(count, random).into_iter();
    labels.map(|label| any_line(label, used, random)).collect()
}

/// No lines, one, or all of one label.
fn make_one_sided(lines: &mut Vec<Fields>, random: &mut Random) {
    let label = random.pick(&["+1", "-1"]);
    match random.below(4) {
        0 => lines.clear(),
        1 => lines.truncate(1),
        _ => lines.iter_mut().for_each(|fields| fields[0] = label.into()),
    }
}

/// The same lines again and again, until there are too many; more than 16 bits can
/// count have no groups, for they would be long.
fn make_too_many(lines: &mut Vec<Fields>, random: &mut Random) {
    let over = MOST_RECORDS + 1;
    let mut count = random.pick(&[over, over, over, over + 1, 2 * MOST_RECORDS]);
    if random.chance(1, 10) {
        count = MORE_THAN_16_BITS;
        lines.iter_mut().for_each(|fields| fields.truncate(1));
    }
    *lines = lines.iter().cloned().cycle().take(count).collect();
}

/// The first, the last or any of so many.
fn any_place(count: usize, random: &mut Random) -> usize {
    let anywhere = random.below(count as u64) as usize;
    random.pick(&[0, count - 1, anywhere])
}

/// A value out of its range in one of the lines.
fn spoil_values(lines: &mut [Fields], used: usize, random: &mut Random) {
    if lines.is_empty() {
        return;
    }
    let place = any_place(lines.len(), random);
    let fields = &mut lines[place];
    if fields.len() == 1 {
        fields.push(format!("{}:1", random.between(1, used as i64)));
    }
    let group = random.between(1, fields.len() as i64 - 1) as usize;
    let (number, _) = fields[group].split_once(':').expect("a group");
    fields[group] = format!("{number}:{}", outside(random));
}

/// One of the lines not of the form, or changed in a byte, or the last without its
/// newline.
fn spoil_form(lines: &mut Vec<Vec<u8>>, used: usize, random: &mut Random) {
    if lines.is_empty() {
        lines.push(vec![any_byte(random)]);
        return;
    }
    let last = lines.len() - 1;
    let line = &mut lines[any_place(last + 1, random)];
    match random.below(20) {
        0 => {
            lines[last].pop();
        }
        1..=3 => *line = changed(line, random),
        _ => *line = misformed(line, used, random),
    }
}
