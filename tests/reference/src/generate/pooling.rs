//! What a caller hands over to be pooled, right and wrong. The items of both files are
//! of one list of words, most of which are next to another one; so items are the same
//! within a file and across the two, and others differ as little as can be. Two faults
//! at once show which test comes first.

use super::draft::{any_feature, LOOKED_UP, PASSED_OVER};
use super::random::Random;
use super::spoilt::refused_with;
use super::writing::{both_labels, numbers};
use crate::file::{
    in_range, numbers as numbers_of, read, record_start, Item, HEADER_BYTES, MOST_RECORDS,
    RECORD_BYTES, STORED_FEATURES,
};
use crate::write::{file_length, header, record, Numbers, Row, LABEL};
use std::collections::BTreeSet;
use std::fmt;

/// What a call of pooling is handed over and lent.
#[derive(Clone)]
pub struct Pooling {
    pub older: Vec<u8>,
    pub newer: Vec<u8>,
    /// Whether both files, which are the same then, are handed over as one memory.
    pub one_memory: bool,
    /// The length of the output.
    pub places: usize,
}

/// Of a file of more records than can be, the first bytes are shown.
impl fmt::Debug for Pooling {
    fn fmt(&self, out: &mut fmt::Formatter) -> fmt::Result {
        let Pooling {
            one_memory, places, ..
        } = self;
        write!(out, "output of {places} bytes, one memory {one_memory}")?;
        for (name, file) in [("older", &self.older), ("newer", &self.newer)] {
            let shown = &file[..file.len().min(file_length(MOST_RECORDS + 1))];
            let hex: String = shown.iter().map(|byte| format!("{byte:02x}")).collect();
            write!(out, ", {name} of {} bytes {hex}", file.len())?;
        }
        Ok(())
    }
}

/// The refusals that a file can draw, in the order of the tests.
pub const OF_A_FILE: [u8; 6] = [1, 2, 3, 16, 4, 5];

/// The features of a word, those past d 0.
pub type Features = [i8; STORED_FEATURES];

/// An item: which word it is, and its label's number.
type Entry = (usize, u8);

/// What a call is drawn with: the refusal of each file, a d or a kernel that differs,
/// what the items left draw, of 5, 15 and 10, or the newer file for both.
#[derive(Default)]
struct Plan {
    older: Option<u8>,
    newer: Option<u8>,
    unlike: bool,
    one_label: bool,
    too_many: bool,
    too_short: bool,
    with_itself: bool,
}

impl Plan {
    fn draw(random: &mut Random) -> Plan {
        let mut plan = Plan::default();
        let [one, other] = [(); 2].map(|()| Some(random.pick(&OF_A_FILE)));
        match random.below(100) {
            0..=3 => plan.older = one,
            4..=7 => plan.newer = one,
            8..=27 => (plan.older, plan.newer) = (one, other),
            28..=34 => (plan.newer, plan.unlike) = (one, true),
            35 | 36 => (plan.older, plan.unlike) = (one, true),
            37..=45 => plan.unlike = true,
            46 => (plan.unlike, plan.one_label) = (true, true),
            47 => (plan.unlike, plan.too_many) = (true, true),
            48 => (plan.unlike, plan.too_short) = (true, true),
            49..=53 => plan.one_label = true,
            54 => (plan.one_label, plan.too_many) = (true, true),
            55 => (plan.one_label, plan.too_short) = (true, true),
            56..=58 => plan.too_many = true,
            59 => (plan.too_many, plan.too_short) = (true, true),
            60..=65 => plan.too_short = true,
            66..=69 => plan.with_itself = true,
            _ => {}
        }
        plan
    }
}

/// What a caller may hand over.
pub fn handed_in(random: &mut Random) -> Pooling {
    let plan = Plan::draw(random);
    let [older, newer] = two_numbers(&plan, random);
    let used = older.used.min(newer.used);
    let (count, words) = counts(&plan, used, random);
    let words = words_of(words, used, random);
    let rows: Vec<Row> = entries(&plan, count, words.len(), random)
        .iter()
        .map(|&(word, label)| row_with(&words[word], label))
        .collect();
    let (of_older, of_newer) = rows.split_at(count[0]);
    let newer = laid_out(&newer, of_newer, &words, random);
    if plan.with_itself {
        return lent(newer.clone(), newer, plan.too_short, random);
    }
    let older = laid_out(&older, of_older, &words, random);
    let older = spoilt(older, plan.older, random);
    let newer = spoilt(newer, plan.newer, random);
    lent(older, newer, plan.too_short, random)
}

/// The file after a change that draws the refusal, where there is one.
fn spoilt(file: Vec<u8>, refusal: Option<u8>, random: &mut Random) -> Vec<u8> {
    match refusal {
        None => file,
        Some(number) => refused_with(number, &file, random),
    }
}

/// The file at hand with another one, of which d, the kernel and items are often the
/// same; it is the older one or the newer one.
pub fn beside(file: &[u8], random: &mut Random) -> Pooling {
    let mut numbers = numbers(random);
    let mut words = Vec::new();
    if let Ok(problem) = read(file) {
        if random.chance(9, 10) {
            numbers.used = problem.parameters.features;
            numbers.kernel = numbers_of(file).kernel;
        }
        words = problem.items.iter().map(features_of).collect();
        words
            .iter_mut()
            .for_each(|word| word[numbers.used..].fill(0));
    }
    let count = match random.below(8) {
        0 => words.len().max(2),
        _ => random.between(2, 8) as usize,
    };
    let shared = words.clone();
    let mut items = Vec::new();
    for label in both_labels(count, random) {
        let word = match shared.len() {
            0 => near_word(&words, numbers.used, random),
            _ if random.chance(1, 3) => near_word(&words, numbers.used, random),
            _ => random.pick(&shared),
        };
        words.push(word);
        items.push(row_with(&word, label));
    }
    let other = laid_out(&numbers, &items, &words, random);
    let short = random.chance(1, 10);
    if random.chance(1, 2) {
        lent(file.to_vec(), other, short, random)
    } else {
        lent(other, file.to_vec(), short, random)
    }
}

/// Both files' parameters, which are the same in d and kernel or differ there, and
/// otherwise have nothing to do with each other.
fn two_numbers(plan: &Plan, random: &mut Random) -> [Numbers; 2] {
    let (mut older, mut newer) = (numbers(random), numbers(random));
    newer.used = any_used(plan, random);
    (older.used, older.kernel) = (newer.used, newer.kernel);
    let choices = [(true, false), (false, true), (false, true), (true, true)];
    let (other_used, other_kernel) = random.pick(&choices);
    while plan.unlike && other_used && older.used == newer.used {
        older.used = any_used(plan, random);
    }
    while plan.unlike && other_kernel && older.kernel == newer.kernel {
        older.kernel = random.below(3) as u8;
    }
    [older, newer]
}

/// d, of which 1 is too low for more than 255 words.
fn any_used(plan: &Plan, random: &mut Random) -> usize {
    let any = random.between(1, STORED_FEATURES as i64) as usize;
    let used = random.pick(&[1, 8, 9, STORED_FEATURES, any, any]);
    used.max(if plan.too_many { 2 } else { 1 })
}

/// How many items each file has, and how many words they are.
fn counts(plan: &Plan, used: usize, random: &mut Random) -> ([usize; 2], usize) {
    let most = MOST_RECORDS;
    let mut between = |lowest: usize, highest: usize| {
        let (lowest, highest) = (lowest as i64, highest as i64);
        random.between(lowest, highest) as usize
    };
    if plan.too_many && plan.one_label {
        return ([most, most], between(most + 50, 2 * most - 50));
    }
    let parted = |total: usize, older: usize| [older, total - older];
    let (count, words) = match between(0, 39) {
        kind if plan.too_many => match kind % 4 {
            0 => ([most, most], most + 1),
            1 => ([most, most], 2 * most),
            2 => (parted(most + 1, between(2, most - 1)), most + 1),
            _ => ([most, most], between(most + 1, 2 * most)),
        },
        0 => ([most, most], most - 1),
        1 => ([most, most], most),
        2 => (parted(most, between(2, most - 2)), most),
        3..=5 => ([between(2, 60), between(2, 60)], between(2, 120)),
        6..=10 if plan.one_label => ([between(2, 5), between(2, 5)], 1),
        _ => ([between(2, 5), between(2, 5)], between(2, 8)),
    };
    // There are 255 words of one feature.
    let most_words = if used == 1 { most - 1 } else { 2 * most };
    (count, words.min(count[0] + count[1]).min(most_words))
}

/// So many words, no two the same.
fn words_of(count: usize, used: usize, random: &mut Random) -> Vec<Features> {
    let mut words = Vec::new();
    let mut there = BTreeSet::new();
    while words.len() < count {
        let word = near_word(&words, used, random);
        if there.insert(word) {
            words.push(word);
        }
    }
    words
}

/// A word: any, or one of these with its features in another order, with one of them
/// changed, or with two so that the library's hash stays.
fn near_word(words: &[Features], used: usize, random: &mut Random) -> Features {
    let mut any = [0; STORED_FEATURES];
    any[..used].fill_with(|| {
        let feature = any_feature(random);
        random.pick(&[0, feature, feature, feature])
    });
    if words.is_empty() || random.chance(1, 4) {
        return any;
    }
    let mut word = random.pick(words);
    match random.below(12) {
        0 | 1 => random.shuffle(&mut word[..used]),
        2 if used > 4 => keep_hash(&mut word, used, random),
        _ => change_one(&mut word, used, random),
    }
    word
}

/// Changes one feature, often the first, the last, the eighth or the ninth: by 1, in its
/// sign, in its highest bit, or to anything.
fn change_one(word: &mut Features, used: usize, random: &mut Random) {
    let anywhere = random.below(used as u64) as usize;
    let place = random.pick(&[
        0,
        used - 1,
        used - 1,
        7.min(used - 1),
        8.min(used - 1),
        anywhere,
    ]);
    let any = any_feature(random);
    let feature = word[place];
    let changed = [
        feature.wrapping_add(1),
        feature.wrapping_sub(1),
        feature.wrapping_neg(),
        (feature as u8 ^ 0x80) as i8,
        any,
    ];
    let changed = random.pick(&changed);
    word[place] = if in_range(changed) { changed } else { any };
}

/// Raises one feature by 10 and lowers the fourth after it by 1. The library weighs the
/// second about ten times as much, and leaves the lowest bits out of its hash; so that
/// stays, where neither byte wraps.
fn keep_hash(word: &mut Features, used: usize, random: &mut Random) {
    let places: Vec<usize> = [0, 4, 8].into_iter().filter(|k| k + 4 < used).collect();
    let place = random.pick(&places);
    let changed = [
        word[place].wrapping_add(10),
        word[place + 4].wrapping_sub(1),
    ];
    if changed.into_iter().all(in_range) {
        (word[place], word[place + 4]) = (changed[0], changed[1]);
    }
}

/// The items of both files, the older one's first. Every word is there. Each file has
/// both labels, and so have the items left, or one alone.
fn entries(plan: &Plan, count: [usize; 2], words: usize, random: &mut Random) -> Vec<Entry> {
    let mut chosen = chosen(count, words, random);
    if plan.one_label {
        return one_sided(&mut chosen, count, random);
    }
    loop {
        let labels = count.map(|count| both_labels(count, random)).concat();
        let entries: Vec<Entry> = chosen.iter().copied().zip(labels).collect();
        let left = (0..entries.len()).filter(|&place| is_last(&chosen, place));
        let left: BTreeSet<u8> = left.map(|place| entries[place].1).collect();
        // Items that are all one word have one label at last.
        if left.len() == 2 || words == 1 {
            return entries;
        }
    }
}

/// Which words the items are, every word at least once; in some calls the newer file
/// has them all, so that nothing is left of the older one.
fn chosen([older, newer]: [usize; 2], words: usize, random: &mut Random) -> Vec<usize> {
    let all_in_newer = words <= newer && random.chance(1, 3);
    let apart = if all_in_newer { older } else { 0 };
    let mut chosen: Vec<usize> = (0..words).collect();
    chosen.resize_with(older + newer - apart, || {
        random.below(words as u64) as usize
    });
    random.shuffle(&mut chosen);
    let first = (0..apart).map(|_| random.below(words as u64) as usize);
    first.chain(chosen).collect()
}

fn is_last(chosen: &[usize], place: usize) -> bool {
    !chosen[place + 1..].contains(&chosen[place])
}

/// The same with one label for all items left. Each file has an item of the other one:
/// the newer file's is one of two that are the same, the older file's is in the newer.
fn one_sided(chosen: &mut [usize], count: [usize; 2], random: &mut Random) -> Vec<Entry> {
    let mut newer: Vec<usize> = (count[0]..count[0] + count[1]).collect();
    let mut older: Vec<usize> = (0..count[0]).collect();
    random.shuffle(&mut newer);
    random.shuffle(&mut older);
    let (first, second) = (newer[0].min(newer[1]), newer[0].max(newer[1]));
    chosen[first] = chosen[second];
    chosen[older[0]] = chosen[second];
    let label = random.pick(&[LOOKED_UP, PASSED_OVER]);
    let other = LOOKED_UP + PASSED_OVER - label;
    let labelled = |place: usize| match place {
        _ if place == first || place == older[0] => other,
        _ if place == older[1] || is_last(chosen, place) => label,
        _ => random.pick(&[label, other]),
    };
    let labels: Vec<u8> = (0..chosen.len()).map(labelled).collect();
    chosen.iter().copied().zip(labels).collect()
}

fn row_with(word: &Features, label: u8) -> Row {
    let mut row = [0; LABEL + 1];
    row[..LABEL].copy_from_slice(word);
    row[LABEL] = label as i8;
    row
}

fn features_of(item: &Item) -> Features {
    let mut features = [0; STORED_FEATURES];
    features[..item.features.len()].copy_from_slice(&item.features);
    features
}

/// A file of parameters and items, stored in the records that `places` names, in chain
/// order; the other records keep the bytes of `records`.
pub fn stored(numbers: &Numbers, rows: &[Row], places: &[usize], records: Vec<u8>) -> Vec<u8> {
    let first = places.first().copied().unwrap_or(0);
    let stored = records.len() / RECORD_BYTES;
    let mut file = header(numbers, stored, first).to_vec();
    file.extend(records);
    for (position, (row, &place)) in rows.iter().zip(places).enumerate() {
        let next = places.get(position + 1).copied().unwrap_or(0);
        let start = record_start(place);
        file[start..start + RECORD_BYTES].copy_from_slice(&record(row, next));
    }
    file
}

/// A file of records 1 to n, without spares.
pub fn in_order(numbers: &Numbers, rows: &[Row]) -> Vec<u8> {
    let places: Vec<usize> = (1..=rows.len()).collect();
    stored(numbers, rows, &places, vec![0; RECORD_BYTES * rows.len()])
}

/// A file of these items: in order, or in any order, most of them with spares.
fn laid_out(numbers: &Numbers, rows: &[Row], words: &[Features], random: &mut Random) -> Vec<u8> {
    let left = (MOST_RECORDS - rows.len()) as i64;
    let spares = match random.below(10) {
        0 | 1 => return in_order(numbers, rows),
        2 | 3 => 0,
        4 => random.between(0, left),
        _ => random.between(0, left.min(4)),
    };
    let records = rows.len() + spares as usize;
    let mut places: Vec<usize> = (1..=records).collect();
    random.shuffle(&mut places);
    places.truncate(rows.len());
    stored(
        numbers,
        rows,
        &places,
        spare_records(records, words, random),
    )
}

/// What spare records hold: noise, or an item of one of the words.
fn spare_records(records: usize, words: &[Features], random: &mut Random) -> Vec<u8> {
    let mut bytes = Vec::new();
    for _ in 0..records {
        if random.chance(1, 3) {
            bytes.extend(random.bytes(RECORD_BYTES));
        } else {
            let label = random.pick(&[LOOKED_UP, PASSED_OVER]);
            let row = row_with(&random.pick(words), label);
            let next = random.below(records as u64 + 1) as usize;
            bytes.extend(record(&row, next));
        }
    }
    bytes
}

/// The files with an output that is too short for their pool, or long enough. Where a
/// file is refused, there is none.
fn lent(older: Vec<u8>, newer: Vec<u8>, too_short: bool, random: &mut Random) -> Pooling {
    let places = match [read(&older), read(&newer)] {
        [Ok(last_year), Ok(this_year)] => {
            let items = [&last_year.items[..], &this_year.items].concat();
            let left: BTreeSet<Features> = items.iter().map(features_of).collect();
            let length = file_length(left.len());
            if too_short {
                shorter(length, file_length(this_year.items.len()), random)
            } else {
                length + random.pick(&[0, 0, 1, RECORD_BYTES, 300])
            }
        }
        _ => {
            let longest = file_length(MOST_RECORDS);
            random.pick(&[0, HEADER_BYTES, longest, longest, longest + 1, 300])
        }
    };
    Pooling {
        one_memory: older == newer && random.chance(1, 2),
        older,
        newer,
        places,
    }
}

/// A length too short for the pool; that of the longest file for a pool of too many
/// items, and that of the newer file, where they are shorter.
fn shorter(length: usize, newer: usize, random: &mut Random) -> usize {
    let any = random.below(length as u64) as usize;
    let longest = file_length(MOST_RECORDS);
    if longest < length && random.chance(1, 2) {
        return longest;
    }
    let mut lengths = vec![0, HEADER_BYTES - 1, HEADER_BYTES, length - 1, newer, any];
    lengths.retain(|&places| places < length);
    random.pick(&lengths)
}
