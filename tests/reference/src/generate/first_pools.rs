//! What is pooled in each comparison, whatever the seed.

use super::chains::{records, with_first, with_next};
use super::draft::{LINEAR, LOOKED_UP, OVERLAP, PASSED_OVER, SQUARE};
use super::pooling::{in_order, stored, Features, Pooling, OF_A_FILE};
use super::with;
use crate::file::{
    record_start, HIGHEST_BUDGET, HIGHEST_CEILING, HIGHEST_FEATURE, HIGHEST_TOLERANCE,
    LOWEST_FEATURE, MOST_RECORDS, MOST_UNITS, RECORD_BYTES, STORED_FEATURES,
};
use crate::settled_pools::{table, Pool};
use crate::write::{file_length, record, Numbers, Row, LABEL};

/// What such a pair of files is there for.
#[derive(Clone, Copy, PartialEq, Eq, Debug)]
pub enum Kind {
    Settled,
    ChoiceOfFaults,
    Small,
    Same,
    OnePlace,
    ItemCount,
    Stored,
    Unlike,
    Parameters,
    OutputLength,
}

/// All of them.
pub fn first_pools() -> Vec<(Kind, Pooling)> {
    let kinds = [
        (Kind::Settled, settled()),
        (Kind::ChoiceOfFaults, every_choice_of_faults()),
        (Kind::Small, small()),
        (Kind::Same, the_same_file()),
        (Kind::OnePlace, apart_at_one_place()),
        (Kind::ItemCount, item_counts()),
        (Kind::Stored, every_way_to_store()),
        (Kind::Unlike, every_two_d_and_kernels()),
        (Kind::Parameters, every_parameter()),
        (Kind::OutputLength, output_lengths()),
    ];
    let named =
        |(kind, calls): (Kind, Vec<Pooling>)| calls.into_iter().map(move |call| (kind, call));
    kinds.into_iter().flat_map(named).collect()
}

/// Two files, with an output long enough for every pool.
fn of(older: Vec<u8>, newer: Vec<u8>) -> Pooling {
    Pooling {
        older,
        newer,
        one_memory: false,
        places: file_length(MOST_RECORDS) + 1,
    }
}

/// Small parameters, those of the newer file other than those of the older one.
fn numbers(used: usize) -> [Numbers; 2] {
    let older = Numbers {
        used,
        kernel: LINEAR,
        grid: 10,
        ceiling: 100,
        second_ceiling: 30,
        tolerance: 0,
        budget: 50,
    };
    let newer = Numbers {
        used,
        kernel: LINEAR,
        grid: 20,
        ceiling: 50,
        second_ceiling: 0,
        tolerance: 3,
        budget: 7,
    };
    [older, newer]
}

/// Files of these items, in order and without spares.
fn of_rows(used: usize, older: &[Row], newer: &[Row]) -> Pooling {
    let [last_year, this_year] = numbers(used);
    of(in_order(&last_year, older), in_order(&this_year, newer))
}

fn row(label: u8, features: &[i8]) -> Row {
    let mut row = [0; LABEL + 1];
    row[..features.len()].copy_from_slice(features);
    row[LABEL] = label as i8;
    row
}

fn settled() -> Vec<Pooling> {
    let pooled = |case: Pool| Pooling {
        places: case.places,
        ..of(case.older, case.newer)
    };
    table().into_iter().map(pooled).collect()
}

/// What is at fault with a call: the refusals of the older and of the newer file, what
/// differs in their headers, and what the items left draw.
#[derive(Clone, Copy, Default)]
pub struct Faults {
    pub older: Option<u8>,
    pub newer: Option<u8>,
    pub other_used: bool,
    pub other_kernel: bool,
    pub one_label: bool,
    pub too_many: bool,
    pub too_short: bool,
}

impl Faults {
    /// The refusals, in the order of the tests.
    pub fn refusals(&self) -> Vec<u8> {
        let unlike = self.other_used || self.other_kernel;
        let together = [
            Some(14).filter(|_| unlike),
            Some(5).filter(|_| self.one_label),
            Some(15).filter(|_| self.too_many),
            Some(10).filter(|_| self.too_short),
        ];
        let files = [self.older, self.newer];
        files.into_iter().chain(together).flatten().collect()
    }
}

/// Every choice of faults.
pub fn every_choice() -> Vec<Faults> {
    let of_a_file = || OF_A_FILE.into_iter().map(Some).chain([None]);
    let mut choices = Vec::new();
    for (older, newer) in of_a_file().flat_map(|one| of_a_file().map(move |other| (one, other))) {
        for choice in 0..1 << 5 {
            let chosen = |k: u32| choice >> k & 1 == 1;
            choices.push(Faults {
                older,
                newer,
                other_used: chosen(0),
                other_kernel: chosen(1),
                one_label: chosen(2),
                too_many: chosen(3),
                too_short: chosen(4),
            });
        }
    }
    choices
}

fn every_choice_of_faults() -> Vec<Pooling> {
    every_choice().iter().map(with_faults).collect()
}

/// Files with these faults and no others: all items left looked up, 400 of them, an
/// output a byte short. The word of the newer file's last item is also that of its
/// first and of the older file's first, both passed over.
pub fn with_faults(faults: &Faults) -> Pooling {
    let count = if faults.too_many { 200 } else { 4 };
    let items = |first: usize| -> Vec<Row> {
        let words = (first..first + count).map(|k| row(LOOKED_UP, &word(k, 2)));
        let mut rows: Vec<Row> = words.collect();
        rows[0] = row(PASSED_OVER, &word(2 * count - 1, 2));
        rows
    };
    let (older, mut newer) = (items(0), items(count));
    if !faults.one_label {
        newer[1][LABEL] = PASSED_OVER as i8;
    }
    let [last_year, mut this_year] = numbers(2);
    if faults.other_used {
        this_year.used = 3;
    }
    if faults.other_kernel {
        this_year.kernel = OVERLAP;
    }
    let older = spoilt(in_order(&last_year, &older), faults.older);
    let newer = spoilt(in_order(&this_year, &newer), faults.newer);
    // Of both files the first item is dropped.
    let length = file_length(2 * (count - 1));
    Pooling {
        places: length - usize::from(faults.too_short),
        ..of(older, newer)
    }
}

/// The file without its last byte, with a spare byte, with a last record that leads over
/// m or a first one that leads to itself, with a wrong byte 3, or with an empty chain.
fn spoilt(file: Vec<u8>, refusal: Option<u8>) -> Vec<u8> {
    let m = records(&file);
    match refusal {
        None => file,
        Some(1) => file[..file.len() - 1].to_vec(),
        Some(2) => with(&file, 6, &[1]),
        Some(3) => with_next(&file, m, m + 1),
        Some(16) => with_next(&file, 1, 1),
        Some(4) => with(&file, record_start(2) + 3, &[1]),
        Some(_) => with_first(&file, 0),
    }
}

/// The word of a number: the last two features in use tell it, the first ones are 1.
fn word(number: usize, used: usize) -> Features {
    let mut word = [0; STORED_FEATURES];
    word[..used].fill(1);
    word[used - 2] = (number / 255) as i8;
    word[used - 1] = ((number % 255) as i64 + i64::from(LOWEST_FEATURE)) as i8;
    word
}

/// Files of two and three items, each looked up or passed over and with a feature of 0
/// or 1.
fn small_files() -> Vec<Vec<Row>> {
    let items = [LOOKED_UP, PASSED_OVER].map(|label| [0, 1].map(|feature| row(label, &[feature])));
    let items = items.concat();
    let mut lists = vec![Vec::new()];
    let mut all = Vec::new();
    for _ in 0..3 {
        let longer = |list: &Vec<Row>| {
            let list = list.clone();
            items.iter().map(move |&item| [&list[..], &[item]].concat())
        };
        lists = lists.iter().flat_map(longer).collect();
        all.extend(lists.clone());
    }
    let has = |list: &[Row], label: u8| list.iter().any(|row| row[LABEL] == label as i8);
    all.retain(|list| has(list, LOOKED_UP) && has(list, PASSED_OVER));
    all
}

/// Every two of these files.
fn small() -> Vec<Pooling> {
    let files = small_files();
    let with_older = |older: &Vec<Row>| -> Vec<Pooling> {
        let newer = files.iter();
        newer.map(|newer| of_rows(1, older, newer)).collect()
    };
    files.iter().flat_map(with_older).collect()
}

/// Each of them with itself, as two memories and as one.
fn the_same_file() -> Vec<Pooling> {
    let mut calls = Vec::new();
    for rows in small_files() {
        let file = in_order(&numbers(1)[1], &rows);
        for one_memory in [false, true] {
            calls.push(Pooling {
                one_memory,
                ..of(file.clone(), file.clone())
            });
        }
    }
    calls
}

/// For every d and every place of it, two items that differ there alone: by 1, in the
/// sign, in the highest bit, from one end of the range to the other. One of them is in
/// the older file and one in the newer, or both are in one of the two.
fn apart_at_one_place() -> Vec<Pooling> {
    let ends = [LOWEST_FEATURE, HIGHEST_FEATURE];
    let mut calls = Vec::new();
    for used in 1..=STORED_FEATURES {
        for place in 0..used {
            for both in [[5, 6], [5, -5], [5, -123], ends] {
                let [one, other] = both.map(|feature| {
                    let mut word: Vec<i8> = (20..20 + used as i8).collect();
                    word[place] = feature;
                    row(LOOKED_UP, &word)
                });
                let far = |feature: i8| row(PASSED_OVER, &vec![feature; used]);
                let third = row(LOOKED_UP, &vec![-7; used]);
                calls.extend([
                    of_rows(used, &[one, far(-8)], &[far(-9), other]),
                    of_rows(used, &[one, other, far(-8)], &[far(-9), third]),
                    of_rows(used, &[far(-8), third], &[one, far(-9), other]),
                ]);
            }
        }
    }
    calls
}

/// Items around the most that there may be, of both labels and of one: so many in each
/// file, and so many words.
fn item_counts() -> Vec<Pooling> {
    let most = MOST_RECORDS;
    let counts = [
        ([2, 2], 2, 4),
        ([most, most], 2, 3),
        ([most, most], most - 2, most + 2),
        ([most, most], 2 * most - 1, 2 * most),
        ([2, most], most, most + 2),
        ([most, 2], most, most + 2),
        ([most / 2, most / 2], most - 1, most),
        ([most / 2, most / 2 + 1], most - 1, most + 1),
    ];
    let mut calls = Vec::new();
    for (count, fewest, most) in counts {
        for words in fewest..=most {
            for used in [2, STORED_FEATURES] {
                calls.extend([false, true].map(|one_label| counted(count, words, used, one_label)));
            }
        }
    }
    calls
}

/// So many items of so many words, those that are dropped first. With one label for those
/// that are left, the newer file alone draws 5 where all of its items are.
fn counted(count: [usize; 2], words: usize, used: usize, one_label: bool) -> Pooling {
    let total = count[0] + count[1];
    let item = |k: usize| {
        let dropped = k + words < total;
        let chosen = if dropped {
            k % words
        } else {
            k + words - total
        };
        let turn = if k % 2 == 0 { LOOKED_UP } else { PASSED_OVER };
        let label = if one_label && !dropped {
            LOOKED_UP
        } else {
            turn
        };
        row(label, &word(chosen, used))
    };
    let rows: Vec<Row> = (0..total).map(item).collect();
    let (older, newer) = rows.split_at(count[0]);
    Pooling {
        places: file_length(total),
        ..of_rows(used, older, newer)
    }
}

/// Every way to store three items in four records, for both files. Which of two that are
/// the same is the last, the chain alone tells. The spare record looks like an item.
fn every_way_to_store() -> Vec<Pooling> {
    let older = [
        row(LOOKED_UP, &[1]),
        row(PASSED_OVER, &[1]),
        row(LOOKED_UP, &[2]),
    ];
    let newer = [
        row(PASSED_OVER, &[3]),
        row(LOOKED_UP, &[4]),
        row(LOOKED_UP, &[3]),
    ];
    let spare = record(&row(PASSED_OVER, &[2]), 1);
    let [last_year, this_year] = numbers(1);
    let file = |numbers: &Numbers, rows: &[Row], places: &[usize; 3]| {
        stored(numbers, rows, places, spare.repeat(4))
    };
    let ways = ways_to_store();
    let mut calls = Vec::new();
    for older_places in &ways {
        for newer_places in &ways {
            calls.push(of(
                file(&last_year, &older, older_places),
                file(&this_year, &newer, newer_places),
            ));
        }
    }
    calls
}

/// Three different records of four, in every order.
fn ways_to_store() -> Vec<[usize; 3]> {
    let mut ways = Vec::new();
    for first in 1..=4 {
        for second in 1..=4 {
            for third in 1..=4 {
                if first != second && first != third && second != third {
                    ways.push([first, second, third]);
                }
            }
        }
    }
    ways
}

/// Every two d, with items that are the same in all sixteen features, and every two
/// kernels.
fn every_two_d_and_kernels() -> Vec<Pooling> {
    let items = [row(LOOKED_UP, &[1]), row(PASSED_OVER, &[2])];
    let with = |used: [usize; 2], kernel: [u8; 2]| {
        let [mut last_year, mut this_year] = numbers(1);
        (last_year.used, this_year.used) = (used[0], used[1]);
        (last_year.kernel, this_year.kernel) = (kernel[0], kernel[1]);
        of(in_order(&last_year, &items), in_order(&this_year, &items))
    };
    let mut calls = Vec::new();
    for one in 1..=STORED_FEATURES {
        calls.extend((1..=STORED_FEATURES).map(|other| with([one, other], [LINEAR, LINEAR])));
    }
    for one in [LINEAR, SQUARE, OVERLAP] {
        calls.extend([LINEAR, SQUARE, OVERLAP].map(|other| with([2, 2], [one, other])));
    }
    calls
}

/// How a parameter is set, and the ends of its range.
type Parameter = (fn(&mut Numbers, u64), u64, u64);

/// Each parameter at its lowest in one file and at its highest in the other.
fn every_parameter() -> Vec<Pooling> {
    let base = numbers(1)[0];
    let parameters: [Parameter; 5] = [
        (|n, value| n.grid = value as u32, 1, MOST_UNITS),
        (|n, value| n.ceiling = value as u32, 1, HIGHEST_CEILING),
        (
            |n, value| n.second_ceiling = value as u32,
            0,
            HIGHEST_CEILING,
        ),
        (|n, value| n.tolerance = value, 0, HIGHEST_TOLERANCE),
        (|n, value| n.budget = value as u32, 0, HIGHEST_BUDGET),
    ];
    let items = [row(LOOKED_UP, &[1]), row(PASSED_OVER, &[2])];
    let mut calls = Vec::new();
    for (set, least, most) in parameters {
        for (one, other) in [(least, most), (most, least), (most, most), (least, least)] {
            let files = [one, other].map(|value| {
                let mut numbers = base;
                set(&mut numbers, value);
                in_order(&numbers, &items)
            });
            let [older, newer] = files;
            calls.push(of(older, newer));
        }
    }
    calls
}

/// Outputs of every length around the file's: of two items left, of three of four, and of
/// 256.
fn output_lengths() -> Vec<Pooling> {
    let two = [row(LOOKED_UP, &[1]), row(PASSED_OVER, &[2])];
    let one_other = [row(LOOKED_UP, &[1]), row(PASSED_OVER, &[3])];
    let lent = |call: &Pooling, places: usize| Pooling {
        places,
        ..call.clone()
    };
    let half = MOST_RECORDS / 2;
    let (of_two, of_three) = (of_rows(1, &two, &two), of_rows(1, &two, &one_other));
    let of_most = counted([half, half], 2 * half, 2, false);
    let more = RECORD_BYTES + 4;
    let mut calls: Vec<Pooling> = (0..=file_length(2) + more)
        .map(|places| lent(&of_two, places))
        .collect();
    calls.extend((0..=file_length(4) + 4).map(|places| lent(&of_three, places)));
    let long = file_length(MOST_RECORDS);
    calls.extend((long - more..=long + more).map(|places| lent(&of_most, places)));
    calls
}
