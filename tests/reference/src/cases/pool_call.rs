//! A call of pooling, and what of its two files the cases ask for.

use crate::file::{number, numbers, read, Item, Label};
use crate::generate::chains::records;
use crate::generate::pooling::Pooling;
use crate::pool::{judge_both_labels, judge_item_count, one_after_the_other, row};
use crate::refusal::Refusal;
use crate::write::{file_length, rows, Numbers, Row, LABEL};

pub struct PoolCall {
    pub handed: Pooling,
    /// What refuses each file by itself.
    pub older: Option<Refusal>,
    pub newer: Option<Refusal>,
    /// The refusals that have a cause, in the order of the tests: the first is the
    /// answer, and without any the file is written. Of files that are refused, 14 is for
    /// what their headers say, as far as they have any, and 10 for an output that no
    /// file fits. Where d differs, items are compared in all sixteen features.
    pub at_fault: Vec<u8>,
    /// All items, the older file's first, where neither file is refused.
    pub items: Vec<Pooled>,
    /// Those of the older file.
    pub of_older: usize,
    /// Two items left, as far as they are among the first of many.
    pub apart: Vec<Apart>,
}

/// An item of the two files, and what stays of those with the same features.
pub struct Pooled {
    pub record: usize,
    pub row: Row,
    /// The next later one that is the same.
    pub next: Option<usize>,
    /// The last one that is the same: the one that stays.
    pub last: usize,
}

/// How two items differ.
pub struct Apart {
    /// Where they do, counted from 0.
    pub places: Vec<usize>,
    /// Both features at the first of these places.
    pub features: (i8, i8),
    /// Whether both have a 0 ahead of these places.
    pub past_zero: bool,
    /// Whether they have the same features in another order.
    pub exchanged: bool,
    /// Whether the library has one hash for both.
    pub same_hash: bool,
}

/// Of more items left than these, not all pairs are looked at.
const LOOKED_AT: usize = 8;

impl PoolCall {
    pub fn of(handed: Pooling) -> PoolCall {
        let (older, newer) = (read(&handed.older), read(&handed.newer));
        let (both, of_older) = match (&older, &newer) {
            (Ok(older), Ok(newer)) => (
                one_after_the_other(&older.items, &newer.items),
                older.items.len(),
            ),
            _ => (Vec::new(), 0),
        };
        let items = pooled(&both);
        let left: Vec<Item> = left(&items).map(|place| both[place].clone()).collect();
        let (older, newer) = (older.err(), newer.err());
        let files = [older, newer].map(|refused| refused.map(|refusal| refusal.number));
        let together = at_fault_together(&handed, &left);
        PoolCall {
            at_fault: files.into_iter().chain(together).flatten().collect(),
            apart: apart(&left[..left.len().min(LOOKED_AT)]),
            handed,
            older,
            newer,
            items,
            of_older,
        }
    }

    pub fn is_pooled(&self) -> bool {
        self.at_fault.is_empty()
    }

    /// Whether this is the one refusal that has a cause, neither file being refused.
    pub fn is_for(&self, number: u8) -> bool {
        self.at_fault == [number] && self.older.or(self.newer).is_none()
    }

    /// Whether these are the first two refusals that have a cause, neither file being
    /// refused.
    pub fn has_both(&self, first: u8, second: u8) -> bool {
        self.at_fault.starts_with(&[first, second]) && self.older.or(self.newer).is_none()
    }

    /// The items that stay, by their places.
    pub fn left(&self) -> impl Iterator<Item = usize> + '_ {
        left(&self.items)
    }

    pub fn label(&self, place: usize) -> i8 {
        self.items[place].row[LABEL]
    }

    /// The parameters of the older file and of the newer one.
    pub fn numbers(&self) -> [Numbers; 2] {
        [&self.handed.older, &self.handed.newer].map(|file| numbers(file))
    }

    /// d of the newer file.
    pub fn used(&self) -> usize {
        self.handed.newer[4].into()
    }

    /// How many items each file has.
    pub fn counts(&self) -> [usize; 2] {
        [self.of_older, self.items.len() - self.of_older]
    }

    /// Both files, each with its items.
    pub fn files(&self) -> [(&[u8], &[Pooled]); 2] {
        let (older, newer) = self.items.split_at(self.of_older);
        [(&self.handed.older, older), (&self.handed.newer, newer)]
    }
}

/// The spare records of an accepted file that look like items.
pub fn spares((file, items): (&[u8], &[Pooled])) -> Vec<Row> {
    let is_spare = |&record: &u16| !items.iter().any(|item| item.record == record.into());
    let spares = (1..=records(file) as u16).filter(is_spare);
    let mut rows = rows(file, &spares.collect::<Vec<_>>());
    rows.retain(|row| Label::numbered(row[LABEL].into()).is_some());
    rows
}

fn left(items: &[Pooled]) -> impl Iterator<Item = usize> + '_ {
    (0..items.len()).filter(|&place| items[place].last == place)
}

/// 14, 5, 15 and 10. Where a file is refused, nothing is left, and 10 is for an output
/// that is too short for two items, the fewest that there can be.
fn at_fault_together(handed: &Pooling, left: &[Item]) -> [Option<u8>; 4] {
    let fewest = if left.is_empty() { 2 } else { left.len() };
    let labels = judge_both_labels(left).err();
    [
        Some(14).filter(|_| are_unlike(&handed.older, &handed.newer)),
        labels.filter(|_| !left.is_empty()),
        judge_item_count(left).err(),
        Some(10).filter(|_| handed.places < file_length(fewest)),
    ]
}

/// The items with what is the same among them.
fn pooled(items: &[Item]) -> Vec<Pooled> {
    let mut pooled: Vec<Pooled> = Vec::new();
    let mut rows: Vec<Row> = items.iter().map(row).collect();
    while let Some(row) = rows.pop() {
        let place = rows.len();
        let is_same = |later: &Pooled| later.row[..LABEL] == row[..LABEL];
        // The later ones stand there from the last to the first.
        let next = pooled.iter().rposition(is_same);
        pooled.push(Pooled {
            record: items[place].record,
            row,
            next: next.map(|k| items.len() - 1 - k),
            last: next.map_or(place, |k| pooled[k].last),
        });
    }
    pooled.reverse();
    pooled
}

/// How each two of these items differ.
fn apart(items: &[Item]) -> Vec<Apart> {
    let sorted = |row: &Row| {
        let mut features = row[..LABEL].to_vec();
        features.sort_unstable();
        features
    };
    let rows: Vec<Row> = items.iter().map(row).collect();
    let sorted: Vec<Vec<i8>> = rows.iter().map(sorted).collect();
    let mut apart = Vec::new();
    for (k, one) in rows.iter().enumerate() {
        for (j, other) in rows.iter().enumerate().skip(k + 1) {
            let places = (0..LABEL).filter(|&place| one[place] != other[place]);
            let places: Vec<usize> = places.collect();
            apart.push(Apart {
                features: (one[places[0]], other[places[0]]),
                past_zero: one[..places[0]].contains(&0),
                exchanged: sorted[k] == sorted[j],
                same_hash: hash(one) == hash(other),
                places,
            });
        }
    }
    apart
}

/// The library's hash of the features, each four as one number: features are compared
/// only where a later item has the same.
fn hash(row: &Row) -> u32 {
    const WEIGHTS: [u64; 4] = [1_000_003, 10_000_019, 100_000_007, 1_000_000_007];
    let features: Vec<u8> = row[..LABEL].iter().map(|&feature| feature as u8).collect();
    let weighed = (0..).step_by(4).zip(WEIGHTS);
    let sum: u64 = weighed
        .map(|(start, weight)| weight * number(&features, start, 4))
        .sum();
    (sum / 65_536) as u32
}

/// Whether two headers differ in d or in the kernel, whatever else is wrong with them.
fn are_unlike(older: &[u8], newer: &[u8]) -> bool {
    let there = older.len() > 5 && newer.len() > 5;
    there && number(older, 4, 2) != number(newer, 4, 2)
}
