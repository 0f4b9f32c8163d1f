//! Document 02, request (h): files that are pooled.

use super::pool_call::{spares, Apart, PoolCall, Pooled};
use super::Group;
use super::Shows::{Pair, Pool};
use crate::file::{MOST_RECORDS, RECORD_BYTES, STORED_FEATURES};
use crate::generate::chains::is_as_written;
use crate::generate::first_pools::Kind;
use crate::write::{file_length, Numbers, LABEL};

/// Half of the features.
const HALF: usize = STORED_FEATURES / 2;

/// The highest bit of a feature.
const HIGHEST_BIT: i8 = i8::MIN;

impl PoolCall {
    fn is_pooled_with(&self, used: usize) -> bool {
        self.is_pooled() && self.used() == used
    }

    fn is_pooled_of(&self, left: usize) -> bool {
        self.is_pooled() && self.left().count() == left
    }

    fn is_pooled_of_all(&self, count: [usize; 2], left: usize) -> bool {
        self.is_pooled_of(left) && self.counts() == count
    }

    /// Whether the file is written into an output longer than it by so many bytes.
    fn is_pooled_into(&self, longer: impl Fn(usize) -> bool) -> bool {
        let length = file_length(self.left().count());
        self.is_pooled() && longer(self.handed.places - length)
    }

    /// Whether both files are pooled, and an item is not the last of those that are the
    /// same, told by its place, that of the next one and that of the last.
    fn drops(&self, asked: impl Fn(usize, usize, usize) -> bool) -> bool {
        let mut items = self.items.iter().enumerate();
        self.is_pooled()
            && items.any(|(k, item)| item.next.map_or(false, |next| asked(k, next, item.last)))
    }

    /// Whether one is dropped for another one of the same file, and for no other reason.
    fn drops_within(&self, newer: bool, same_label: bool) -> bool {
        self.drops(|k, _, last| {
            let within = [k, last].map(|place| place >= self.of_older) == [newer; 2];
            within && (self.label(k) == self.label(last)) == same_label
        })
    }

    /// Whether the last of those in the older file is dropped for one of the newer file.
    fn drops_across(&self, same_label: bool) -> bool {
        self.drops(|k, next, last| {
            let across = k < self.of_older && next >= self.of_older;
            across && (self.label(k) == self.label(last)) == same_label
        })
    }

    /// Whether a file has one with another label dropped that is stored after it.
    fn drops_what_is_stored_later(&self, newer: bool) -> bool {
        self.drops(|k, _, last| {
            let within = [k, last].map(|place| place >= self.of_older) == [newer; 2];
            let stored_later = self.items[k].record > self.items[last].record;
            within && stored_later && self.label(k) != self.label(last)
        })
    }

    /// Whether two items stay that differ as asked for.
    fn keeps(&self, asked: impl Fn(&Apart) -> bool) -> bool {
        self.is_pooled() && self.apart.iter().any(asked)
    }

    /// Whether two items stay that differ in the last of so many features alone.
    fn keeps_at_last(&self, used: usize) -> bool {
        self.is_pooled_with(used) && self.keeps(|apart| apart.places == [used - 1])
    }

    /// Whether two items of more than one feature stay that differ at one place, with such
    /// features there.
    fn keeps_at_one_place(&self, asked: impl Fn(i8, i8) -> bool) -> bool {
        let keeps = self.keeps(|apart| {
            let (one, other) = apart.features;
            apart.places.len() == 1 && asked(one, other)
        });
        keeps && self.used() > 1
    }

    /// How many items of the older file are left.
    pub fn left_of_older(&self) -> usize {
        self.left().filter(|&place| place < self.of_older).count()
    }

    /// Whether both files are pooled, and this one is as asked for.
    fn has_file(&self, newer: bool, asked: impl Fn(&[u8], &[Pooled]) -> bool) -> bool {
        let (file, items) = self.files()[usize::from(newer)];
        self.is_pooled() && asked(file, items)
    }

    /// Whether a file has a spare record that looks like an item left.
    fn has_spare_like_an_item(&self, newer: bool) -> bool {
        self.has_file(newer, |file, items| {
            let spares = spares((file, items));
            let mut left = self.left().map(|place| &self.items[place].row);
            left.any(|row| spares.iter().any(|spare| spare[..LABEL] == row[..LABEL]))
        })
    }

    fn differs(&self, asked: impl Fn(&Numbers, &Numbers) -> bool) -> bool {
        self.is_pooled() && {
            let [older, newer] = self.numbers();
            asked(&older, &newer)
        }
    }

    fn is_the_same_file(&self) -> bool {
        self.is_pooled() && self.handed.older == self.handed.newer
    }
}

/// Whether a file has its items stored in another order than that of the chain.
fn is_out_of_order(_: &[u8], items: &[Pooled]) -> bool {
    items.windows(2).any(|two| two[0].record > two[1].record)
}

fn is_ours(file: &[u8], _: &[Pooled]) -> bool {
    is_as_written(file)
}

fn has_spares(file: &[u8], items: &[Pooled]) -> bool {
    file.len() > file_length(items.len())
}

fn all_differ(older: &Numbers, newer: &Numbers) -> bool {
    older.grid != newer.grid
        && older.ceiling != newer.ceiling
        && older.second_ceiling != newer.second_ceiling
        && older.tolerance != newer.tolerance
        && older.budget != newer.budget
}

const MOST: [usize; 2] = [MOST_RECORDS; 2];

pub const GROUP: Group = Group {
    name: "pooled",
    frequent: true,
    cases: &[
        ("d 1", Pool(|call| call.is_pooled_with(1))),
        ("d 8", Pool(|call| call.is_pooled_with(HALF))),
        ("d 9", Pool(|call| call.is_pooled_with(HALF + 1))),
        ("d 16", Pool(|call| call.is_pooled_with(STORED_FEATURES))),
        (
            "none the same",
            Pool(|call| call.is_pooled_of(call.items.len())),
        ),
        (
            "same in the older, one label",
            Pool(|call| call.drops_within(false, true)),
        ),
        (
            "same in the older, two labels",
            Pool(|call| call.drops_within(false, false)),
        ),
        (
            "same in the newer, one label",
            Pool(|call| call.drops_within(true, true)),
        ),
        (
            "same in the newer, two labels",
            Pool(|call| call.drops_within(true, false)),
        ),
        (
            "same across, one label",
            Pool(|call| call.drops_across(true)),
        ),
        (
            "same across, two labels",
            Pool(|call| call.drops_across(false)),
        ),
        (
            "three the same",
            Pool(|call| call.drops(|_, next, last| next != last)),
        ),
        (
            "same next to each other",
            Pool(|call| call.drops(|k, next, _| next == k + 1)),
        ),
        (
            "same with others between",
            Pool(|call| call.drops(|k, next, _| next > k + 1)),
        ),
        (
            "the first and the last the same",
            Pool(|call| call.drops(|k, _, last| k == 0 && last == call.items.len() - 1)),
        ),
        (
            "nothing left of the older",
            Pool(|call| call.is_pooled() && call.left_of_older() == 0),
        ),
        (
            "all left of the older",
            Pool(|call| call.is_pooled() && call.left_of_older() == call.of_older),
        ),
        (
            "apart at place 1 alone",
            Pool(|call| call.keeps(|apart| apart.places == [0]) && call.used() > 1),
        ),
        (
            "d 8, apart at place 8 alone",
            Pool(|call| call.keeps_at_last(HALF)),
        ),
        (
            "d 9, apart at place 9 alone",
            Pool(|call| call.keeps_at_last(HALF + 1)),
        ),
        (
            "d 16, apart at place 16 alone",
            Pool(|call| call.keeps_at_last(STORED_FEATURES)),
        ),
        (
            "apart in the first 8 alone",
            Pool(|call| {
                call.keeps(|apart| apart.places.iter().all(|&k| k < HALF)) && call.used() > HALF
            }),
        ),
        (
            "apart past the first 8 alone",
            Pool(|call| call.keeps(|apart| apart.places[0] >= HALF)),
        ),
        (
            "apart by 1 at one place",
            Pool(|call| call.keeps_at_one_place(|one, other| one.abs_diff(other) == 1)),
        ),
        (
            "apart by a sign at one place",
            Pool(|call| call.keeps_at_one_place(|one, other| one == -other)),
        ),
        (
            "apart by a highest bit at one place",
            Pool(|call| call.keeps_at_one_place(|one, other| one ^ other == HIGHEST_BIT)),
        ),
        (
            "apart past a feature of 0",
            Pool(|call| call.keeps(|apart| apart.past_zero)),
        ),
        (
            "the same in another order",
            Pool(|call| call.keeps(|apart| apart.exchanged)),
        ),
        (
            "apart, with one hash in the library",
            Pool(|call| call.keeps(|apart| apart.same_hash)),
        ),
        (
            "both as files written by us",
            Pool(|call| call.has_file(false, is_ours) && call.has_file(true, is_ours)),
        ),
        (
            "older stored in another order",
            Pool(|call| call.has_file(false, is_out_of_order)),
        ),
        (
            "newer stored in another order",
            Pool(|call| call.has_file(true, is_out_of_order)),
        ),
        (
            "older, last of the same stored first",
            Pool(|call| call.drops_what_is_stored_later(false)),
        ),
        (
            "newer, last of the same stored first",
            Pool(|call| call.drops_what_is_stored_later(true)),
        ),
        (
            "older with spares",
            Pool(|call| call.has_file(false, has_spares)),
        ),
        (
            "newer with spares",
            Pool(|call| call.has_file(true, has_spares)),
        ),
        (
            "older, a spare like an item left",
            Pool(|call| call.has_spare_like_an_item(false)),
        ),
        (
            "newer, a spare like an item left",
            Pool(|call| call.has_spare_like_an_item(true)),
        ),
        (
            "S, c, second, t and budget differ",
            Pool(|call| call.differs(all_differ)),
        ),
        (
            "second 0 in the older alone",
            Pool(|call| {
                call.differs(|older, newer| older.second_ceiling == 0 && newer.second_ceiling > 0)
            }),
        ),
        (
            "second 0 in the newer alone",
            Pool(|call| {
                call.differs(|older, newer| older.second_ceiling > 0 && newer.second_ceiling == 0)
            }),
        ),
        ("2 items left", Pool(|call| call.is_pooled_of(2))),
        (
            "20 to 120 items left",
            Pool(|call| call.is_pooled() && (20..=120).contains(&call.left().count())),
        ),
        (
            "256 items, none the same",
            Pool(|call| call.is_pooled_of(MOST_RECORDS) && call.items.len() == MOST_RECORDS),
        ),
        (
            "256 and 256 items, 255 left",
            Pool(|call| call.is_pooled_of_all(MOST, MOST_RECORDS - 1)),
        ),
        (
            "256 and 256 items, 256 left",
            Pool(|call| call.is_pooled_of_all(MOST, MOST_RECORDS)),
        ),
        (
            "256 and 256 items, the newer's left",
            Pool(|call| call.is_pooled() && call.counts() == MOST && call.left_of_older() == 0),
        ),
        ("a file with itself", Pool(|call| call.is_the_same_file())),
        (
            "a file with itself, byte for byte",
            Pool(|call| {
                let all = call.left().count() == call.of_older;
                call.is_the_same_file() && all && is_as_written(&call.handed.newer)
            }),
        ),
        (
            "both files one memory",
            Pool(|call| call.is_pooled() && call.handed.one_memory),
        ),
        (
            "output as long as the file",
            Pool(|call| call.is_pooled_into(|longer| longer == 0)),
        ),
        (
            "output a byte longer",
            Pool(|call| call.is_pooled_into(|longer| longer == 1)),
        ),
        (
            "output longer by a record or more",
            Pool(|call| call.is_pooled_into(|longer| longer >= RECORD_BYTES)),
        ),
        (
            "output too short for all items",
            Pool(|call| call.is_pooled() && call.handed.places < file_length(call.items.len())),
        ),
    ],
};

pub const FIRST: Group = Group {
    name: "pooled, files that come first",
    frequent: false,
    cases: &[
        ("settled examples", Pair(Kind::Settled)),
        ("every choice of faults", Pair(Kind::ChoiceOfFaults)),
        ("every two small files", Pair(Kind::Small)),
        ("a file with itself", Pair(Kind::Same)),
        ("apart at one place", Pair(Kind::OnePlace)),
        ("numbers of items", Pair(Kind::ItemCount)),
        ("ways to store items", Pair(Kind::Stored)),
        ("every two d and kernels", Pair(Kind::Unlike)),
        ("each parameter", Pair(Kind::Parameters)),
        ("lengths of the output", Pair(Kind::OutputLength)),
    ],
};
