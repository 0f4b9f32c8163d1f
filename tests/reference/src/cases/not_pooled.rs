//! Document 02, request (h): files that are not pooled. "The older file is judged first,
//! then the newer", then 14, and of what is left 5, 15 and 10.

use super::pool_call::PoolCall;
use super::Group;
use super::Shows::Pool;
use crate::file::{HEADER_BYTES, MOST_RECORDS};
use crate::generate::draft::{LINEAR, LOOKED_UP, OVERLAP, PASSED_OVER, SQUARE};
use crate::refusal::Refusal;
use crate::write::file_length;

impl PoolCall {
    /// Whether this refusal of the older file is the only one that has a cause.
    fn is_for_older(&self, number: u8) -> bool {
        self.at_fault == [number] && self.older.is_some()
    }

    /// The same of the newer file.
    fn is_for_newer(&self, number: u8) -> bool {
        self.at_fault == [number] && self.newer.is_some()
    }

    /// Whether these are the refusals of both files.
    fn are_for(&self, older: u8, newer: u8) -> bool {
        let is = |refused: Option<Refusal>, number: u8| {
            refused.map_or(false, |refusal| refusal.number == number)
        };
        is(self.older, older) && is(self.newer, newer)
    }

    /// Whether both files are refused with this number, for records of other numbers.
    fn are_for_other_records(&self, number: u8) -> bool {
        self.are_for(number, number) && self.older != self.newer
    }

    /// Whether this refusal of the newer file has a cause, and 14 the next.
    fn is_for_newer_and_unlike(&self, number: u8) -> bool {
        self.newer.is_some() && self.at_fault.starts_with(&[number, 14])
    }

    /// Whether one file alone is refused, and another refusal has a cause, too.
    fn is_beside(&self, refused: Option<Refusal>, number: u8) -> bool {
        let one = self.older.is_some() != self.newer.is_some();
        one && refused.is_some() && self.at_fault[1..].contains(&number)
    }

    /// Whether 14 is for another d alone, as asked for.
    fn is_for_used(&self, asked: impl Fn(usize, usize) -> bool) -> bool {
        self.is_for(14) && {
            let [older, newer] = self.numbers();
            older.kernel == newer.kernel && asked(older.used, newer.used)
        }
    }

    /// Whether 14 is for these two kernels alone.
    fn is_for_kernels(&self, one: u8, other: u8) -> bool {
        self.is_for(14) && {
            let [older, newer] = self.numbers();
            let kernels = [older.kernel, newer.kernel];
            older.used == newer.used && (kernels == [one, other] || kernels == [other, one])
        }
    }

    fn is_for_used_and_kernel(&self) -> bool {
        self.is_for(14) && {
            let [older, newer] = self.numbers();
            older.used != newer.used && older.kernel != newer.kernel
        }
    }

    /// Whether 5 is for items left of this label alone, two or more.
    fn has_one_label(&self, label: u8) -> bool {
        let alone = self.left().all(|place| self.label(place) == label as i8);
        self.is_for(5) && self.left().count() > 1 && alone
    }

    /// Whether 15 is the one refusal that has a cause, for so many items left.
    fn is_for_left(&self, left: usize) -> bool {
        self.is_for(15) && self.left().count() == left
    }

    fn is_for_output(&self, places: usize) -> bool {
        self.is_for(10) && self.handed.places == places
    }
}

const MOST: [usize; 2] = [MOST_RECORDS; 2];

pub const FILES: Group = Group {
    name: "not pooled, a file is refused",
    frequent: true,
    cases: &[
        ("older 1 alone", Pool(|call| call.is_for_older(1))),
        ("older 2 alone", Pool(|call| call.is_for_older(2))),
        ("older 3 alone", Pool(|call| call.is_for_older(3))),
        ("older 16 alone", Pool(|call| call.is_for_older(16))),
        ("older 4 alone", Pool(|call| call.is_for_older(4))),
        ("older 5 alone", Pool(|call| call.is_for_older(5))),
        ("newer 1 alone", Pool(|call| call.is_for_newer(1))),
        ("newer 2 alone", Pool(|call| call.is_for_newer(2))),
        ("newer 3 alone", Pool(|call| call.is_for_newer(3))),
        ("newer 16 alone", Pool(|call| call.is_for_newer(16))),
        ("newer 4 alone", Pool(|call| call.is_for_newer(4))),
        ("newer 5 alone", Pool(|call| call.is_for_newer(5))),
        ("older 1, newer 2", Pool(|call| call.are_for(1, 2))),
        ("older 1, newer 3", Pool(|call| call.are_for(1, 3))),
        ("older 1, newer 16", Pool(|call| call.are_for(1, 16))),
        ("older 1, newer 4", Pool(|call| call.are_for(1, 4))),
        ("older 1, newer 5", Pool(|call| call.are_for(1, 5))),
        ("older 2, newer 1", Pool(|call| call.are_for(2, 1))),
        ("older 2, newer 3", Pool(|call| call.are_for(2, 3))),
        ("older 2, newer 16", Pool(|call| call.are_for(2, 16))),
        ("older 2, newer 4", Pool(|call| call.are_for(2, 4))),
        ("older 2, newer 5", Pool(|call| call.are_for(2, 5))),
        ("older 3, newer 1", Pool(|call| call.are_for(3, 1))),
        ("older 3, newer 2", Pool(|call| call.are_for(3, 2))),
        ("older 3, newer 16", Pool(|call| call.are_for(3, 16))),
        ("older 3, newer 4", Pool(|call| call.are_for(3, 4))),
        ("older 3, newer 5", Pool(|call| call.are_for(3, 5))),
        ("older 16, newer 1", Pool(|call| call.are_for(16, 1))),
        ("older 16, newer 2", Pool(|call| call.are_for(16, 2))),
        ("older 16, newer 3", Pool(|call| call.are_for(16, 3))),
        ("older 16, newer 4", Pool(|call| call.are_for(16, 4))),
        ("older 16, newer 5", Pool(|call| call.are_for(16, 5))),
        ("older 4, newer 1", Pool(|call| call.are_for(4, 1))),
        ("older 4, newer 2", Pool(|call| call.are_for(4, 2))),
        ("older 4, newer 3", Pool(|call| call.are_for(4, 3))),
        ("older 4, newer 16", Pool(|call| call.are_for(4, 16))),
        ("older 4, newer 5", Pool(|call| call.are_for(4, 5))),
        ("older 5, newer 1", Pool(|call| call.are_for(5, 1))),
        ("older 5, newer 2", Pool(|call| call.are_for(5, 2))),
        ("older 5, newer 3", Pool(|call| call.are_for(5, 3))),
        ("older 5, newer 16", Pool(|call| call.are_for(5, 16))),
        ("older 5, newer 4", Pool(|call| call.are_for(5, 4))),
        (
            "3 in both, other records",
            Pool(|call| call.are_for_other_records(3)),
        ),
        (
            "16 in both, other records",
            Pool(|call| call.are_for_other_records(16)),
        ),
        (
            "newer 1, and 14 too",
            Pool(|call| call.is_for_newer_and_unlike(1)),
        ),
        (
            "newer 2, and 14 too",
            Pool(|call| call.is_for_newer_and_unlike(2)),
        ),
        (
            "newer 3, and 14 too",
            Pool(|call| call.is_for_newer_and_unlike(3)),
        ),
        (
            "newer 16, and 14 too",
            Pool(|call| call.is_for_newer_and_unlike(16)),
        ),
        (
            "newer 4, and 14 too",
            Pool(|call| call.is_for_newer_and_unlike(4)),
        ),
        (
            "newer 5, and 14 too",
            Pool(|call| call.is_for_newer_and_unlike(5)),
        ),
        (
            "older refused, and 14 too",
            Pool(|call| call.is_beside(call.older, 14)),
        ),
        (
            "older refused, and 10 too",
            Pool(|call| call.is_beside(call.older, 10)),
        ),
        (
            "newer refused, and 10 too",
            Pool(|call| call.is_beside(call.newer, 10)),
        ),
    ],
};

pub const REFUSED: Group = Group {
    name: "not pooled",
    frequent: true,
    cases: &[
        (
            "14 alone, d lower in the newer",
            Pool(|call| call.is_for_used(|older, newer| newer < older)),
        ),
        (
            "14 alone, d higher in the newer",
            Pool(|call| call.is_for_used(|older, newer| newer > older)),
        ),
        (
            "14 alone, linear and square",
            Pool(|call| call.is_for_kernels(LINEAR, SQUARE)),
        ),
        (
            "14 alone, linear and overlap",
            Pool(|call| call.is_for_kernels(LINEAR, OVERLAP)),
        ),
        (
            "14 alone, square and overlap",
            Pool(|call| call.is_for_kernels(SQUARE, OVERLAP)),
        ),
        (
            "14 alone, d and kernel",
            Pool(|call| call.is_for_used_and_kernel()),
        ),
        ("14, and 5 too", Pool(|call| call.has_both(14, 5))),
        ("14, and 15 too", Pool(|call| call.has_both(14, 15))),
        ("14, and 10 too", Pool(|call| call.has_both(14, 10))),
        (
            "5 alone, all left looked up",
            Pool(|call| call.has_one_label(LOOKED_UP)),
        ),
        (
            "5 alone, all left passed over",
            Pool(|call| call.has_one_label(PASSED_OVER)),
        ),
        (
            "5 alone, one item left",
            Pool(|call| call.is_for(5) && call.left().count() == 1),
        ),
        (
            "5 alone, some left of the older",
            Pool(|call| call.is_for(5) && call.left_of_older() > 0),
        ),
        ("5, and 15 too", Pool(|call| call.has_both(5, 15))),
        ("5, and 10 too", Pool(|call| call.has_both(5, 10))),
        (
            "15 alone, 257 items, none the same",
            Pool(|call| call.is_for_left(MOST_RECORDS + 1) && call.items.len() == MOST_RECORDS + 1),
        ),
        (
            "15 alone, 257 left of 256 and 256",
            Pool(|call| call.is_for_left(MOST_RECORDS + 1) && call.counts() == MOST),
        ),
        (
            "15 alone, 512 left",
            Pool(|call| call.is_for_left(2 * MOST_RECORDS)),
        ),
        ("15, and 10 too", Pool(|call| call.has_both(15, 10))),
        (
            "15, and 10 too, output for 256 items",
            Pool(|call| call.has_both(15, 10) && call.handed.places == file_length(MOST_RECORDS)),
        ),
        (
            "10 alone, output of 0 bytes",
            Pool(|call| call.is_for_output(0)),
        ),
        (
            "10 alone, output of 31 bytes",
            Pool(|call| call.is_for_output(HEADER_BYTES - 1)),
        ),
        (
            "10 alone, output of 32 bytes",
            Pool(|call| call.is_for_output(HEADER_BYTES)),
        ),
        (
            "10 alone, output a byte short",
            Pool(|call| call.is_for_output(file_length(call.left().count()) - 1)),
        ),
        (
            "10 alone, output for the newer alone",
            Pool(|call| call.is_for_output(file_length(call.counts()[1]))),
        ),
    ],
};
