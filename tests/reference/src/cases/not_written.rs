//! Document 02, request (b): calls of writing that are refused.

use super::Shows::Write;
use super::{Group, WriteCall};
use crate::file::{
    judge_numbers, HEADER_BYTES, HIGHEST_BUDGET, HIGHEST_CEILING, HIGHEST_TOLERANCE, MOST_RECORDS,
    MOST_UNITS, STORED_FEATURES,
};
use crate::generate::draft::{LOOKED_UP, NO_FEATURE, PASSED_OVER};
use crate::generate::writing::MORE_THAN_16_BITS;
use crate::write::{file_length, judge_rows, Numbers, Row, LABEL};

impl WriteCall {
    /// Whether this is the one refusal that has a cause.
    fn is_for(&self, number: u8) -> bool {
        self.at_fault == [number]
    }

    /// Whether 2 is the one refusal that has a cause, and the parameter asked for its
    /// only one: with a 1 there, which every range has, no parameter is beyond its range.
    fn is_for_one(&self, asked: impl Fn(&Numbers) -> bool, mend: impl Fn(&mut Numbers)) -> bool {
        let mut mended = self.handed.numbers;
        mend(&mut mended);
        self.is_for(2) && asked(&self.handed.numbers) && judge_numbers(&mended).is_ok()
    }

    fn has_both(&self, first: u8, second: u8) -> bool {
        self.at_fault.starts_with(&[first, second])
    }

    /// Whether an item has a feature other than 0 at a place that is past d.
    fn has_past(&self, place: usize) -> bool {
        let past = self.handed.numbers.used..LABEL;
        past.contains(&place) && self.some(|row| row[place] != 0)
    }

    /// Whether 4 is for an item with this label's number.
    fn has_wrong_label(&self, number: i8) -> bool {
        self.is_for(4) && self.some(|row| row[LABEL] == number)
    }

    /// Whether 4 is for this item.
    fn is_for_item(&self, row: Option<&Row>) -> bool {
        let spoilt = |&row: &Row| judge_rows(&[row], self.handed.numbers.used).is_err();
        self.is_for(4) && row.map_or(false, spoilt)
    }

    /// Whether 5 is for items of this label alone, two or more.
    fn has_one_label(&self, label: u8) -> bool {
        let alone = !self.some(|row| row[LABEL] != label as i8);
        self.is_for(5) && self.handed.rows.len() > 1 && alone
    }

    fn is_for_output(&self, places: usize) -> bool {
        self.is_for(10) && self.handed.places == places
    }
}

fn d(call: &WriteCall, number: usize) -> bool {
    call.is_for_one(|n| n.used == number, |n| n.used = 1)
}

/// A d of which so many lower bits are in the range.
fn d_above(call: &WriteCall, bits: u32) -> bool {
    (1..=STORED_FEATURES).any(|low| d(call, (1 << bits) + low))
}

fn kernel(call: &WriteCall, number: u8) -> bool {
    call.is_for_one(|n| n.kernel == number, |n| n.kernel = 1)
}

fn grid(call: &WriteCall, number: u64) -> bool {
    call.is_for_one(|n| u64::from(n.grid) == number, |n| n.grid = 1)
}

fn ceiling(call: &WriteCall, number: u64) -> bool {
    call.is_for_one(|n| u64::from(n.ceiling) == number, |n| n.ceiling = 1)
}

fn second(call: &WriteCall, number: u64) -> bool {
    let asked = |n: &Numbers| u64::from(n.second_ceiling) == number;
    call.is_for_one(asked, |n| n.second_ceiling = 1)
}

fn tolerance(call: &WriteCall, number: u64) -> bool {
    call.is_for_one(|n| n.tolerance == number, |n| n.tolerance = 1)
}

fn budget(call: &WriteCall, number: u64) -> bool {
    call.is_for_one(|n| u64::from(n.budget) == number, |n| n.budget = 1)
}

const MOST_OF_32_BITS: u64 = u32::MAX as u64;

pub const BEYOND: Group = Group {
    name: "not written, refused with 2 alone",
    frequent: false,
    cases: &[
        ("d 0", Write(|call| d(call, 0))),
        ("d 17", Write(|call| d(call, STORED_FEATURES + 1))),
        ("d 257 to 272", Write(|call| d_above(call, 8))),
        ("d 2^32 + 1 to 2^32 + 16", Write(|call| d_above(call, 32))),
        ("d 2^64 - 1", Write(|call| d(call, usize::MAX))),
        ("kernel 3", Write(|call| kernel(call, 3))),
        ("kernel 128", Write(|call| kernel(call, 128))),
        ("kernel 255", Write(|call| kernel(call, 255))),
        ("S 0", Write(|call| grid(call, 0))),
        ("S 1,048,577", Write(|call| grid(call, MOST_UNITS + 1))),
        ("S 2^32 - 1", Write(|call| grid(call, MOST_OF_32_BITS))),
        ("c 0", Write(|call| ceiling(call, 0))),
        ("c 65,537", Write(|call| ceiling(call, HIGHEST_CEILING + 1))),
        ("c 2^32 - 1", Write(|call| ceiling(call, MOST_OF_32_BITS))),
        (
            "second 65,537",
            Write(|call| second(call, HIGHEST_CEILING + 1)),
        ),
        (
            "second 2^32 - 1",
            Write(|call| second(call, MOST_OF_32_BITS)),
        ),
        (
            "t 10^12 + 1",
            Write(|call| tolerance(call, HIGHEST_TOLERANCE + 1)),
        ),
        ("t 2^63", Write(|call| tolerance(call, 1 << 63))),
        ("t 2^64 - 1", Write(|call| tolerance(call, u64::MAX))),
        (
            "budget 1,000,001",
            Write(|call| budget(call, HIGHEST_BUDGET + 1)),
        ),
        (
            "budget 2^32 - 1",
            Write(|call| budget(call, MOST_OF_32_BITS)),
        ),
    ],
};

pub const REFUSED: Group = Group {
    name: "not written",
    frequent: true,
    cases: &[
        (
            "1 alone, 257 items",
            Write(|call| call.is_for(1) && call.handed.rows.len() == MOST_RECORDS + 1),
        ),
        (
            "1, 65,538 items",
            Write(|call| {
                call.at_fault.first() == Some(&1) && call.handed.rows.len() == MORE_THAN_16_BITS
            }),
        ),
        ("4 alone, label 0", Write(|call| call.has_wrong_label(0))),
        ("4 alone, label 3", Write(|call| call.has_wrong_label(3))),
        ("4 alone, label -1", Write(|call| call.has_wrong_label(-1))),
        (
            "4 alone, label -128",
            Write(|call| call.has_wrong_label(i8::MIN)),
        ),
        (
            "4 alone, a feature of -128",
            Write(|call| call.is_for(4) && call.has_feature(NO_FEATURE)),
        ),
        (
            "4 alone, the first feature past d",
            Write(|call| call.is_for(4) && call.has_past(call.handed.numbers.used)),
        ),
        (
            "4 alone, feature 16 past d",
            Write(|call| call.is_for(4) && call.has_past(LABEL - 1)),
        ),
        (
            "4 alone, the first item",
            Write(|call| call.is_for_item(call.handed.rows.first())),
        ),
        (
            "4 alone, the last item",
            Write(|call| call.is_for_item(call.handed.rows.last())),
        ),
        (
            "5 alone, no items",
            Write(|call| call.is_for(5) && call.handed.rows.is_empty()),
        ),
        (
            "5 alone, one item",
            Write(|call| call.is_for(5) && call.handed.rows.len() == 1),
        ),
        (
            "5 alone, all looked up",
            Write(|call| call.has_one_label(LOOKED_UP)),
        ),
        (
            "5 alone, all passed over",
            Write(|call| call.has_one_label(PASSED_OVER)),
        ),
        (
            "10 alone, output of 0 bytes",
            Write(|call| call.is_for_output(0)),
        ),
        (
            "10 alone, output of 31 bytes",
            Write(|call| call.is_for_output(HEADER_BYTES - 1)),
        ),
        (
            "10 alone, output of 32 bytes",
            Write(|call| call.is_for_output(HEADER_BYTES)),
        ),
        (
            "10 alone, output a byte short",
            Write(|call| call.is_for_output(file_length(call.handed.rows.len()) - 1)),
        ),
        ("2, and 1 too", Write(|call| call.has_both(2, 1))),
        ("1, and 4 too", Write(|call| call.has_both(1, 4))),
        ("4, and 5 too", Write(|call| call.has_both(4, 5))),
        ("5, and 10 too", Write(|call| call.has_both(5, 10))),
    ],
};
