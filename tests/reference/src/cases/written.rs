//! Document 02, request (b): files that are written, of what is drawn, and anew of
//! what an accepted file holds.

use super::Shows::{Chain, Write};
use super::{Group, WriteCall};
use crate::file::{
    HIGHEST_BUDGET, HIGHEST_CEILING, HIGHEST_FEATURE, HIGHEST_TOLERANCE, LOWEST_FEATURE,
    MOST_RECORDS, MOST_UNITS, RECORD_BYTES, STORED_FEATURES,
};
use crate::write::{file_length, Numbers};

impl WriteCall {
    fn is_written(&self) -> bool {
        self.at_fault.is_empty()
    }

    fn is_written_with(&self, asked: impl Fn(&Numbers) -> bool) -> bool {
        self.is_written() && asked(&self.handed.numbers)
    }

    fn is_written_of(&self, items: usize) -> bool {
        self.is_written() && self.handed.rows.len() == items
    }

    /// Whether the file is written into an output longer than it by so many bytes.
    fn is_written_into(&self, longer: impl Fn(usize) -> bool) -> bool {
        let length = file_length(self.handed.rows.len());
        self.is_written() && longer(self.handed.places - length)
    }
}

pub const WRITTEN: Group = Group {
    name: "written",
    frequent: true,
    cases: &[
        ("d 1", Write(|call| call.is_written_with(|n| n.used == 1))),
        (
            "d 16",
            Write(|call| call.is_written_with(|n| n.used == STORED_FEATURES)),
        ),
        ("S 1", Write(|call| call.is_written_with(|n| n.grid == 1))),
        (
            "S 1,048,576",
            Write(|call| call.is_written_with(|n| u64::from(n.grid) == MOST_UNITS)),
        ),
        (
            "c 1",
            Write(|call| call.is_written_with(|n| n.ceiling == 1)),
        ),
        (
            "c 65,536",
            Write(|call| call.is_written_with(|n| u64::from(n.ceiling) == HIGHEST_CEILING)),
        ),
        (
            "second 0",
            Write(|call| call.is_written_with(|n| n.second_ceiling == 0)),
        ),
        (
            "second 1",
            Write(|call| call.is_written_with(|n| n.second_ceiling == 1)),
        ),
        (
            "second 65,536",
            Write(|call| call.is_written_with(|n| u64::from(n.second_ceiling) == HIGHEST_CEILING)),
        ),
        (
            "t 0",
            Write(|call| call.is_written_with(|n| n.tolerance == 0)),
        ),
        (
            "t 10^12",
            Write(|call| call.is_written_with(|n| n.tolerance == HIGHEST_TOLERANCE)),
        ),
        (
            "budget 0",
            Write(|call| call.is_written_with(|n| n.budget == 0)),
        ),
        (
            "budget 1,000,000",
            Write(|call| call.is_written_with(|n| u64::from(n.budget) == HIGHEST_BUDGET)),
        ),
        ("2 items", Write(|call| call.is_written_of(2))),
        (
            "255 items",
            Write(|call| call.is_written_of(MOST_RECORDS - 1)),
        ),
        ("256 items", Write(|call| call.is_written_of(MOST_RECORDS))),
        (
            "a feature of 127",
            Write(|call| call.is_written() && call.has_feature(HIGHEST_FEATURE)),
        ),
        (
            "a feature of -127",
            Write(|call| call.is_written() && call.has_feature(LOWEST_FEATURE)),
        ),
        (
            "output as long as the file",
            Write(|call| call.is_written_into(|longer| longer == 0)),
        ),
        (
            "output a byte longer",
            Write(|call| call.is_written_into(|longer| longer == 1)),
        ),
        (
            "output longer by a record or more",
            Write(|call| call.is_written_into(|longer| longer >= RECORD_BYTES)),
        ),
        ("anew, byte for byte", Chain(|walk| walk.is_as_written())),
        (
            "anew, in another order",
            Chain(|walk| walk.has_spares(|spares| spares == 0) && !walk.is_as_written()),
        ),
        (
            "anew, without its spares",
            Chain(|walk| walk.has_spares(|spares| spares > 0)),
        ),
    ],
};
