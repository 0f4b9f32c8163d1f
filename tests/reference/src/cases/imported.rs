//! Document 02, request (c): texts that are imported, and accepted files printed as
//! such texts.

use super::import_call::{Formed, ImportCall};
use super::Group;
use super::Shows::{Accepted, Import, Text};
use crate::file::{HIGHEST_FEATURE, LOWEST_FEATURE, MOST_RECORDS, RECORD_BYTES, STORED_FEATURES};
use crate::generate::first_texts::Kind;
use crate::write::file_length;

impl ImportCall {
    fn is_imported_of(&self, lines: usize) -> bool {
        self.is_imported() && self.lines == lines
    }

    /// Whether the file is written into an output longer than it by so many bytes.
    fn is_imported_into(&self, longer: impl Fn(usize) -> bool) -> bool {
        self.is_imported() && longer(self.handed.places - file_length(self.lines))
    }

    fn is_imported_with_line(&self, asked: impl Fn(&Formed) -> bool) -> bool {
        self.is_imported() && self.formed().iter().any(asked)
    }

    fn is_imported_with(&self, value: i8) -> bool {
        let text = value.to_string();
        self.is_imported_with_line(|line| {
            let mut groups = line.groups.iter();
            groups.any(|(_, value)| value == text.as_bytes())
        })
    }

    /// Whether a line leaves out a feature that the line before it has written.
    fn leaves_out_what_was_written(&self) -> bool {
        let left_out = |two: &[Formed]| {
            let mut groups = two[0].groups.iter();
            let now = &two[1].groups;
            groups.any(|(number, value)| value != b"0" && !now.iter().any(|(k, _)| k == number))
        };
        self.is_imported() && self.formed().windows(2).any(left_out)
    }
}

pub const GROUP: Group = Group {
    name: "imported",
    frequent: true,
    cases: &[
        ("d 1", Import(|call| call.is_imported() && call.used() == 1)),
        (
            "d 16, feature 16",
            Import(|call| {
                call.is_imported_with_line(|line| {
                    let last = line.groups.last();
                    last.map_or(false, |&(number, _)| number == STORED_FEATURES)
                })
            }),
        ),
        (
            "d of two digits, feature d",
            Import(|call| {
                let (d, mut lines) = (call.used(), call.formed().iter());
                let has_d = |line: &Formed| line.groups.iter().any(|&(number, _)| number == d);
                call.is_imported() && d > 9 && lines.any(has_d)
            }),
        ),
        ("2 lines", Import(|call| call.is_imported_of(2))),
        (
            "255 lines",
            Import(|call| call.is_imported_of(MOST_RECORDS - 1)),
        ),
        (
            "256 lines",
            Import(|call| call.is_imported_of(MOST_RECORDS)),
        ),
        (
            "a line without groups",
            Import(|call| call.is_imported_with_line(|line| line.groups.is_empty())),
        ),
        (
            "a line with all features",
            Import(|call| call.is_imported_with_line(|line| line.groups.len() == call.used())),
        ),
        (
            "the first feature left out",
            Import(|call| {
                call.is_imported_with_line(|line| {
                    let first = line.groups.first();
                    first.map_or(false, |&(number, _)| number > 1)
                })
            }),
        ),
        (
            "left out, written in the line before",
            Import(|call| call.leaves_out_what_was_written()),
        ),
        ("a value of 0", Import(|call| call.is_imported_with(0))),
        (
            "a value of 127",
            Import(|call| call.is_imported_with(HIGHEST_FEATURE)),
        ),
        (
            "a value of -127",
            Import(|call| call.is_imported_with(LOWEST_FEATURE)),
        ),
        (
            "second 0",
            Import(|call| call.is_imported() && call.handed.numbers.second_ceiling == 0),
        ),
        (
            "output as long as the file",
            Import(|call| call.is_imported_into(|longer| longer == 0)),
        ),
        (
            "output a byte longer",
            Import(|call| call.is_imported_into(|longer| longer == 1)),
        ),
        (
            "output longer by a record or more",
            Import(|call| call.is_imported_into(|longer| longer >= RECORD_BYTES)),
        ),
        (
            "printed, a feature of 0",
            Accepted(|file| file.has_feature(0)),
        ),
        (
            "printed, features without a 0",
            Accepted(|file| !file.has_feature(0)),
        ),
    ],
};

pub const FIRST: Group = Group {
    name: "imported, texts that come first",
    frequent: false,
    cases: &[
        ("settled examples", Text(Kind::Settled)),
        ("every choice of faults", Text(Kind::ChoiceOfFaults)),
        ("texts that other readers take", Text(Kind::Odd)),
        ("numbers of lines", Text(Kind::LineCount)),
        ("lengths of the output", Text(Kind::OutputLength)),
        ("numbers around a limit", Text(Kind::Number)),
        ("one byte changed", Text(Kind::Changed)),
        ("up to four bytes", Text(Kind::Short)),
    ],
};
