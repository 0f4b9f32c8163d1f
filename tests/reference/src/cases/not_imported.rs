//! Document 02, request (c): texts that are not imported. The order of the tests is
//! 2, 11, 12, then 4, 5, 10.

use super::import_call::{Formed, ImportCall};
use super::Group;
use super::Shows::Import;
use crate::file::{judge_numbers, Label, HEADER_BYTES, MOST_RECORDS};
use crate::generate::texts::{replaced_once, ALPHABET};
use crate::generate::writing::MORE_THAN_16_BITS;
use crate::write::{file_length, Numbers};

impl ImportCall {
    /// Whether 2 is the one refusal that has a cause, and one parameter its only one:
    /// with a 1 there, which every range has, no parameter is beyond its range.
    fn is_for_one(&self, mend: impl Fn(&mut Numbers)) -> bool {
        let mut mended = self.handed.numbers;
        mend(&mut mended);
        self.is_for(2) && judge_numbers(&mended).is_ok()
    }

    /// Whether 11 is for one part of a line, with another in its place of the form.
    fn is_for_part(&self, part: &[u8], other: &[u8]) -> bool {
        self.mends(|line| replaced_once(line, part, other))
    }

    /// Whether 11 is for this label of a line.
    fn is_for_label(&self, label: &[u8]) -> bool {
        self.mends(|line| match line.strip_prefix(label) {
            Some(rest) => [b"+1", rest].concat(),
            None => Vec::new(),
        })
    }

    /// Whether 11 is for a value that has a part which can be left out.
    fn is_for_value_with(&self, start: u8) -> bool {
        self.is_for_group(|_, value| value.contains(&start)) && self.mends(|line| cut(line, start))
    }

    /// Whether 11 is for a feature number of which so many lower bits are one of 1 to d.
    fn is_for_number_above(&self, bits: u32) -> bool {
        self.is_for_group(|number, value| {
            let low = low_bits(number, bits);
            is_good(value) && low.map_or(false, |low| (1..=self.used() as u128).contains(&low))
        })
    }

    /// Whether 4 is for a value as asked for, told by its sign and its digits.
    fn is_for_value(&self, asked: impl Fn(bool, &[u8]) -> bool) -> bool {
        let wrong = |line: &&Formed| line.row.is_none();
        let is_it = |value: &[u8]| match value.strip_prefix(b"-") {
            None => asked(false, value),
            Some(digits) => asked(true, digits),
        };
        let mut lines = self.formed().iter().filter(wrong);
        let one = |line: &Formed| line.groups.iter().any(|(_, value)| is_it(value));
        self.is_for(4) && lines.any(one)
    }

    /// Whether 4 is for a value of which so many lower bits are in the range.
    fn is_for_value_above(&self, bits: u32, negative: bool) -> bool {
        self.is_for_value(|minus, digits| {
            let low = low_bits(digits, bits);
            minus == negative && low.map_or(false, |low| low <= 127)
        })
    }

    /// Whether 4 is for this line.
    fn is_for_values_of(&self, line: Option<&Formed>) -> bool {
        self.is_for(4) && line.map_or(false, |line| line.row.is_none())
    }

    /// Whether 5 is for lines of this label alone, two or more.
    fn has_one_label(&self, label: Label) -> bool {
        let alone = self.formed().iter().all(|line| line.label == label);
        self.is_for(5) && self.lines > 1 && alone
    }

    fn is_for_output(&self, places: usize) -> bool {
        self.is_for(10) && self.handed.places == places
    }
}

/// A value that is in its range, as 7 is.
fn is_good(value: &[u8]) -> bool {
    !value.is_empty() && value.iter().all(|byte| b"-0123456789".contains(byte))
}

fn are_digits(text: &[u8]) -> bool {
    !text.is_empty() && text.iter().all(u8::is_ascii_digit)
}

/// A value in its range behind a 0.
fn has_leading_zero(value: &[u8]) -> bool {
    value.starts_with(b"0") && (0..=127).any(|f| format!("0{f}").as_bytes() == value)
}

/// The lower bits of a number that has more, but not twice as many, which belong to the
/// next width; after 64 bits there is none.
fn low_bits(text: &[u8], bits: u32) -> Option<u128> {
    let digit = |low: u128, &byte: &u8| low.wrapping_mul(10).wrapping_add((byte - b'0').into());
    let more = are_digits(text) && text[0] != b'0' && (text.len() < 39 || bits == 64);
    let low = more.then(|| text.iter().fold(0, digit))?;
    let limit = 1_u128 << bits;
    let wider = text.len() > 38 || low >= limit;
    let too_wide = bits < 64 && low >= 1 << (2 * bits);
    (wider && !too_wide).then_some(low % limit)
}

/// The line without its first such byte and the digits after it.
fn cut(line: &[u8], start: u8) -> Vec<u8> {
    let place = line.iter().position(|&byte| byte == start);
    let place = place.unwrap_or(line.len());
    let rest = line.get(place + 1..).unwrap_or(&[]);
    let digits = rest.iter().take_while(|byte| byte.is_ascii_digit()).count();
    [&line[..place], &rest[digits..]].concat()
}

/// The line without what stands at its end from these bytes on.
fn without_comment(line: &[u8], start: &[u8]) -> Vec<u8> {
    let place = line.windows(start.len()).position(|there| there == start);
    match place {
        None => line.to_vec(),
        Some(place) => [&line[..place], b"\n"].concat(),
    }
}

/// Whether all feature numbers of the line are of 1 to d, and two that follow each other
/// as asked for.
fn neighbours(line: &[u8], used: usize, asked: impl Fn(usize, usize) -> bool) -> bool {
    let text = String::from_utf8_lossy(line);
    let groups = text.trim_end().split(' ').skip(1);
    let number = |group: &str| {
        let number = group.split_once(':')?.0;
        (1..=used).find(|k| k.to_string() == number)
    };
    let numbers: Option<Vec<usize>> = groups.map(number).collect();
    numbers.map_or(false, |numbers| {
        numbers.windows(2).any(|two| asked(two[0], two[1]))
    })
}

/// The bytes that stand in for others in the faults named below.
const NAMED: &[u8] = b".#worde\r\t=;\0\x80\xb1\x8a";

pub const FORM: Group = Group {
    name: "not imported, refused with 11 alone",
    frequent: true,
    cases: &[
        (
            "no newline at the end",
            Import(|call| call.mends(|line| [line, b"\n"].concat())),
        ),
        (
            "a line of no bytes",
            Import(|call| call.is_for_line(|line| line == b"\n")),
        ),
        (
            "a line of no bytes first",
            Import(|call| call.is_for_line(|line| line == b"\n" && call.handed.text[0] == b'\n')),
        ),
        (
            "a line of no bytes last",
            Import(|call| {
                call.is_for_line(|line| line == b"\n" && call.handed.text.ends_with(b"\n\n"))
            }),
        ),
        (
            "CR before the newline",
            Import(|call| call.is_for_part(b"\r\n", b"\n")),
        ),
        (
            "a tab for a space",
            Import(|call| call.is_for_part(b"\t", b" ")),
        ),
        ("two spaces", Import(|call| call.is_for_part(b"  ", b" "))),
        (
            "a space at the line's end",
            Import(|call| call.is_for_part(b" \n", b"\n")),
        ),
        (
            "a space ahead of the label",
            Import(|call| call.mends(|line| line.strip_prefix(b" ").unwrap_or(b"").to_vec())),
        ),
        (
            "a comment after a space",
            Import(|call| call.mends(|line| without_comment(line, b" #"))),
        ),
        (
            "a comment right after a value",
            Import(|call| {
                let space = call.mends(|line| without_comment(line, b" #"));
                !space && call.mends(|line| without_comment(line, b"#"))
            }),
        ),
        ("label 1", Import(|call| call.is_for_label(b"1"))),
        ("label +2", Import(|call| call.is_for_label(b"+2"))),
        ("label -2", Import(|call| call.is_for_label(b"-2"))),
        (
            "label +0 or -0",
            Import(|call| call.is_for_label(b"+0") || call.is_for_label(b"-0")),
        ),
        ("label +01", Import(|call| call.is_for_label(b"+01"))),
        ("label +11", Import(|call| call.is_for_label(b"+11"))),
        (
            "a sign alone for label",
            Import(|call| call.is_for_label(b"+") || call.is_for_label(b"-")),
        ),
        (
            "feature number 0",
            Import(|call| call.is_for_group(|number, value| number == b"0" && is_good(value))),
        ),
        (
            "feature number d + 1",
            Import(|call| {
                let after = (call.used() + 1).to_string();
                call.is_for_group(|number, value| number == after.as_bytes() && is_good(value))
            }),
        ),
        (
            "feature number d and a digit",
            Import(|call| {
                let d = call.used().to_string();
                call.is_for_group(|number, value| {
                    let digit = number.strip_prefix(d.as_bytes());
                    digit.map_or(false, |digit| digit.len() == 1 && are_digits(digit))
                        && is_good(value)
                })
            }),
        ),
        (
            "feature number from d + 2 to 99",
            Import(|call| {
                let d = call.used().to_string();
                let above = (call.used() + 2..=99).map(|number| number.to_string());
                let above: Vec<String> = above.filter(|above| !above.starts_with(&d)).collect();
                call.is_for_group(|number, value| {
                    is_good(value) && above.iter().any(|above| above.as_bytes() == number)
                })
            }),
        ),
        (
            "feature number of 40 digits",
            Import(|call| call.is_for_group(|number, _| number.len() == 40 && are_digits(number))),
        ),
        (
            "feature number, 8 bits good",
            Import(|call| call.is_for_number_above(8)),
        ),
        (
            "feature number, 16 bits good",
            Import(|call| call.is_for_number_above(16)),
        ),
        (
            "feature number, 32 bits good",
            Import(|call| call.is_for_number_above(32)),
        ),
        (
            "feature number, 64 bits good",
            Import(|call| call.is_for_number_above(64)),
        ),
        (
            "feature number with a leading 0",
            Import(|call| call.is_for_part(b" 0", b" ")),
        ),
        (
            "feature number with a plus",
            Import(|call| call.is_for_part(b" +", b" ")),
        ),
        (
            "feature number with a minus",
            Import(|call| call.is_for_part(b" -", b" ")),
        ),
        (
            "no feature number",
            Import(|call| call.is_for_group(|number, value| number.is_empty() && is_good(value))),
        ),
        (
            "feature number the one before",
            Import(|call| {
                let same =
                    |line: &[u8]| neighbours(line, call.used(), |before, number| before == number);
                call.is_for_group(|_, value| is_good(value)) && call.is_for_line(same)
            }),
        ),
        (
            "feature number below the one before",
            Import(|call| {
                let falls =
                    |line: &[u8]| neighbours(line, call.used(), |before, number| before > number);
                call.is_for_group(|_, value| is_good(value)) && call.is_for_line(falls)
            }),
        ),
        (
            "no colon",
            Import(|call| {
                call.is_for_group(|number, value| are_digits(number) && value.is_empty())
            }),
        ),
        (
            "two colons",
            Import(|call| call.is_for_group(|_, value| value.contains(&b':'))),
        ),
        (
            "another byte for the colon",
            Import(|call| call.is_for_part(b"=", b":") || call.is_for_part(b";", b":")),
        ),
        (
            "no value",
            Import(|call| call.is_for_part(b":\n", b":1\n") || call.is_for_part(b": ", b":1 ")),
        ),
        (
            "a minus alone for a value",
            Import(|call| call.is_for_part(b":-\n", b":-1\n") || call.is_for_part(b":- ", b":-1 ")),
        ),
        (
            "a value with a plus",
            Import(|call| call.is_for_part(b":+", b":")),
        ),
        (
            "a value with two minus signs",
            Import(|call| call.is_for_part(b":--", b":-")),
        ),
        (
            "a value with a leading 0",
            Import(|call| call.is_for_group(|_, value| has_leading_zero(value))),
        ),
        (
            "a value with a leading 0, minus",
            Import(|call| call.is_for_part(b":-0", b":-")),
        ),
        (
            "a value with ten leading 0s or more",
            Import(|call| call.is_for_group(|_, value| value.starts_with(b"0000000000"))),
        ),
        (
            "a value with a minus after it",
            Import(|call| call.is_for_group(|_, value| value.len() > 1 && value.ends_with(b"-"))),
        ),
        (
            "a value of -0",
            Import(|call| call.is_for_part(b":-0", b":0")),
        ),
        (
            "a leading 0, and out of range",
            Import(|call| {
                call.is_for_group(|_, value| {
                    value.len() > 3 && value[0] == b'0' && value[1] != b'0' && are_digits(value)
                })
            }),
        ),
        (
            "a value with a fraction",
            Import(|call| call.is_for_value_with(b'.')),
        ),
        (
            "a value with an exponent",
            Import(|call| call.is_for_value_with(b'e')),
        ),
        (
            "a byte of 128 or above",
            Import(|call| call.is_for_line(|line| line.iter().any(|&byte| byte > 127))),
        ),
        (
            "a byte of 0",
            Import(|call| call.is_for_line(|line| line.contains(&0))),
        ),
        (
            "a byte not of the form",
            Import(|call| {
                call.is_for_line(|line| line.iter().any(|byte| !ALPHABET.contains(byte)))
            }),
        ),
        (
            "a byte that no fault above has",
            Import(|call| {
                let other = |byte: &u8| !ALPHABET.contains(byte) && !NAMED.contains(byte);
                call.is_for_line(|line| line.iter().any(other))
            }),
        ),
        (
            "the first line",
            Import(|call| {
                call.is_for_line(|line| call.lines > 1 && call.handed.text.starts_with(line))
            }),
        ),
        (
            "the last line",
            Import(|call| {
                call.is_for_line(|line| call.lines > 1 && call.handed.text.ends_with(line))
            }),
        ),
    ],
};

pub const REFUSED: Group = Group {
    name: "not imported",
    frequent: true,
    cases: &[
        ("2 alone, d", Import(|call| call.is_for_one(|n| n.used = 1))),
        (
            "2 alone, kernel",
            Import(|call| call.is_for_one(|n| n.kernel = 1)),
        ),
        ("2 alone, S", Import(|call| call.is_for_one(|n| n.grid = 1))),
        (
            "2 alone, c",
            Import(|call| call.is_for_one(|n| n.ceiling = 1)),
        ),
        (
            "2 alone, second",
            Import(|call| call.is_for_one(|n| n.second_ceiling = 1)),
        ),
        (
            "2 alone, t",
            Import(|call| call.is_for_one(|n| n.tolerance = 1)),
        ),
        (
            "2 alone, budget",
            Import(|call| call.is_for_one(|n| n.budget = 1)),
        ),
        (
            "11, the last of 257 lines",
            Import(|call| {
                let last = |line: &[u8]| call.handed.text.ends_with(line);
                let alone = call.at_fault.first() == Some(&11) && call.lines == MOST_RECORDS + 1;
                alone && call.misformed().map_or(false, last)
            }),
        ),
        (
            "12 alone, 257 lines",
            Import(|call| call.is_for(12) && call.lines == MOST_RECORDS + 1),
        ),
        (
            "12, 258 lines",
            Import(|call| call.at_fault.first() == Some(&12) && call.lines == MOST_RECORDS + 2),
        ),
        (
            "12, 65,538 lines",
            Import(|call| call.at_fault.first() == Some(&12) && call.lines == MORE_THAN_16_BITS),
        ),
        (
            "4 alone, 128",
            Import(|call| call.is_for_value(|minus, digits| !minus && digits == b"128")),
        ),
        (
            "4 alone, -128",
            Import(|call| call.is_for_value(|minus, digits| minus && digits == b"128")),
        ),
        (
            "4 alone, more than 30 digits",
            Import(|call| call.is_for_value(|_, digits| digits.len() > 30)),
        ),
        (
            "4 alone, 8 bits good",
            Import(|call| call.is_for_value_above(8, false)),
        ),
        (
            "4 alone, 16 bits good",
            Import(|call| call.is_for_value_above(16, false)),
        ),
        (
            "4 alone, 32 bits good",
            Import(|call| call.is_for_value_above(32, false)),
        ),
        (
            "4 alone, 64 bits good",
            Import(|call| call.is_for_value_above(64, false)),
        ),
        (
            "4 alone, 8 bits good, minus",
            Import(|call| call.is_for_value_above(8, true)),
        ),
        (
            "4 alone, 16 bits good, minus",
            Import(|call| call.is_for_value_above(16, true)),
        ),
        (
            "4 alone, 32 bits good, minus",
            Import(|call| call.is_for_value_above(32, true)),
        ),
        (
            "4 alone, 64 bits good, minus",
            Import(|call| call.is_for_value_above(64, true)),
        ),
        (
            "4 alone, the first line",
            Import(|call| call.is_for_values_of(call.formed().first())),
        ),
        (
            "4 alone, the last line",
            Import(|call| call.is_for_values_of(call.formed().last())),
        ),
        (
            "5 alone, no lines",
            Import(|call| call.is_for(5) && call.lines == 0),
        ),
        (
            "5 alone, one line",
            Import(|call| call.is_for(5) && call.lines == 1),
        ),
        (
            "5 alone, all looked up",
            Import(|call| call.has_one_label(Label::LookedUp)),
        ),
        (
            "5 alone, all passed over",
            Import(|call| call.has_one_label(Label::PassedOver)),
        ),
        (
            "10 alone, output of 0 bytes",
            Import(|call| call.is_for_output(0)),
        ),
        (
            "10 alone, output of 31 bytes",
            Import(|call| call.is_for_output(HEADER_BYTES - 1)),
        ),
        (
            "10 alone, output of 32 bytes",
            Import(|call| call.is_for_output(HEADER_BYTES)),
        ),
        (
            "10 alone, output a byte short",
            Import(|call| call.is_for_output(file_length(call.lines) - 1)),
        ),
        ("2, and 11 too", Import(|call| call.has_both(2, 11))),
        ("11, and 12 too", Import(|call| call.has_both(11, 12))),
        ("11, and 4 too", Import(|call| call.has_both(11, 4))),
        ("12, and 4 too", Import(|call| call.has_both(12, 4))),
        ("12, and 5 too", Import(|call| call.has_both(12, 5))),
        ("4, and 5 too", Import(|call| call.has_both(4, 5))),
        ("5, and 10 too", Import(|call| call.has_both(5, 10))),
    ],
};
