//! Importing a text in libsvm's form: document 02, request (c).
//!
//! The text is cut into lines, a line at its spaces, and a group at its colon. The
//! digits of a number are judged first and read by the standard library afterwards,
//! which says where a number does not fit, however long it is.

use crate::file::{in_range, judge_numbers, Label, MOST_RECORDS};
use crate::refusal::Refusal;
use crate::write::{write, Numbers, Row, LABEL};
use std::str::{from_utf8, FromStr};

/// A line of the form, with its values as they are written.
pub struct Line<'a> {
    pub label: Label,
    pub groups: Vec<Group<'a>>,
}

/// A feature number, from 1 to d, and the text of a value.
pub struct Group<'a> {
    pub number: usize,
    pub value: &'a [u8],
}

/// The length of the file: "The order is 2, 11, 12, then 4, 5, 10", of which the last
/// two are writing's; "the result is a file as in (b)".
pub fn import(numbers: &Numbers, text: &[u8], output: &mut [u8]) -> Result<usize, Refusal> {
    judge_numbers(numbers)?;
    let lines = judge_form(text, numbers.used)?;
    judge_line_count(&lines)?;
    let rows = judge_values(&lines)?;
    write(numbers, &rows, output)
}

/// Refusal 11: a text not of this form. "A text of no lines has this form".
pub fn judge_form(text: &[u8], features: usize) -> Result<Vec<Line<'_>>, u8> {
    let lines = pieces(text).map(|piece| line(piece, features));
    lines.collect::<Option<_>>().ok_or(11)
}

/// Refusal 12: over 256 lines.
pub fn judge_line_count(lines: &[Line]) -> Result<(), u8> {
    if lines.len() > MOST_RECORDS {
        return Err(12);
    }
    Ok(())
}

/// The items of all lines. Refusal 4: "a well-formed value outside the range, however
/// long".
pub fn judge_values(lines: &[Line]) -> Result<Vec<Row>, u8> {
    lines.iter().map(|line| row(line).ok_or(4)).collect()
}

/// The text cut after each newline; what follows the last one is a piece, too.
pub fn pieces(text: &[u8]) -> impl Iterator<Item = &[u8]> {
    text.split_inclusive(|&byte| byte == b'\n')
}

/// "A line is `+1` or `-1`, then any number of groups [...], then a newline". "Feature
/// numbers rise strictly".
pub fn line(piece: &[u8], features: usize) -> Option<Line<'_>> {
    let mut fields = piece.strip_suffix(b"\n")?.split(|&byte| byte == b' ');
    let label = label(fields.next()?)?;
    let groups = fields.map(|field| group(field, features));
    let groups: Vec<Group> = groups.collect::<Option<_>>()?;
    let rising = groups.windows(2).all(|two| two[0].number < two[1].number);
    rising.then_some(Line { label, groups })
}

fn label(field: &[u8]) -> Option<Label> {
    match field {
        b"+1" => Some(Label::LookedUp),
        b"-1" => Some(Label::PassedOver),
        _ => None,
    }
}

/// "feature number, colon, value", of which the number is one of "1 to d".
fn group(field: &[u8], features: usize) -> Option<Group<'_>> {
    let colon = field.iter().position(|&byte| byte == b':')?;
    let (number, value) = (&field[..colon], &field[colon + 1..]);
    let number = is_number(number).then(|| read(number)).flatten()?;
    let formed = (1..=features).contains(&number) && is_value(value);
    formed.then_some(Group { number, value })
}

/// "A value is an optional minus sign and decimal digits." "−0 is not allowed."
fn is_value(text: &[u8]) -> bool {
    is_number(text.strip_prefix(b"-").unwrap_or(text)) && text != b"-0"
}

/// Decimal digits; "Numbers have no leading zeros".
fn is_number(text: &[u8]) -> bool {
    let leading_zero = text.len() > 1 && text[0] == b'0';
    !text.is_empty() && text.iter().all(u8::is_ascii_digit) && !leading_zero
}

/// The number that a text says, where it fits the type.
fn read<T: FromStr>(text: &[u8]) -> Option<T> {
    from_utf8(text).ok()?.parse().ok()
}

/// The value as a feature, where it is in the range.
fn feature(value: &[u8]) -> Option<i8> {
    read(value).filter(|&feature| in_range(feature))
}

/// The item of a line: "an omitted one is 0".
fn row(line: &Line) -> Option<Row> {
    let mut row = [0; LABEL + 1];
    row[LABEL] = line.label.number();
    for group in &line.groups {
        row[group.number - 1] = feature(group.value)?;
    }
    Some(row)
}
