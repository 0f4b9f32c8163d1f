//! A call of importing, and what of its text the cases ask for.

use crate::file::{judge_labels, judge_numbers, Label, MOST_RECORDS, STORED_FEATURES};
use crate::generate::importing::Importing;
use crate::import::{judge_values, line, pieces, Line};
use crate::write::{file_length, Row};

pub struct ImportCall {
    pub handed: Importing,
    /// The refusals that have a cause, in the order of the tests: the first is the
    /// answer, and without any the file is written. Where the text is not of the form,
    /// 12 and 10 are for all of its lines, 4 and 5 for those that are.
    pub at_fault: Vec<u8>,
    /// The lines, or what would be one.
    pub lines: usize,
    /// The first line that is not of the form, where all others are.
    misformed: Option<Vec<u8>>,
    /// The lines of a text of the form, without those refused with 12.
    formed: Vec<Formed>,
}

/// A line of the form.
pub struct Formed {
    pub label: Label,
    /// Feature numbers and values as they are written.
    pub groups: Vec<(usize, Vec<u8>)>,
    /// The item, where all values are in their range.
    pub row: Option<Row>,
}

impl Formed {
    fn of(line: &Line) -> Formed {
        let groups = line.groups.iter();
        let rows = judge_values(std::slice::from_ref(line));
        Formed {
            label: line.label,
            groups: groups
                .map(|group| (group.number, group.value.to_vec()))
                .collect(),
            row: rows.ok().map(|rows| rows[0]),
        }
    }
}

impl ImportCall {
    /// With a d beyond its range, all feature numbers up to 16 are of the form.
    pub fn of(handed: Importing) -> ImportCall {
        let judged = judge_numbers(&handed.numbers);
        let used = used(&handed);
        let parts: Vec<&[u8]> = pieces(&handed.text).collect();
        let read: Vec<Option<Line>> = parts.iter().map(|part| line(part, used)).collect();
        let wrong: Vec<usize> = (0..parts.len()).filter(|&k| read[k].is_none()).collect();
        let lines: Vec<Line> = read.into_iter().flatten().collect();
        let labels: Vec<Label> = lines.iter().map(|line| line.label).collect();
        let tests = [
            judged.err(),
            Some(11).filter(|_| !wrong.is_empty()),
            Some(12).filter(|_| parts.len() > MOST_RECORDS),
            judge_values(&lines).err(),
            judge_labels(&labels).err(),
            Some(10).filter(|_| handed.places < file_length(parts.len())),
        ];
        let kept = wrong.is_empty() && parts.len() <= MOST_RECORDS;
        let formed = lines.iter().filter(|_| kept).map(Formed::of).collect();
        let misformed = match wrong[..] {
            [one] => Some(parts[one].to_vec()),
            _ => None,
        };
        ImportCall {
            at_fault: tests.into_iter().flatten().collect(),
            lines: parts.len(),
            misformed,
            formed,
            handed,
        }
    }

    pub fn is_imported(&self) -> bool {
        self.at_fault.is_empty()
    }

    /// Whether this is the one refusal that has a cause.
    pub fn is_for(&self, number: u8) -> bool {
        self.at_fault == [number]
    }

    pub fn has_both(&self, first: u8, second: u8) -> bool {
        self.at_fault.starts_with(&[first, second])
    }

    pub fn formed(&self) -> &[Formed] {
        &self.formed
    }

    /// The line that is not of the form, where all others are.
    pub fn misformed(&self) -> Option<&[u8]> {
        self.misformed.as_deref()
    }

    /// Whether 11 is for one line alone, as asked for.
    pub fn is_for_line(&self, asked: impl Fn(&[u8]) -> bool) -> bool {
        self.is_for(11) && self.misformed().map_or(false, asked)
    }

    /// Whether 11 is for one line alone, and this change of it mends it.
    pub fn mends(&self, mend: impl Fn(&[u8]) -> Vec<u8>) -> bool {
        self.is_for_line(|line| self.is_line(&mend(line)))
    }

    /// Whether 11 is for one group alone, with such a number and value: without it the
    /// line is of the form.
    pub fn is_for_group(&self, asked: impl Fn(&[u8], &[u8]) -> bool) -> bool {
        self.is_for_line(|line| {
            let fields: Vec<&[u8]> = line.split(|byte| b" \n".contains(byte)).collect();
            let is_it = |&place: &usize| {
                let (number, value) = halves(fields[place]);
                asked(number, value) && self.is_line(&without(&fields, place))
            };
            (1..fields.len()).any(|place| is_it(&place))
        })
    }

    /// d, as far as it is in its range.
    pub fn used(&self) -> usize {
        used(&self.handed)
    }

    fn is_line(&self, text: &[u8]) -> bool {
        line(text, self.used()).is_some()
    }
}

fn used(handed: &Importing) -> usize {
    let d = handed.numbers.used;
    if (1..=STORED_FEATURES).contains(&d) {
        d
    } else {
        STORED_FEATURES
    }
}

/// A field up to its first colon, and what follows that.
fn halves(field: &[u8]) -> (&[u8], &[u8]) {
    match field.iter().position(|&byte| byte == b':') {
        None => (field, &[]),
        Some(colon) => (&field[..colon], &field[colon + 1..]),
    }
}

/// The line of these fields but for one; the last field is what follows the newline.
fn without(fields: &[&[u8]], place: usize) -> Vec<u8> {
    let (_, others) = fields.split_last().expect("a field");
    let kept = others.iter().enumerate().filter(|&(k, _)| k != place);
    let kept: Vec<&[u8]> = kept.map(|(_, field)| *field).collect();
    [&kept.join(&b' ')[..], b"\n"].concat()
}
