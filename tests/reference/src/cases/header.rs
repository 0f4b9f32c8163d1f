//! Values at the ends of their ranges, and files refused with 2 for a field that
//! document 02 has given a range.

use super::chains::breaks;
use super::Shows::{Accepted, Chain, File, Word};
use super::{Drawn, Group};
use crate::file::{number, read, HIGHEST_CEILING, HIGHEST_FEATURE, LOWEST_FEATURE, MOST_RECORDS};
use crate::generate::with;
use crate::refusal::Refusal;

pub const ENDS: Group = Group {
    name: "at the ends",
    frequent: false,
    cases: &[
        (
            "accepted, a feature of 127",
            Accepted(|file| file.has_feature(HIGHEST_FEATURE)),
        ),
        (
            "accepted, a feature of -127",
            Accepted(|file| file.has_feature(LOWEST_FEATURE)),
        ),
        (
            "3 or 16 at record 256",
            Chain(|walk| walk.refused > 0 && walk.last() == MOST_RECORDS),
        ),
        (
            "word with a feature of 127",
            Word(|_, word| word.is_classified_with(HIGHEST_FEATURE)),
        ),
        (
            "word with a feature of -127",
            Word(|_, word| word.is_classified_with(LOWEST_FEATURE)),
        ),
        (
            "word with a score of 1",
            Word(|_, word| word.score == Ok(1)),
        ),
        (
            "word with a score of -1",
            Word(|_, word| word.score == Ok(-1)),
        ),
    ],
};

pub const REFUSED: Group = Group {
    name: "refused with 2",
    frequent: false,
    cases: &[
        (
            "and the chain is broken",
            File(|drawn| refused(drawn) && breaks(&drawn.file)),
        ),
        ("second ceiling over 65,536", File(second_over)),
        (
            "second ceiling over 65,536 alone",
            File(|drawn| second_over(drawn) && alone(drawn, SECOND)),
        ),
        ("kernel over 2", File(kernel_over)),
        (
            "kernel over 2 alone",
            File(|drawn| kernel_over(drawn) && alone(drawn, KERNEL)),
        ),
        (
            "kernel 3 alone",
            File(|drawn| kernel_over(drawn) && drawn.file[KERNEL.0] == 3 && alone(drawn, KERNEL)),
        ),
    ],
};

/// Where a field is, and its bytes.
type Field = (usize, usize);
const KERNEL: Field = (5, 1);
const SECOND: Field = (28, 4);

fn refused(drawn: &Drawn) -> bool {
    drawn.read.as_ref().err() == Some(&Refusal::from(2))
}

/// Whether the file is refused with 2, the field being over what is allowed.
fn over(drawn: &Drawn, (at, width): Field, highest: u64) -> bool {
    refused(drawn) && number(&drawn.file, at, width) > highest
}

fn second_over(drawn: &Drawn) -> bool {
    over(drawn, SECOND, HIGHEST_CEILING)
}

fn kernel_over(drawn: &Drawn) -> bool {
    over(drawn, KERNEL, 2)
}

/// Whether nothing else in the header is at fault: with 0 in the field, the file
/// is not refused with 2.
fn alone(drawn: &Drawn, (at, width): Field) -> bool {
    let mended = read(&with(&drawn.file, at, &vec![0; width]));
    mended.err() != Some(Refusal::from(2))
}
