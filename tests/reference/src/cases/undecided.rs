//! Document 02, request (e): words with a score of exactly 0.

use super::Shows::{File, Word};
use super::{Accepted, Group};
use crate::kernel::Kernel;

fn on_a_line(file: &Accepted, word: &super::Word, kernel: Kernel) -> bool {
    word.on_a_line && file.problem.parameters.kernel == kernel
}

impl super::Word {
    fn has_multiplier(&self) -> bool {
        self.multipliers.iter().any(|&a| a > 0)
    }

    fn is_zero(&self) -> bool {
        self.features.iter().all(|&feature| feature == 0)
    }

    fn undecided(&self) -> bool {
        self.score == Ok(0)
    }
}

pub const GROUP: Group = Group {
    name: "undecided words",
    frequent: true,
    cases: &[
        (
            "all multipliers 0",
            Word(|_, word| word.undecided() && !word.has_multiplier()),
        ),
        (
            "a line that decides no item",
            Word(|_, word| word.undecided() && word.has_multiplier() && !word.on_a_line),
        ),
        ("on a line", Word(|_, word| word.on_a_line)),
        (
            "on a line, linear",
            Word(|file, word| on_a_line(file, word, Kernel::Linear)),
        ),
        (
            "on a line, square",
            Word(|file, word| on_a_line(file, word, Kernel::Square)),
        ),
        (
            "on a line, overlap",
            Word(|file, word| on_a_line(file, word, Kernel::Overlap)),
        ),
        (
            "on a line, the zero word",
            Word(|_, word| word.on_a_line && word.is_zero()),
        ),
        (
            "on a line, another word",
            Word(|_, word| word.on_a_line && !word.is_zero()),
        ),
        (
            "files with one",
            File(|drawn| drawn.words.iter().any(|word| word.undecided())),
        ),
        (
            "files with one on a line",
            File(|drawn| drawn.words.iter().any(|word| word.on_a_line)),
        ),
    ],
};
