//! Document 02, request (i): what a file with the overlap, a training, a list of
//! multipliers and a word can show.

use super::Shows::{Accepted as File, List, Word};
use super::{Accepted, Group};
use crate::file::{HIGHEST_FEATURE, LOWEST_FEATURE};
use crate::kernel::Kernel;
use crate::training::Ending;

impl Accepted {
    fn overlaps(&self) -> bool {
        self.problem.parameters.kernel == Kernel::Overlap
    }

    /// Whether some pair of items with different labels is as asked for.
    fn some_pair(&self, asked: impl Fn(&[i8], &[i8]) -> bool) -> bool {
        let items = &self.problem.items;
        let mut pairs = items
            .iter()
            .flat_map(|x| items.iter().map(move |z| (x, z)))
            .filter(|(x, z)| x.label != z.label);
        self.overlaps() && pairs.any(|(x, z)| asked(&x.features, &z.features))
    }

    fn eta_is(&self, distance: i128) -> bool {
        self.some_pair(|x, z| Kernel::Overlap.eta(x, z) == distance)
    }

    /// Of two items each has the smaller feature at some place.
    fn each_is_smaller(&self) -> bool {
        let smaller = |x: &[i8], z: &[i8]| x.iter().zip(z).any(|(x, z)| x < z);
        self.some_pair(|x, z| smaller(x, z) && smaller(z, x))
    }

    /// Whether training ended so, after at least so many steps.
    fn ended(&self, ending: Ending, steps: usize) -> bool {
        self.run.ending == ending && self.took(steps)
    }

    fn took(&self, steps: usize) -> bool {
        self.overlaps() && self.run.steps.len() >= steps
    }
}

pub const GROUP: Group = Group {
    name: "overlap",
    frequent: true,
    cases: &[
        ("converged", File(|file| file.ended(Ending::Converged, 0))),
        ("stuck", File(|file| file.ended(Ending::Stuck, 0))),
        (
            "stuck after a step",
            File(|file| file.ended(Ending::Stuck, 1)),
        ),
        ("spent", File(|file| file.ended(Ending::Spent, 0))),
        ("at least 2 steps", File(|file| file.took(2))),
        ("at least 10 steps", File(|file| file.took(10))),
        (
            "another pair than the first",
            File(|file| file.overlaps() && file.run.steps.iter().any(|step| step.pair.fallback)),
        ),
        (
            "a feature raised to 0",
            File(|file| file.overlaps() && file.has_feature(LOWEST_FEATURE)),
        ),
        (
            "a feature raised to 254",
            File(|file| file.overlaps() && file.has_feature(HIGHEST_FEATURE)),
        ),
        ("η 0 of two labels", File(|file| file.eta_is(0))),
        ("η 1 of two labels", File(|file| file.eta_is(1))),
        (
            "each of two items smaller somewhere",
            File(|file| file.each_is_smaller()),
        ),
        (
            "list accepted",
            List(|file, list| file.overlaps() && list.refused == 0),
        ),
        (
            "list accepted, not all 0",
            List(|file, list| {
                file.overlaps() && list.refused == 0 && list.multipliers.iter().any(|&a| a > 0)
            }),
        ),
        (
            "word looked up",
            Word(|file, word| file.overlaps() && word.scored(|score| score > 0)),
        ),
        (
            "word passed over",
            Word(|file, word| file.overlaps() && word.scored(|score| score < 0)),
        ),
        (
            "word undecided",
            Word(|file, word| file.overlaps() && word.score == Ok(0)),
        ),
    ],
};
