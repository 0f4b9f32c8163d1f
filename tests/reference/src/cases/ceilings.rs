//! Document 02, request (f): what two ceilings, a training and a list of
//! multipliers can show.

use super::Shows::{Accepted as File, List};
use super::{Accepted, Group};
use crate::file::{Label, HIGHEST_CEILING};
use crate::generate::sound::FAR;

impl Accepted {
    fn second(&self) -> i128 {
        self.problem.parameters.second_ceiling
    }

    fn c(&self) -> i128 {
        self.problem.parameters.ceiling
    }

    /// Both ceilings at the values given.
    fn ceilings_are(&self, looked_up: u64, passed_over: u64) -> bool {
        self.problem.parameters.ceilings() == [looked_up.into(), passed_over.into()]
    }

    /// A label's ceiling, then the other's.
    fn own_and_other(&self, label: Label) -> (i128, i128) {
        match (label, self.problem.parameters.ceilings()) {
            (Label::LookedUp, [own, other]) | (Label::PassedOver, [other, own]) => (own, other),
        }
    }

    /// Training leaves a multiplier at its label's ceiling, below the other's.
    fn stopped(&self, label: Label) -> bool {
        let (own, other) = self.own_and_other(label);
        let mut items = self.problem.items.iter().zip(&self.run.multipliers);
        own < other && items.any(|(item, &a)| item.label == label && a == own)
    }

    /// Refused with 7 for multipliers that are not over the other label's ceiling.
    fn over_own_alone(&self, list: &super::List, label: Label) -> bool {
        let (own, other) = self.own_and_other(label);
        let over_both = |label| self.some(&list.multipliers, label, |a| a > own.max(other));
        list.refused == 7
            && !Label::BOTH.into_iter().any(over_both)
            && self.some(&list.multipliers, label, |a| a > own)
    }

    /// Accepted, with a multiplier over the other label's ceiling.
    fn over_other_alone(&self, list: &super::List, label: Label) -> bool {
        let (_, other) = self.own_and_other(label);
        list.refused == 0 && self.some(&list.multipliers, label, |a| a > other)
    }
}

pub const GROUP: Group = Group {
    name: "two ceilings",
    frequent: true,
    cases: &[
        ("second 0", File(|file| file.second() == 0)),
        ("second 1", File(|file| file.second() == 1)),
        (
            "second 65,536",
            File(|file| file.second() == HIGHEST_CEILING.into()),
        ),
        ("second as c", File(|file| file.second() == file.c())),
        (
            "second below c",
            File(|file| (1..file.c()).contains(&file.second())),
        ),
        ("second above c", File(|file| file.second() > file.c())),
        (
            "second far below c",
            File(|file| file.second() > 0 && i128::from(FAR) * file.second() <= file.c()),
        ),
        (
            "second far above c",
            File(|file| file.second() >= i128::from(FAR) * file.c()),
        ),
        (
            "c 1, second 65,536",
            File(|file| file.ceilings_are(1, HIGHEST_CEILING)),
        ),
        (
            "c 65,536, second 1",
            File(|file| file.ceilings_are(HIGHEST_CEILING, 1)),
        ),
        (
            "trained, +1 at c below second",
            File(|file| file.stopped(Label::LookedUp)),
        ),
        (
            "trained, -1 at second below c",
            File(|file| file.stopped(Label::PassedOver)),
        ),
        (
            "list refused 7, +1 over c alone",
            List(|file, list| file.over_own_alone(list, Label::LookedUp)),
        ),
        (
            "list refused 7, -1 over second alone",
            List(|file, list| file.over_own_alone(list, Label::PassedOver)),
        ),
        (
            "list accepted, +1 over second",
            List(|file, list| file.over_other_alone(list, Label::LookedUp)),
        ),
        (
            "list accepted, -1 over c",
            List(|file, list| file.over_other_alone(list, Label::PassedOver)),
        ),
    ],
};
