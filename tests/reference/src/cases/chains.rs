//! Document 02, request (k): what a chain can show.

use super::Shows::Chain;
use super::{Drawn, Group};
use crate::file::read;
use crate::generate::chains::{
    chain, is_as_written, next_of, records, with_first, with_next, HIGHEST_NEXT,
};

/// Whether the records met lead to one of them or over m, whatever the header says.
pub fn breaks(file: &[u8]) -> bool {
    let met = chain(file);
    met.last().map_or(false, |&last| next_of(file, last) != 0)
}

/// A walk along the chain of a file that is accepted or refused for its chain.
pub struct Walk<'a> {
    file: &'a [u8],
    m: usize,
    /// 3 or 16, or 0 where the file is accepted.
    pub refused: u8,
    /// The records met; where the chain breaks, the last of them is at fault.
    met: Vec<usize>,
}

impl<'a> Walk<'a> {
    pub fn of(drawn: &'a Drawn) -> Option<Walk<'a>> {
        let refused = match &drawn.read {
            Ok(_) => 0,
            Err(refusal) if refusal.record.is_some() => refusal.number,
            Err(_) => return None,
        };
        let file = &drawn.file[..];
        Some(Walk {
            file,
            m: records(file),
            refused,
            met: chain(file),
        })
    }

    pub fn last(&self) -> usize {
        self.met[self.met.len() - 1]
    }

    fn last_next(&self) -> usize {
        next_of(self.file, self.last())
    }

    /// How many records are in the cycle that refusal 16 names, 0 without one.
    fn cycle(&self) -> usize {
        let entry = self.met.iter().position(|&met| met == self.last_next());
        entry.map_or(0, |place| self.met.len() - place)
    }

    /// Whether the file is accepted and a spare record and its next number are
    /// of the kind asked for.
    fn spare(&self, kind: impl Fn(usize, usize) -> bool) -> bool {
        let spares = (1..=self.m).filter(|record| !self.met.contains(record));
        let mut kinds = spares.map(|record| kind(record, next_of(self.file, record)));
        self.refused == 0 && kinds.any(|found| found)
    }

    /// Whether the file is accepted and laid out as those that are written.
    pub fn is_as_written(&self) -> bool {
        self.refused == 0 && is_as_written(self.file)
    }

    /// Whether the file is accepted and has so many spares.
    pub fn has_spares(&self, asked: impl Fn(usize) -> bool) -> bool {
        self.refused == 0 && asked(self.m - self.met.len())
    }

    /// Whether a record leads through others back to itself.
    fn comes_back(&self, record: usize) -> bool {
        let met = chain(&with_first(self.file, record));
        met.len() > 1 && next_of(self.file, met[met.len() - 1]) == record
    }
}

pub const GROUP: Group = Group {
    name: "chains",
    frequent: true,
    cases: &[
        (
            "3, next m + 1",
            Chain(|walk| walk.refused == 3 && walk.last_next() == walk.m + 1),
        ),
        (
            "3, next 65,535",
            Chain(|walk| walk.refused == 3 && walk.last_next() == HIGHEST_NEXT),
        ),
        (
            "3 at the first record",
            Chain(|walk| walk.refused == 3 && walk.met.len() == 1),
        ),
        (
            "3 at a later record",
            Chain(|walk| walk.refused == 3 && walk.met.len() > 1),
        ),
        (
            "16, the first record its own next",
            Chain(|walk| walk.refused == 16 && walk.met.len() == 1),
        ),
        (
            "16, a later record its own next",
            Chain(|walk| walk.met.len() > 1 && walk.cycle() == 1),
        ),
        (
            "16, back to the first record",
            Chain(|walk| walk.met.len() > 1 && walk.cycle() == walk.met.len()),
        ),
        (
            "16, a tail into a cycle",
            Chain(|walk| (2..walk.met.len()).contains(&walk.cycle())),
        ),
        (
            "3 or 16 at the last of m records",
            Chain(|walk| walk.refused > 0 && walk.met.len() == walk.m),
        ),
        (
            "3 or 16, where 4 or 5 would follow",
            Chain(|walk| walk.refused > 0 && read(&with_next(walk.file, walk.last(), 0)).is_err()),
        ),
        (
            "3 or 16, a fault stored before it",
            Chain(|walk| {
                let at_fault = |record: usize| {
                    let next = next_of(walk.file, record);
                    next > walk.m || next == record
                };
                walk.refused > 0 && (1..walk.last()).any(at_fault)
            }),
        ),
        (
            "accepted, next m",
            Chain(|walk| walk.refused == 0 && walk.met[1..].contains(&walk.m)),
        ),
        (
            "accepted, a spare over m",
            Chain(|walk| walk.spare(|_, next| next > walk.m)),
        ),
        (
            "accepted, a spare its own next",
            Chain(|walk| walk.spare(|record, next| next == record)),
        ),
        (
            "accepted, spares in a cycle",
            Chain(|walk| walk.spare(|record, _| walk.comes_back(record))),
        ),
        (
            "accepted, a spare into the chain",
            Chain(|walk| walk.spare(|_, next| walk.met.contains(&next))),
        ),
    ],
};
