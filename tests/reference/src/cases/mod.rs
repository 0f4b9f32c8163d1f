//! What a comparison has to meet, and how often it did: cases that a file can
//! show, a list of multipliers certified, a word classified, or a call of writing,
//! importing or pooling.
//! The reference's tests, the comparison and the program `stored` all count by
//! these tables.

mod ceilings;
mod chains;
mod counts;
mod header;
mod import_call;
mod imported;
mod not_imported;
mod not_pooled;
mod not_written;
mod overlap;
mod pool_call;
mod pooled;
mod undecided;
mod written;

use crate::certify::{judge_count, judge_feasible, thresholds_of};
use crate::classify::{doubled_score, score};
use crate::file::{judge_numbers, read, Label, Problem, STORED_FEATURES};
use crate::generate::importing::Importing;
use crate::generate::pooling::Pooling;
use crate::generate::writing::Writing;
use crate::generate::{first_pools, first_texts};
use crate::refusal::Refusal;
use crate::training::{run, Run};
use crate::write::{judge_both_labels, judge_output, judge_row_count, judge_rows, Row};
use chains::Walk;
pub use counts::Counts;
pub use import_call::ImportCall;
pub use pool_call::PoolCall;

/// Cases of one kind. Those of a frequent group are each met in one random file
/// of two hundred, or the test of the generators fails.
pub struct Group {
    pub name: &'static str,
    pub frequent: bool,
    pub cases: &'static [Case],
}

pub const GROUPS: [Group; 17] = [
    header::ENDS,
    header::REFUSED,
    chains::GROUP,
    ceilings::GROUP,
    overlap::GROUP,
    undecided::GROUP,
    written::WRITTEN,
    not_written::BEYOND,
    not_written::REFUSED,
    imported::GROUP,
    imported::FIRST,
    not_imported::FORM,
    not_imported::REFUSED,
    pooled::GROUP,
    pooled::FIRST,
    not_pooled::FILES,
    not_pooled::REFUSED,
];

/// A name, and what shows the case.
pub type Case = (&'static str, Shows);

pub enum Shows {
    File(fn(&Drawn) -> bool),
    /// A file that is accepted or refused with 3 or 16.
    Chain(fn(&Walk) -> bool),
    Accepted(fn(&Accepted) -> bool),
    /// A list certified, of an accepted file.
    List(fn(&Accepted, &List) -> bool),
    /// A word classified, of an accepted file.
    Word(fn(&Accepted, &Word) -> bool),
    /// A call of writing, whatever the file.
    Write(fn(&WriteCall) -> bool),
    /// A call of importing, whatever the file.
    Import(fn(&ImportCall) -> bool),
    /// A text of those that are met in each comparison.
    Text(first_texts::Kind),
    /// A call of pooling, whatever the file.
    Pool(fn(&PoolCall) -> bool),
    /// Two files of those that are pooled in each comparison.
    Pair(first_pools::Kind),
}

impl Shows {
    /// How often a file, with all that is drawn for it, shows the case.
    pub fn count(&self, drawn: &Drawn) -> usize {
        let accepted = drawn.read.as_ref().ok();
        match self {
            Shows::File(shows) => shows(drawn).into(),
            Shows::Chain(shows) => Walk::of(drawn).map_or(false, |walk| shows(&walk)).into(),
            Shows::Accepted(shows) => accepted.map_or(false, shows).into(),
            Shows::List(shows) => accepted.map_or(0, |file| {
                let lists = drawn.lists.iter();
                lists.filter(|list| shows(file, list)).count()
            }),
            Shows::Word(shows) => accepted.map_or(0, |file| {
                let words = drawn.words.iter();
                words.filter(|word| shows(file, word)).count()
            }),
            Shows::Write(shows) => {
                let calls = drawn.write_calls.iter();
                calls.filter(|call| shows(call)).count()
            }
            Shows::Import(shows) => {
                let calls = drawn.import_calls.iter();
                calls.filter(|call| shows(call)).count()
            }
            Shows::Text(kind) => drawn.texts.iter().filter(|&met| met == kind).count(),
            Shows::Pool(shows) => {
                let calls = drawn.pool_calls.iter();
                calls.filter(|call| shows(call)).count()
            }
            Shows::Pair(kind) => drawn.pairs.iter().filter(|&met| met == kind).count(),
        }
    }
}

/// A file, and what a caller hands in beside it.
pub struct Drawn {
    pub file: Vec<u8>,
    pub read: Result<Accepted, Refusal>,
    pub lists: Vec<List>,
    pub words: Vec<Word>,
    pub write_calls: Vec<WriteCall>,
    pub import_calls: Vec<ImportCall>,
    pub texts: Vec<first_texts::Kind>,
    pub pool_calls: Vec<PoolCall>,
    pub pairs: Vec<first_pools::Kind>,
}

/// What an accepted file holds, and its training.
pub struct Accepted {
    pub problem: Problem,
    pub run: Run,
}

/// A list of multipliers, and what refuses it, 0 where it is accepted.
pub struct List {
    pub multipliers: Vec<u32>,
    pub refused: u8,
}

/// A word with the multipliers that it is classified by.
pub struct Word {
    pub features: Vec<i8>,
    pub multipliers: Vec<u32>,
    pub score: Result<i128, Refusal>,
    /// Whether it is on a line that decides one of the file's own items. Where
    /// the line decides none, as with multipliers of 0 or with items all alike,
    /// every word is undecided, and that shows little.
    pub on_a_line: bool,
}

/// A call of writing.
pub struct WriteCall {
    pub handed: Writing,
    /// The refusals whose tests fail, each made by itself, in the order of the tests:
    /// the first is the answer, and without any the file is written.
    pub at_fault: Vec<u8>,
}

impl Drawn {
    pub fn of(file: Vec<u8>) -> Drawn {
        let accepted = |problem: Problem| {
            let run = run(&problem);
            Accepted { problem, run }
        };
        Drawn {
            read: read(&file).map(accepted),
            file,
            lists: Vec::new(),
            words: Vec::new(),
            write_calls: Vec::new(),
            import_calls: Vec::new(),
            texts: Vec::new(),
            pool_calls: Vec::new(),
            pairs: Vec::new(),
        }
    }

    pub fn problem(&self) -> Option<&Problem> {
        self.read.as_ref().ok().map(|accepted| &accepted.problem)
    }

    /// The multipliers that training leaves, none where the file is refused.
    pub fn trained(&self) -> Vec<u32> {
        let left =
            |accepted: &Accepted| accepted.run.multipliers.iter().map(|&a| a as u32).collect();
        self.read.as_ref().map_or(Vec::new(), left)
    }

    /// Adds a list that is certified.
    pub fn certify(&mut self, multipliers: Vec<u32>) {
        let refused = self.problem().map_or(0, |problem| {
            let counted = judge_count(problem, &multipliers);
            let judged = counted.and_then(|()| judge_feasible(problem, &multipliers));
            judged.err().unwrap_or(0)
        });
        self.lists.push(List {
            multipliers,
            refused,
        });
    }

    /// Adds a word that is classified.
    pub fn classify(&mut self, multipliers: Vec<u32>, features: Vec<i8>) {
        let score = doubled_score(&self.file, &multipliers, &features);
        let decides = |problem| line_decides(problem, &multipliers);
        let on_a_line = score == Ok(0) && self.problem().map_or(false, decides);
        self.words.push(Word {
            features,
            multipliers,
            score,
            on_a_line,
        });
    }

    /// Adds a call of writing.
    pub fn write(&mut self, handed: Writing) {
        self.write_calls.push(WriteCall::of(handed));
    }

    /// Adds a call of importing that is drawn.
    pub fn import(&mut self, handed: Importing) {
        self.import_calls.push(ImportCall::of(handed));
    }

    /// Adds a call of pooling that is drawn.
    pub fn pool(&mut self, handed: Pooling) {
        self.pool_calls.push(PoolCall::of(handed));
    }
}

/// Whether the line of feasible multipliers decides an item.
fn line_decides(problem: &Problem, multipliers: &[u32]) -> bool {
    let both = thresholds_of(problem, multipliers);
    let mut items = problem.items.iter();
    items.any(|item| score(problem, multipliers, both, &item.features) != 0)
}

impl Accepted {
    fn has_feature(&self, feature: i8) -> bool {
        let mut items = self.problem.items.iter();
        items.any(|item| item.features.contains(&feature))
    }

    /// Whether some multiplier of a label is as asked for.
    fn some(&self, multipliers: &[u32], label: Label, asked: impl Fn(i128) -> bool) -> bool {
        let mut items = self.problem.items.iter().zip(multipliers);
        items.any(|(item, &a)| item.label == label && asked(a.into()))
    }
}

impl Word {
    /// Whether it is classified, with such a score.
    fn scored(&self, asked: impl Fn(i128) -> bool) -> bool {
        self.score.map_or(false, asked)
    }

    fn is_classified_with(&self, feature: i8) -> bool {
        self.score.is_ok() && self.features.contains(&feature)
    }
}

impl WriteCall {
    /// With a d beyond its range, no feature is past d.
    pub fn of(handed: Writing) -> WriteCall {
        let (rows, d) = (&handed.rows, handed.numbers.used);
        let in_range = (1..=STORED_FEATURES).contains(&d);
        let used = if in_range { d } else { STORED_FEATURES };
        let tests = [
            judge_numbers(&handed.numbers).err(),
            judge_row_count(rows).err(),
            judge_rows(rows, used).err(),
            judge_both_labels(rows).err(),
            judge_output(rows, handed.places).err(),
        ];
        WriteCall {
            at_fault: tests.into_iter().flatten().collect(),
            handed,
        }
    }

    fn some(&self, asked: impl Fn(&Row) -> bool) -> bool {
        self.handed.rows.iter().any(asked)
    }

    fn has_feature(&self, feature: i8) -> bool {
        let used = self.handed.numbers.used;
        self.some(|row| row[..used].contains(&feature))
    }
}
