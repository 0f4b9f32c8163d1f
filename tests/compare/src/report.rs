//! What is printed: a difference with all that is needed to see it again, and
//! how often each answer and each case was met.

use reference::cases::Counts;
use std::collections::BTreeMap;
use std::fmt::{Arguments, Debug};

pub struct Difference {
    text: String,
}

impl Difference {
    pub fn boxed(
        call: &str,
        file: &[u8],
        handed: Arguments,
        expected: &dyn Debug,
        answered: &dyn Debug,
    ) -> Box<Difference> {
        let hex = hex(file);
        let text = format!(
            "difference in {call}\nfile {hex}\nhanded in {handed}\n\
             reference {expected:?}\nlibrary   {answered:?}"
        );
        Box::new(Difference { text })
    }

    pub fn print(&self, number: u64) {
        println!("file number {number}: {}", self.text);
    }
}

pub fn hex(bytes: &[u8]) -> String {
    bytes.iter().map(|byte| format!("{byte:02x}")).collect()
}

/// A call, with all that the reference can answer.
struct Call {
    name: &'static str,
    /// Kernels, endings or classes, by their numbers in the C interface.
    answers: &'static [(u8, &'static str)],
    /// In the order of the tests.
    refusals: &'static [u8],
}

const KERNELS: [(u8, &str); 3] = [(0, "linear"), (1, "square"), (2, "overlap")];

const CALLS: [Call; 7] = [
    Call {
        name: "read",
        answers: &KERNELS,
        refusals: &[1, 2, 3, 16, 4, 5],
    },
    Call {
        name: "train",
        answers: &[(1, "converged"), (2, "stuck"), (3, "spent")],
        refusals: &[1, 2, 3, 16, 4, 5, 6],
    },
    Call {
        name: "certify",
        answers: &[(0, "answered")],
        refusals: &[1, 2, 3, 16, 4, 5, 6, 7, 8],
    },
    Call {
        name: "classify",
        answers: &[(1, "looked up"), (2, "passed over"), (3, "undecided")],
        refusals: &[1, 2, 3, 16, 4, 5, 6, 7, 8, 9],
    },
    Call {
        name: "write",
        answers: &KERNELS,
        refusals: &[2, 1, 4, 5, 10],
    },
    Call {
        name: "import",
        answers: &KERNELS,
        refusals: &[2, 11, 12, 4, 5, 10],
    },
    Call {
        name: "pool",
        answers: &KERNELS,
        refusals: &[1, 2, 3, 16, 4, 5, 14, 15, 10],
    },
];

/// How often the reference gave each answer: by call, then by refusal, and by
/// kernel, ending or class where there is none. And how often each case was met.
#[derive(Default)]
pub struct Tally {
    counts: BTreeMap<(&'static str, u8, u8), u64>,
    pub cases: Counts,
}

impl Tally {
    pub fn count(&mut self, call: &'static str, refusal: u8, answer: u8) {
        let answer = if refusal == 0 { answer } else { 0 };
        *self.counts.entry((call, refusal, answer)).or_default() += 1;
    }

    pub fn add(&mut self, other: &Tally) {
        self.cases.add(&other.cases);
        for (&key, count) in &other.counts {
            *self.counts.entry(key).or_default() += count;
        }
    }

    /// Every answer that a call can give, with its count.
    fn answers(&self, call: &Call) -> Vec<(String, u64)> {
        let count = |refusal, answer| {
            let count = self.counts.get(&(call.name, refusal, answer));
            count.copied().unwrap_or(0)
        };
        let answers = call.answers.iter();
        let answers = answers.map(|&(answer, name)| (name.to_string(), count(0, answer)));
        let refusals = call.refusals.iter();
        let refusals = refusals.map(|&number| (format!("refused {number}"), count(number, 0)));
        answers.chain(refusals).collect()
    }

    pub fn print(&self) {
        for call in &CALLS {
            let mut answers = self.answers(call);
            answers.retain(|&(_, count)| count > 0);
            let parts: Vec<String> = answers
                .iter()
                .map(|(name, count)| format!("{name} {count}"))
                .collect();
            println!("{:<9} {}", call.name, parts.join(", "));
        }
        for line in self.cases.lines() {
            println!("{line}");
        }
    }

    /// The answers and the cases that were not met.
    pub fn missing(&self) -> Vec<String> {
        let mut missing = self.cases.missing();
        for call in &CALLS {
            let answers = self.answers(call).into_iter();
            let unmet = answers.filter(|&(_, count)| count == 0);
            missing.extend(unmet.map(|(name, _)| format!("{}: {name}", call.name)));
        }
        missing
    }
}
