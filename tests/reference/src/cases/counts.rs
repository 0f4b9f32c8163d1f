//! How often each case was met, and the lines that say it.

use super::{Drawn, GROUPS};

/// Counts beside each other in a line, and the places of a name.
const COLUMNS: usize = 3;
const NAME: usize = 38;

/// In the order of the groups and of their cases.
#[derive(Clone)]
pub struct Counts {
    counts: Vec<Vec<usize>>,
}

impl Default for Counts {
    fn default() -> Counts {
        let zeros = GROUPS.iter().map(|group| vec![0; group.cases.len()]);
        Counts {
            counts: zeros.collect(),
        }
    }
}

impl Counts {
    pub fn count(&mut self, drawn: &Drawn) {
        for (group, counts) in GROUPS.iter().zip(&mut self.counts) {
            for ((_, shows), count) in group.cases.iter().zip(counts) {
                *count += shows.count(drawn);
            }
        }
    }

    pub fn add(&mut self, other: &Counts) {
        let counts = self.counts.iter_mut().flatten();
        for (count, more) in counts.zip(other.counts.iter().flatten()) {
            *count += more;
        }
    }

    /// Each group's name, and below it the counts of its cases, but for those that
    /// were not met.
    pub fn lines(&self) -> Vec<String> {
        let mut lines = Vec::new();
        for (group, counts) in GROUPS.iter().zip(&self.counts) {
            let met = group.cases.iter().zip(counts);
            let met = met.filter(|&(_, &count)| count > 0);
            let cells = met.map(|((name, _), count)| format!("{count:>7} {name:<NAME$}"));
            let cells: Vec<String> = cells.collect();
            if !cells.is_empty() {
                lines.push(group.name.into());
            }
            let rows = cells.chunks(COLUMNS).map(|row| row.concat());
            lines.extend(rows.map(|row| row.trim_end().to_string()));
        }
        lines
    }

    /// The cases that were not met.
    pub fn missing(&self) -> Vec<String> {
        let mut missing = Vec::new();
        for (group, counts) in GROUPS.iter().zip(&self.counts) {
            for ((name, _), &count) in group.cases.iter().zip(counts) {
                if count == 0 {
                    missing.push(format!("{}: {name}", group.name));
                }
            }
        }
        missing
    }
}
