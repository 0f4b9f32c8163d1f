//! Where a training stands: multipliers with all that follows from them.

use crate::file::Problem;
use crate::gradient::gradient;
use crate::kernel::{eta, Table};
use crate::thresholds::{in_low_set, in_up_set, thresholds, Thresholds};

pub struct State<'a> {
    pub problem: &'a Problem,
    pub kernels: &'a Table,
    pub multipliers: Vec<i128>,
    pub gradient: Vec<i128>,
    pub thresholds: Thresholds,
}

impl<'a> State<'a> {
    /// G and both thresholds are worked out anew from the multipliers, so that
    /// nothing carried along can be wrong.
    pub fn at(problem: &'a Problem, kernels: &'a Table, multipliers: Vec<i128>) -> State<'a> {
        let gradient = gradient(problem, kernels, &multipliers);
        let thresholds = thresholds(problem, &multipliers, &gradient);
        State {
            problem,
            kernels,
            multipliers,
            gradient,
            thresholds,
        }
    }

    /// The positions of the low set, rising.
    pub fn low_set(&self) -> impl Iterator<Item = usize> + '_ {
        (0..self.multipliers.len()).filter(|&i| in_low_set(self.problem, &self.multipliers, i))
    }

    /// The positions of the up set, rising.
    pub fn up_set(&self) -> impl Iterator<Item = usize> + '_ {
        (0..self.multipliers.len()).filter(|&j| in_up_set(self.problem, &self.multipliers, j))
    }

    pub fn eta(&self, i: usize, j: usize) -> i128 {
        eta(self.kernels, i, j)
    }

    /// y of the item at a position.
    pub fn sign(&self, position: usize) -> i128 {
        self.problem.items[position].label.sign()
    }
}
