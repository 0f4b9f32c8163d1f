//! The up set, the low set and both thresholds: document 01, "Grid definitions",
//! with document 02, request (f): "both sets ... use the item's own ceiling".

use crate::file::{Label, Problem};

/// Up set: y = +1 with a below its ceiling, or y = −1 with a > 0.
pub fn in_up_set(problem: &Problem, multipliers: &[i128], i: usize) -> bool {
    match problem.items[i].label {
        Label::LookedUp => multipliers[i] < problem.ceiling(i),
        Label::PassedOver => multipliers[i] > 0,
    }
}

/// Low set: y = +1 with a > 0, or y = −1 with a below its ceiling.
pub fn in_low_set(problem: &Problem, multipliers: &[i128], i: usize) -> bool {
    match problem.items[i].label {
        Label::LookedUp => multipliers[i] > 0,
        Label::PassedOver => multipliers[i] < problem.ceiling(i),
    }
}

#[derive(Clone, Copy, PartialEq, Eq, Debug)]
pub struct Thresholds {
    /// b_low, the greatest G over the low set.
    pub lower: i128,
    /// b_up, the least G over the up set.
    pub upper: i128,
}

/// "With both labels present and a feasible, neither set is empty."
pub fn thresholds(problem: &Problem, multipliers: &[i128], gradient: &[i128]) -> Thresholds {
    let positions = 0..problem.items.len();
    let low = positions
        .clone()
        .filter(|&i| in_low_set(problem, multipliers, i));
    let up = positions.filter(|&i| in_up_set(problem, multipliers, i));
    Thresholds {
        lower: low
            .map(|i| gradient[i])
            .max()
            .expect("the low set is not empty"),
        upper: up
            .map(|i| gradient[i])
            .min()
            .expect("the up set is not empty"),
    }
}
