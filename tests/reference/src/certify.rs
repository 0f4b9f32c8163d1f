//! Certifying: the thresholds of any feasible multipliers, and refusals 6 to 8.

use crate::file::{read, Problem};
use crate::gradient::gradient;
use crate::kernel::table;
use crate::refusal::Refusal;
use crate::thresholds::{thresholds, Thresholds};
use crate::training::narrow;

/// (b_low, b_up) of the multipliers given.
pub fn certify(file: &[u8], multipliers: &[u32]) -> Result<(i64, i64), Refusal> {
    let problem = read(file)?;
    judge_count(&problem, multipliers)?;
    judge_feasible(&problem, multipliers)?;
    let both = thresholds_of(&problem, multipliers);
    Ok((narrow(both.lower), narrow(both.upper)))
}

/// Refusal 6: multipliers not n in number.
pub fn judge_count(problem: &Problem, multipliers: &[u32]) -> Result<(), u8> {
    if multipliers.len() == problem.items.len() {
        Ok(())
    } else {
        Err(6)
    }
}

/// Refusal 7, a multiplier over its item's ceiling, for the whole list ahead of
/// refusal 8, the sum of a × y is not 0.
pub fn judge_feasible(problem: &Problem, multipliers: &[u32]) -> Result<(), u8> {
    let over = |i: usize| i128::from(multipliers[i]) > problem.ceiling(i);
    if (0..multipliers.len()).any(over) {
        return Err(7);
    }
    let sum: i128 = problem
        .items
        .iter()
        .zip(multipliers)
        .map(|(item, &a)| i128::from(a) * item.label.sign())
        .sum();
    if sum != 0 {
        return Err(8);
    }
    Ok(())
}

/// Both thresholds of feasible multipliers.
pub fn thresholds_of(problem: &Problem, multipliers: &[u32]) -> Thresholds {
    let wide: Vec<i128> = multipliers.iter().map(|&a| a.into()).collect();
    let gradient = gradient(problem, &table(problem), &wide);
    thresholds(problem, &wide, &gradient)
}
