//! Classifying a word by the halfway threshold, and refusal 9.

use crate::certify::{judge_count, judge_feasible, thresholds_of};
use crate::file::{in_range, read, Problem};
use crate::refusal::Refusal;
use crate::thresholds::Thresholds;
use std::cmp::Ordering;

#[derive(Clone, Copy, PartialEq, Eq, Debug)]
pub enum Class {
    LookedUp,
    PassedOver,
    Undecided,
}

/// "Above 0 the answer is looked up; otherwise passed over", and by document 02
/// (e) "a third answer, undecided, for a score of exactly 0".
pub fn classify(file: &[u8], multipliers: &[u32], word: &[i8]) -> Result<Class, Refusal> {
    let score = doubled_score(file, multipliers, word)?;
    Ok(match score.cmp(&0) {
        Ordering::Greater => Class::LookedUp,
        Ordering::Equal => Class::Undecided,
        Ordering::Less => Class::PassedOver,
    })
}

/// The score of a word, after all that a file, multipliers and a word can be
/// refused for. "Both thresholds are those of the multipliers given, worked out
/// in the call."
pub fn doubled_score(file: &[u8], multipliers: &[u32], word: &[i8]) -> Result<i128, Refusal> {
    let problem = read(file)?;
    judge_count(&problem, multipliers)?;
    // Refusal 6: a word without exactly d features.
    if word.len() != problem.parameters.features {
        return Err(6.into());
    }
    judge_feasible(&problem, multipliers)?;
    // Refusal 9: a word's feature outside −127 to 127.
    if !word.iter().all(|&feature| in_range(feature)) {
        return Err(9.into());
    }
    let both = thresholds_of(&problem, multipliers);
    Ok(score(&problem, multipliers, both, word))
}

/// 2 × (sum of a_i × y_i × K of item i and the word) − (b_low + b_up).
pub fn score(problem: &Problem, multipliers: &[u32], both: Thresholds, word: &[i8]) -> i128 {
    2 * weighted_sum(problem, multipliers, word) - (both.lower + both.upper)
}

/// The sum of a_i × y_i × K of item i and the word.
fn weighted_sum(problem: &Problem, multipliers: &[u32], word: &[i8]) -> i128 {
    let kernel = problem.parameters.kernel;
    let pairs = problem.items.iter().zip(multipliers);
    pairs
        .map(|(item, &a)| i128::from(a) * item.label.sign() * kernel.value(&item.features, word))
        .sum()
}
