//! The multipliers that a caller hands in beside the file, right and wrong.

use super::random::Random;
use crate::file::{Label, Problem, HIGHEST_CEILING};
use crate::thresholds::{in_low_set, in_up_set};
use crate::training::run;

/// What a caller may hand in: those that training left, others that are feasible,
/// or wrong ones. Without a problem the file is refused, and any will do.
pub fn handed_in(problem: Option<&Problem>, trained: &[u32], random: &mut Random) -> Vec<u32> {
    let problem = match problem {
        Some(problem) => problem,
        None => return any(random),
    };
    match random.below(10) {
        0..=2 => trained.to_vec(),
        3..=6 => feasible(problem, random),
        _ => spoilt(problem, random),
    }
}

/// Feasible multipliers: zeros, those of a short training, those of pairs with
/// one multiplier each, those at their ceilings as far as there is balance, or
/// those that random moves of two lead to.
pub fn feasible(problem: &Problem, random: &mut Random) -> Vec<u32> {
    let lower = lower_ceiling(problem);
    let multipliers = match random.below(10) {
        0 => vec![0; problem.items.len()],
        1 => trained_briefly(problem, random),
        2 => paired(problem, || lower),
        3 | 4 => paired(problem, || random.between(0, lower as i64).into()),
        5 | 6 => filled(problem, random),
        _ => wandered(problem, random),
    };
    multipliers.into_iter().map(|a| a as u32).collect()
}

/// What an item of either label may have.
fn lower_ceiling(problem: &Problem) -> i128 {
    let [looked_up, passed_over] = problem.parameters.ceilings();
    looked_up.min(passed_over)
}

/// The positions of the items of a label.
fn positions(problem: &Problem, label: Label) -> Vec<usize> {
    let mut positions: Vec<usize> = (0..problem.items.len()).collect();
    positions.retain(|&i| problem.items[i].label == label);
    positions
}

/// The multipliers after a few steps of training.
fn trained_briefly(problem: &Problem, random: &mut Random) -> Vec<i128> {
    let mut short = problem.clone();
    short.parameters.budget = problem.parameters.budget.min(random.below(4) as u32);
    run(&short).multipliers
}

/// The first items of each label in pairs, as many as there are: both of a pair
/// get the same multiplier. Mirrored items are such pairs.
fn paired(problem: &Problem, mut multiplier: impl FnMut() -> i128) -> Vec<i128> {
    let [plus, minus] = Label::BOTH.map(|label| positions(problem, label));
    let mut multipliers = vec![0; problem.items.len()];
    for (plus, minus) in plus.into_iter().zip(minus) {
        multipliers[plus] = multiplier();
        multipliers[minus] = multipliers[plus];
    }
    multipliers
}

/// One sum for both labels, often the greatest that both can have: items go to
/// their ceilings, one after another, until what is left of it is less. So
/// multipliers over the other label's ceiling are frequent.
fn filled(problem: &Problem, random: &mut Random) -> Vec<i128> {
    let mut both = Label::BOTH.map(|label| positions(problem, label));
    let room = |positions: &Vec<usize>| positions.iter().map(|&i| problem.ceiling(i)).sum();
    let most: i128 = both.iter().map(room).min().expect("two labels");
    let less = random.between(1, most as i64).into();
    let sum = random.pick(&[most, less]);
    let mut multipliers = vec![0; problem.items.len()];
    for positions in &mut both {
        random.shuffle(positions);
        let mut left = sum;
        for &i in positions.iter() {
            multipliers[i] = left.min(problem.ceiling(i));
            left -= multipliers[i];
        }
    }
    multipliers
}

/// From zeros by random moves: an item of the low set against one of the up
/// set, by any amount that both can take. Some moves go to the end, so that
/// multipliers at 0 and at their ceilings are frequent.
fn wandered(problem: &Problem, random: &mut Random) -> Vec<i128> {
    let n = problem.items.len();
    let mut multipliers = vec![0; n];
    for _ in 0..random.between(1, 2 * n as i64) {
        let i = random.below(n as u64) as usize;
        let j = random.below(n as u64) as usize;
        if i == j || !in_low_set(problem, &multipliers, i) || !in_up_set(problem, &multipliers, j) {
            continue;
        }
        let (sign_i, sign_j) = (problem.items[i].label.sign(), problem.items[j].label.sign());
        let room_towards = |k: usize, direction: i128| match direction {
            1 => problem.ceiling(k) - multipliers[k],
            _ => multipliers[k],
        };
        let room = room_towards(i, -sign_i).min(room_towards(j, sign_j));
        let amount = if random.chance(1, 3) {
            room
        } else {
            random.between(1, room as i64).into()
        };
        multipliers[i] -= sign_i * amount;
        multipliers[j] += sign_j * amount;
    }
    multipliers
}

/// Multipliers that are off in one or more ways: over a ceiling, their own or the
/// other label's, unbalanced, or of a wrong number.
fn spoilt(problem: &Problem, random: &mut Random) -> Vec<u32> {
    let mut multipliers = feasible(problem, random);
    for _ in 0..random.pick(&[1, 1, 1, 2]) {
        spoil(&mut multipliers, problem, random);
    }
    multipliers
}

fn spoil(multipliers: &mut Vec<u32>, problem: &Problem, random: &mut Random) {
    let ceiling = random.pick(&problem.parameters.ceilings()) as u32;
    let more = random.below(u64::from(ceiling) + 2) as u32;
    if multipliers.is_empty() {
        multipliers.push(more);
        return;
    }
    let place = random.below(multipliers.len() as u64) as usize;
    match random.below(8) {
        0 => multipliers[place] += 1,
        1 => multipliers[place] = multipliers[place].saturating_sub(1),
        2 => multipliers[place] = ceiling + 1,
        3 => multipliers[place] = random.pick(&[u32::MAX, 1 << 31, u32::MAX - 1]),
        4 => over_lower_ceiling_in_balance(multipliers, problem),
        5 => multipliers.truncate(place),
        6 => multipliers.push(random.pick(&[0, more])),
        _ => multipliers
            .iter_mut()
            .for_each(|a| *a = random.below(u64::from(ceiling) + 2) as u32),
    }
}

/// One item of each label just over the lower of both ceilings, all others 0:
/// refusal 7 alone, and where the ceilings differ, for one item alone.
fn over_lower_ceiling_in_balance(multipliers: &mut [u32], problem: &Problem) {
    let over = lower_ceiling(problem) as u32 + 1;
    multipliers.fill(0);
    for label in Label::BOTH {
        let place = positions(problem, label)[0];
        if let Some(multiplier) = multipliers.get_mut(place) {
            *multiplier = over;
        }
    }
}

/// Any multipliers, for a file that is refused.
fn any(random: &mut Random) -> Vec<u32> {
    (0..random.below(6))
        .map(|_| random.below(HIGHEST_CEILING + 2) as u32)
        .collect()
}
