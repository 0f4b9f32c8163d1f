//! The amount of a move: document 01, "The step".

use crate::state::State;

/// "The s taken is that of 1 to r with the lowest D, the smaller when two tie;
/// where η = 0 it is r."
pub fn amount(state: &State, i: usize, j: usize) -> i128 {
    if state.eta(i, j) == 0 {
        room(state, i, j)
    } else {
        best_amount(state, i, j)
    }
}

/// "A move by s lowers a_i × y_i by s and raises a_j × y_j by s": the new a_i
/// and a_j.
pub fn moved(state: &State, i: usize, j: usize, s: i128) -> (i128, i128) {
    (
        state.multipliers[i] - state.sign(i) * s,
        state.multipliers[j] + state.sign(j) * s,
    )
}

/// r, the largest s that keeps each of both in 0 to its ceiling, found by
/// counting up.
pub fn room(state: &State, i: usize, j: usize) -> i128 {
    let fits = |position: usize, a: i128| (0..=state.problem.ceiling(position)).contains(&a);
    let keeps = |s| {
        let (a_i, a_j) = moved(state, i, j, s);
        fits(i, a_i) && fits(j, a_j)
    };
    (0..)
        .take_while(|&s| keeps(s))
        .last()
        .expect("a move by 0 keeps both")
}

/// The s of 1 to r with the lowest D. Every s is tried; only a strictly lower D
/// replaces the one held, so the smaller of two that tie is kept.
fn best_amount(state: &State, i: usize, j: usize) -> i128 {
    let others = Others::of(state, i, j);
    let part = |s| {
        let (a_i, a_j) = moved(state, i, j, s);
        part_of_objective(state, &others, (i, a_i), (j, a_j))
    };
    let mut best = (part(1), 1);
    for s in 2..=room(state, i, j) {
        let tried = part(s);
        if tried < best.0 {
            best = (tried, s);
        }
    }
    best.1
}

/// The sums over the items other than i and j of a_q × y_q × K, for i and for
/// j. A move of i and j leaves them alone, so they are taken once for all trials.
struct Others {
    with_i: i128,
    with_j: i128,
}

impl Others {
    fn of(state: &State, i: usize, j: usize) -> Others {
        let rest = |&q: &usize| q != i && q != j;
        let term = |k: usize, q: usize| state.multipliers[q] * state.sign(q) * state.kernels[k][q];
        let positions = 0..state.multipliers.len();
        let sum = |k: usize| positions.clone().filter(rest).map(|q| term(k, q)).sum();
        Others {
            with_i: sum(i),
            with_j: sum(j),
        }
    }
}

/// The terms of D that hold a_i or a_j, for the values given. The other terms
/// are the same for every amount, so the lowest D is where this is lowest.
/// Each mixed term stands twice in the double sum; y × y is 1.
fn part_of_objective(
    state: &State,
    others: &Others,
    (i, a_i): (usize, i128),
    (j, a_j): (usize, i128),
) -> i128 {
    let kernels = state.kernels;
    let signed_i = a_i * state.sign(i);
    let signed_j = a_j * state.sign(j);
    let own = signed_i * signed_i * kernels[i][i] + signed_j * signed_j * kernels[j][j];
    let mutual = 2 * signed_i * signed_j * kernels[i][j];
    let outward = 2 * signed_i * others.with_i + 2 * signed_j * others.with_j;
    own + mutual + outward - 2 * state.problem.parameters.units * (a_i + a_j)
}

#[cfg(test)]
mod tests {
    use super::*;
    use crate::file::{read, Problem};
    use crate::generate::{self, Random};
    use crate::gradient::objective;
    use crate::kernel::table;
    use crate::training::{run, take};

    /// The trials look at a part of D. Here the whole of D decides, for every
    /// step of many trainings.
    #[test]
    fn amounts_are_those_of_the_whole_objective() {
        let mut random = Random::new(11);
        for _ in 0..300 {
            follow(&read(&generate::tiny(&mut random)).expect("accepted"));
        }
    }

    fn follow(problem: &Problem) {
        let kernels = table(problem);
        let mut state = State::at(problem, &kernels, vec![0; problem.items.len()]);
        for step in run(problem).steps {
            let (i, j) = (step.pair.i, step.pair.j);
            let after = |s| objective(problem, &kernels, &take(&state, i, j, s));
            let lowest = (1..=room(&state, i, j)).map(|s| (after(s), s)).min();
            let lowest = lowest.expect("room for a move");
            assert_eq!(lowest.1, step.amount);
            assert!(lowest.0 < after(0), "each step lowers D by at least 1");
            state = State::at(problem, &kernels, take(&state, i, j, step.amount));
        }
    }
}
