//! Training: document 01, "The step".

use crate::amount::{amount, moved};
use crate::file::{read, Problem};
use crate::kernel::table;
use crate::pair::{working_pair, Pair};
use crate::refusal::Refusal;
use crate::state::State;
use crate::thresholds::Thresholds;

#[derive(Clone, Copy, PartialEq, Eq, Debug)]
pub enum Ending {
    Converged,
    Stuck,
    Spent,
}

impl Ending {
    pub fn name(self) -> &'static str {
        match self {
            Ending::Converged => "converged",
            Ending::Stuck => "stuck",
            Ending::Spent => "spent",
        }
    }
}

/// "A trained result is the ending, steps, b_low and b_up."
#[derive(Clone, Copy, PartialEq, Eq, Debug)]
pub struct Trained {
    pub ending: Ending,
    pub steps: u32,
    pub lower: i64,
    pub upper: i64,
}

/// "A step is one move."
#[derive(Clone, Copy, PartialEq, Eq, Debug)]
pub struct Step {
    pub pair: Pair,
    pub amount: i128,
}

/// A whole training with every step that it took.
pub struct Run {
    pub ending: Ending,
    pub steps: Vec<Step>,
    pub multipliers: Vec<i128>,
    pub gradient: Vec<i128>,
    pub thresholds: Thresholds,
}

/// Trains on the file. The first n places of both lent lists hold the final
/// values; on a refusal nothing lent changes.
pub fn train(
    file: &[u8],
    multipliers: &mut [u32],
    gradient: &mut [i64],
) -> Result<Trained, Refusal> {
    let problem = read(file)?;
    let n = problem.items.len();
    // Refusal 6: a lent list shorter than n.
    if multipliers.len() < n || gradient.len() < n {
        return Err(6.into());
    }
    let run = run(&problem);
    for i in 0..n {
        multipliers[i] = run.multipliers[i]
            .try_into()
            .expect("a is at most its ceiling");
        gradient[i] = narrow(run.gradient[i]);
    }
    Ok(Trained {
        ending: run.ending,
        steps: run.steps.len() as u32,
        lower: narrow(run.thresholds.lower),
        upper: narrow(run.thresholds.upper),
    })
}

/// G and the thresholds are answered as signed 64-bit numbers.
pub fn narrow(value: i128) -> i64 {
    value.try_into().expect("G and thresholds fit 64 bits")
}

/// "Start with all multipliers 0 and 0 steps", then step until an ending holds.
pub fn run(problem: &Problem) -> Run {
    let kernels = table(problem);
    let mut state = State::at(problem, &kernels, vec![0; problem.items.len()]);
    let mut steps = Vec::new();
    loop {
        match next_step(&state, steps.len()) {
            Err(ending) => return finished(ending, steps, state),
            Ok(step) => {
                let multipliers = take(&state, step.pair.i, step.pair.j, step.amount);
                state = State::at(problem, &kernels, multipliers);
                steps.push(step);
            }
        }
    }
}

/// The step to take, or the ending: "Before each step, in this order",
/// converged, stuck, spent.
fn next_step(state: &State, taken: usize) -> Result<Step, Ending> {
    let parameters = &state.problem.parameters;
    if state.thresholds.lower <= state.thresholds.upper + 2 * parameters.tolerance {
        return Err(Ending::Converged);
    }
    let pair = working_pair(state).ok_or(Ending::Stuck)?;
    if taken == parameters.budget as usize {
        return Err(Ending::Spent);
    }
    let amount = amount(state, pair.i, pair.j);
    Ok(Step { pair, amount })
}

/// The multipliers after a move of i and j by s.
pub fn take(state: &State, i: usize, j: usize, s: i128) -> Vec<i128> {
    let mut multipliers = state.multipliers.clone();
    (multipliers[i], multipliers[j]) = moved(state, i, j, s);
    multipliers
}

fn finished(ending: Ending, steps: Vec<Step>, state: State) -> Run {
    Run {
        ending,
        steps,
        multipliers: state.multipliers,
        gradient: state.gradient,
        thresholds: state.thresholds,
    }
}
