//! The working pair: document 01, "The step".

use crate::state::State;

/// i in the low set, j in the up set, and whether the pair of both thresholds
/// did not move, so that the first that moves is taken instead.
#[derive(Clone, Copy, PartialEq, Eq, Debug)]
pub struct Pair {
    pub i: usize,
    pub j: usize,
    pub fallback: bool,
}

/// The pair to move, if one moves.
pub fn working_pair(state: &State) -> Option<Pair> {
    let (i, j) = worst_pair(state);
    if moves(state, i, j) {
        let fallback = false;
        return Some(Pair { i, j, fallback });
    }
    first_pair(state)
}

/// "The pair tried first is i with G = b_low and j with G = b_up, the lowest
/// position among equals", i in the low set and j in the up set.
fn worst_pair(state: &State) -> (usize, usize) {
    let thresholds = state.thresholds;
    let i = state
        .low_set()
        .find(|&i| state.gradient[i] == thresholds.lower);
    let j = state
        .up_set()
        .find(|&j| state.gradient[j] == thresholds.upper);
    (i.expect("an item has b_low"), j.expect("an item has b_up"))
}

/// "the pair taken is the first that moves, by rising i, then rising j".
fn first_pair(state: &State) -> Option<Pair> {
    for i in state.low_set() {
        for j in state.up_set() {
            if moves(state, i, j) {
                let fallback = true;
                return Some(Pair { i, j, fallback });
            }
        }
    }
    None
}

/// "The pair moves if 2 × g > η", with g = G_i − G_j. An item never moves
/// against itself: then both sides are 0.
fn moves(state: &State, i: usize, j: usize) -> bool {
    2 * (state.gradient[i] - state.gradient[j]) > state.eta(i, j)
}
