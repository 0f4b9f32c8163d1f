//! A second implementation of document 01, with the requests of document 02 that
//! have landed, written from these papers alone.
//!
//! It is plain and slow so that it can be believed: G is worked out from its
//! definition before every step, the amount of a move is found by trying every
//! amount, and a working pair is found by looking at the pairs in order. Sums
//! are held in 128 bits, so that no width has to be argued for.

mod amount;
pub mod cases;
mod certify;
mod classify;
mod contents;
pub mod examples;
pub mod file;
pub mod generate;
pub mod gradient;
pub mod import;
pub mod kernel;
mod listing;
mod pair;
pub mod pool;
mod refusal;
pub mod settled;
pub mod settled_pools;
mod state;
pub mod thresholds;
mod training;
pub mod write;

pub use certify::certify;
pub use classify::{classify, Class};
pub use contents::{contents, Contents};
pub use listing::listing;
pub use pair::Pair;
pub use refusal::Refusal;
pub use training::{run, train, Ending, Run, Step, Trained};

#[cfg(test)]
mod tests;
