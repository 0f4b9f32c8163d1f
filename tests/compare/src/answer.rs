//! What the C interface takes and answers in place of the reference's own types. The
//! mirror of `stub` answers by it, too.

#[path = "../../../include/lookahead.rs"]
pub mod declared;

pub use declared::{LookaheadAnswer, LookaheadItem, LookaheadParameters, LookaheadReading};
use reference::write::{Numbers, Row};
use reference::{Contents, Refusal};

/// "rows of 17 signed bytes: sixteen features, then the label's number": a row of the
/// reference is the memory of an item, which is what makes a cast between them right.
const _: () = assert!(std::mem::size_of::<LookaheadItem>() == std::mem::size_of::<Row>());

/// The answer of a call that refuses nothing.
pub const ACCEPTED: LookaheadAnswer = LookaheadAnswer {
    number: 0,
    record: 0,
};

/// "after a refusal items and all parameters are 0" of the C interface.
pub const NOTHING_READ: LookaheadReading = LookaheadReading {
    answer: ACCEPTED,
    items: 0,
    parameters: LookaheadParameters {
        used: 0,
        kernel: 0,
        grid: 0,
        ceiling: 0,
        second_ceiling: 0,
        tolerance: 0,
        budget: 0,
    },
};

/// "record: ... otherwise 0" of the C interface.
pub fn refused(refusal: Refusal) -> LookaheadAnswer {
    LookaheadAnswer {
        number: refusal.number,
        record: refusal.record.unwrap_or(0),
    }
}

/// What reading answers.
pub fn reading(read: Result<Contents, Refusal>) -> LookaheadReading {
    match read {
        Err(refusal) => LookaheadReading {
            answer: refused(refusal),
            ..NOTHING_READ
        },
        Ok(contents) => LookaheadReading {
            answer: ACCEPTED,
            items: contents.items,
            parameters: parameters(&contents.parameters),
        },
    }
}

pub fn parameters(numbers: &Numbers) -> LookaheadParameters {
    LookaheadParameters {
        used: numbers.used,
        kernel: numbers.kernel,
        grid: numbers.grid,
        ceiling: numbers.ceiling,
        second_ceiling: numbers.second_ceiling,
        tolerance: numbers.tolerance,
        budget: numbers.budget,
    }
}

pub fn numbers(parameters: &LookaheadParameters) -> Numbers {
    Numbers {
        used: parameters.used,
        kernel: parameters.kernel,
        grid: parameters.grid,
        ceiling: parameters.ceiling,
        second_ceiling: parameters.second_ceiling,
        tolerance: parameters.tolerance,
        budget: parameters.budget,
    }
}
