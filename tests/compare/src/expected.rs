//! What the reference expects to be seen after a call: its answer where it
//! gives one, and what stood there before where it refuses.

use crate::answer::{reading, refused, ACCEPTED};
use crate::library::{CertifyAnswer, ClassifyAnswer, ReadAnswer, TrainAnswer, WriteAnswer};
use reference::generate::importing::Importing;
use reference::generate::pooling::Pooling;
use reference::generate::writing::Writing;
use reference::{Class, Ending, Refusal};

/// "ending: 1 converged, 2 stuck, 3 spent" of the C interface.
fn ending_number(ending: Ending) -> u8 {
    match ending {
        Ending::Converged => 1,
        Ending::Stuck => 2,
        Ending::Spent => 3,
    }
}

/// "class: 1 looked up, 2 passed over, 3 undecided" of the C interface.
fn class_number(class: Class) -> u8 {
    match class {
        Class::LookedUp => 1,
        Class::PassedOver => 2,
        Class::Undecided => 3,
    }
}

pub fn read(file: &[u8], before: &ReadAnswer) -> ReadAnswer {
    let mut after = before.clone();
    after.returned = reading(reference::contents(file, &mut after.order));
    after
}

pub fn train(file: &[u8], before: &TrainAnswer) -> TrainAnswer {
    let mut after = before.clone();
    match reference::train(file, &mut after.multipliers, &mut after.gradient) {
        Err(refusal) => after.returned = refused(refusal),
        Ok(trained) => {
            after.returned = ACCEPTED;
            after.ending = ending_number(trained.ending);
            after.steps = trained.steps;
            after.lower = trained.lower;
            after.upper = trained.upper;
        }
    }
    after
}

pub fn certify(file: &[u8], multipliers: &[u32], before: &CertifyAnswer) -> CertifyAnswer {
    match reference::certify(file, multipliers) {
        Err(refusal) => CertifyAnswer {
            returned: refused(refusal),
            ..before.clone()
        },
        Ok((lower, upper)) => CertifyAnswer {
            returned: ACCEPTED,
            lower,
            upper,
            ..before.clone()
        },
    }
}

pub fn classify(
    file: &[u8],
    multipliers: &[u32],
    word: &[i8],
    before: &ClassifyAnswer,
) -> ClassifyAnswer {
    match reference::classify(file, multipliers, word) {
        Err(refusal) => ClassifyAnswer {
            returned: refused(refusal),
            ..before.clone()
        },
        Ok(class) => ClassifyAnswer {
            returned: ACCEPTED,
            class: class_number(class),
            ..before.clone()
        },
    }
}

pub fn write(handed: &Writing, before: &WriteAnswer) -> WriteAnswer {
    written(before, |output| {
        reference::write::write(&handed.numbers, &handed.rows, output)
    })
}

pub fn import(handed: &Importing, before: &WriteAnswer) -> WriteAnswer {
    written(before, |output| {
        reference::import::import(&handed.numbers, &handed.text, output)
    })
}

pub fn pool(handed: &Pooling, before: &WriteAnswer) -> WriteAnswer {
    written(before, |output| {
        reference::pool::pool(&handed.older, &handed.newer, output)
    })
}

fn written(
    before: &WriteAnswer,
    call: impl Fn(&mut [u8]) -> Result<usize, Refusal>,
) -> WriteAnswer {
    let mut after = before.clone();
    match call(&mut after.output) {
        Err(refusal) => after.returned = refused(refusal),
        Ok(length) => {
            after.returned = ACCEPTED;
            after.length = length;
        }
    }
    after
}
