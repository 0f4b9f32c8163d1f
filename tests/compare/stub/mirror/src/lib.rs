//! The reference itself behind the C interface: a comparison with it can find no
//! difference, and shows that a Rust static library can be linked.

#[path = "../../../src/answer.rs"]
mod answer;

use answer::{
    numbers, reading, refused, LookaheadAnswer, LookaheadItem, LookaheadParameters,
    LookaheadReading, ACCEPTED,
};
use reference::write::Row;
use reference::{Class, Ending};
use std::slice;

/// # Safety
/// The pointers are to lists of the lengths given, or to single places.
#[no_mangle]
pub unsafe extern "C" fn lookahead_read(
    file: *const u8,
    file_len: usize,
    order: *mut u16,
    order_len: usize,
) -> LookaheadReading {
    let file = slice::from_raw_parts(file, file_len);
    let order = slice::from_raw_parts_mut(order, order_len);
    reading(reference::contents(file, order))
}

/// # Safety
/// As for reading.
#[no_mangle]
pub unsafe extern "C" fn lookahead_train(
    file: *const u8,
    file_len: usize,
    multipliers: *mut u32,
    multipliers_len: usize,
    gradient: *mut i64,
    gradient_len: usize,
    ending: *mut u8,
    steps: *mut u32,
    lower: *mut i64,
    upper: *mut i64,
) -> LookaheadAnswer {
    let file = slice::from_raw_parts(file, file_len);
    let multipliers = slice::from_raw_parts_mut(multipliers, multipliers_len);
    let gradient = slice::from_raw_parts_mut(gradient, gradient_len);
    let trained = match reference::train(file, multipliers, gradient) {
        Err(refusal) => return refused(refusal),
        Ok(trained) => trained,
    };
    *ending = match trained.ending {
        Ending::Converged => 1,
        Ending::Stuck => 2,
        Ending::Spent => 3,
    };
    *steps = trained.steps;
    *lower = trained.lower;
    *upper = trained.upper;
    ACCEPTED
}

/// # Safety
/// As for reading.
#[no_mangle]
pub unsafe extern "C" fn lookahead_certify(
    file: *const u8,
    file_len: usize,
    multipliers: *const u32,
    multipliers_len: usize,
    lower: *mut i64,
    upper: *mut i64,
) -> LookaheadAnswer {
    let file = slice::from_raw_parts(file, file_len);
    let multipliers = slice::from_raw_parts(multipliers, multipliers_len);
    match reference::certify(file, multipliers) {
        Err(refusal) => refused(refusal),
        Ok((b_low, b_up)) => {
            *lower = b_low;
            *upper = b_up;
            ACCEPTED
        }
    }
}

/// # Safety
/// As for reading.
#[no_mangle]
pub unsafe extern "C" fn lookahead_classify(
    file: *const u8,
    file_len: usize,
    multipliers: *const u32,
    multipliers_len: usize,
    word: *const i8,
    word_len: usize,
    class: *mut u8,
) -> LookaheadAnswer {
    let file = slice::from_raw_parts(file, file_len);
    let multipliers = slice::from_raw_parts(multipliers, multipliers_len);
    let word = slice::from_raw_parts(word, word_len);
    match reference::classify(file, multipliers, word) {
        Err(refusal) => refused(refusal),
        Ok(answer) => {
            *class = match answer {
                Class::LookedUp => 1,
                Class::PassedOver => 2,
                Class::Undecided => 3,
            };
            ACCEPTED
        }
    }
}

/// # Safety
/// As for reading.
#[no_mangle]
pub unsafe extern "C" fn lookahead_write(
    parameters: LookaheadParameters,
    items: *const LookaheadItem,
    items_len: usize,
    output: *mut u8,
    output_len: usize,
    length: *mut usize,
) -> LookaheadAnswer {
    let rows = slice::from_raw_parts(items.cast::<Row>(), items_len);
    let output = slice::from_raw_parts_mut(output, output_len);
    match reference::write::write(&numbers(&parameters), rows, output) {
        Err(refusal) => refused(refusal),
        Ok(written) => {
            *length = written;
            ACCEPTED
        }
    }
}

/// # Safety
/// As for reading.
#[no_mangle]
pub unsafe extern "C" fn lookahead_import(
    parameters: LookaheadParameters,
    text: *const u8,
    text_len: usize,
    output: *mut u8,
    output_len: usize,
    length: *mut usize,
) -> LookaheadAnswer {
    let text = slice::from_raw_parts(text, text_len);
    let output = slice::from_raw_parts_mut(output, output_len);
    match reference::import::import(&numbers(&parameters), text, output) {
        Err(refusal) => refused(refusal),
        Ok(written) => {
            *length = written;
            ACCEPTED
        }
    }
}

/// # Safety
/// As for reading.
#[no_mangle]
pub unsafe extern "C" fn lookahead_pool(
    older: *const u8,
    older_len: usize,
    newer: *const u8,
    newer_len: usize,
    output: *mut u8,
    output_len: usize,
    length: *mut usize,
) -> LookaheadAnswer {
    let older = slice::from_raw_parts(older, older_len);
    let newer = slice::from_raw_parts(newer, newer_len);
    let output = slice::from_raw_parts_mut(output, output_len);
    match reference::pool::pool(older, newer, output) {
        Err(refusal) => refused(refusal),
        Ok(written) => {
            *length = written;
            ACCEPTED
        }
    }
}
