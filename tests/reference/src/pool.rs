//! Pooling two training files: document 02, request (h).
//!
//! Each refusal has a pass of its own, so that the order of the tests can be seen by
//! reading `pool` from top to bottom. Which items stay is told as the paper tells it:
//! an item stays where no later one has the same features.

use crate::file::{judge_labels, numbers, read, Item, Label, Parameters, MOST_RECORDS};
use crate::refusal::Refusal;
use crate::write::{write, Row, LABEL};

/// The file's length. "The older file is judged first, then the newer"; 14 is "tested
/// after both files"; 15 "takes the place of the writer's 1 and is tested after 5 and
/// before 10", which is left to writing: "the result is written as in (b)".
/// "Parameters are the newer file's".
pub fn pool(older: &[u8], newer: &[u8], output: &mut [u8]) -> Result<usize, Refusal> {
    let last_year = read(older)?;
    let this_year = read(newer)?;
    judge_alike(&last_year.parameters, &this_year.parameters)?;
    let items = left(&one_after_the_other(&last_year.items, &this_year.items));
    judge_both_labels(&items)?;
    judge_item_count(&items)?;
    let rows: Vec<Row> = items.iter().map(row).collect();
    write(&numbers(newer), &rows, output)
}

/// Refusal 14: "d or kernel differ".
fn judge_alike(older: &Parameters, newer: &Parameters) -> Result<(), u8> {
    if older.features != newer.features || older.kernel != newer.kernel {
        return Err(14);
    }
    Ok(())
}

/// Refusal 5, of what is left: one label, or both, has no item.
pub fn judge_both_labels(items: &[Item]) -> Result<(), u8> {
    let labels: Vec<Label> = items.iter().map(|item| item.label).collect();
    judge_labels(&labels)
}

/// Refusal 15: "over 256 items left".
pub fn judge_item_count(items: &[Item]) -> Result<(), u8> {
    if items.len() > MOST_RECORDS {
        return Err(15);
    }
    Ok(())
}

/// "The pool takes the older file's items, then the newer's."
pub fn one_after_the_other(older: &[Item], newer: &[Item]) -> Vec<Item> {
    [older, newer].concat()
}

/// "Among items with the same d features, whatever their labels, only the last stays".
pub fn left(items: &[Item]) -> Vec<Item> {
    let mut left = Vec::new();
    for (place, item) in items.iter().enumerate() {
        let mut later = items[place + 1..].iter();
        if !later.any(|other| have_same_features(item, other)) {
            left.push(item.clone());
        }
    }
    left
}

/// Feature by feature. An item has the first d alone, and d is the same for both.
pub fn have_same_features(one: &Item, other: &Item) -> bool {
    let mut places = 0..one.features.len();
    places.all(|place| one.features[place] == other.features[place])
}

/// The item as writing takes it: "Features past d are zero."
pub fn row(item: &Item) -> Row {
    let mut row = [0; LABEL + 1];
    row[..item.features.len()].copy_from_slice(&item.features);
    row[LABEL] = item.label.number();
    row
}
