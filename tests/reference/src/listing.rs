//! What the training program prints: document 01, end of "Settled examples", and document 02, requests (k) and (l).

use crate::file::{read, Item, Label, MOST_RECORDS};
use crate::training::{train, Trained};

/// `refused` with the number and, where it carries one, the record; or the result
/// line, one line per item in chain order and the totals of these.
pub fn listing(file: &[u8]) -> String {
    let mut multipliers = [0; MOST_RECORDS];
    let mut gradient = [0; MOST_RECORDS];
    match train(file, &mut multipliers, &mut gradient) {
        Err(refusal) => format!("refused {refusal}\n"),
        Ok(trained) => result_line(trained) + &item_lines_and_total(file, &multipliers),
    }
}

/// "Line one: ending, steps, b_low, b_up."
fn result_line(trained: Trained) -> String {
    let ending = trained.ending.name();
    format!(
        "{ending} {} {} {}\n",
        trained.steps, trained.lower, trained.upper
    )
}

/// "Each further line: record number, label, multiplier, in chain order." "After
/// its item lines the training program prints `total` ..."
fn item_lines_and_total(file: &[u8], multipliers: &[u32]) -> String {
    let problem = read(file).expect("a trained file is accepted");
    let shown: Vec<(&Item, u32)> = problem
        .items
        .iter()
        .zip(multipliers.iter().copied())
        .collect();
    let lines: String = shown.iter().map(|&(item, a)| item_line(item, a)).collect();
    lines + &total_line(&shown)
}

fn item_line(item: &Item, multiplier: u32) -> String {
    let label = match item.label {
        Label::LookedUp => '+',
        Label::PassedOver => '-',
    };
    format!("{} {label} {multiplier}\n", item.record)
}

/// "... `total`, the count of multipliers above 0, the sum over label +1 and the
/// sum over label −1."
fn total_line(shown: &[(&Item, u32)]) -> String {
    let above_zero = shown.iter().filter(|(_, multiplier)| *multiplier > 0);
    let sum = |label: Label| -> u64 {
        shown
            .iter()
            .filter(|(item, _)| item.label == label)
            .map(|(_, multiplier)| u64::from(*multiplier))
            .sum()
    };
    format!(
        "total {} {} {}\n",
        above_zero.count(),
        sum(Label::LookedUp),
        sum(Label::PassedOver)
    )
}
