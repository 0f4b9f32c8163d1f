//! The samples of pooling: that they print what is expected, that the pooled log is
//! the pool of the two, and what their README says of the two beside it.

use super::samples::{compared, log, samples};
use crate::file::{read, Item, Label};
use crate::pool::{left, pool};
use crate::{classify, listing, run, Class};

fn logs() -> [Vec<u8>; 3] {
    ["older", "newer", "pooled"].map(|name| log(&format!("pooling/{name}.log")))
}

#[test]
fn samples_of_pooling_print_what_is_expected() {
    assert_eq!(compared(samples().join("pooling")), 3);
}

#[test]
fn the_pooled_log_is_the_pool_of_two() {
    let [older, newer, pooled] = logs();
    let mut output = vec![9; pooled.len()];
    let length = pool(&older, &newer, &mut output);
    assert_eq!((length, output), (Ok(pooled.len()), pooled));
}

/// The classes of words by what training leaves of a log.
fn classed(file: &[u8], words: &[Item]) -> Vec<Class> {
    let multipliers = run(&read(file).expect("accepted")).multipliers;
    let multipliers: Vec<u32> = multipliers.into_iter().map(|a| a as u32).collect();
    let class = |word: &Item| classify(file, &multipliers, &word.features);
    let classes = words.iter().map(|word| class(word).expect("classified"));
    classes.collect()
}

/// How many words of a label come out as looked up, passed over and undecided.
fn classes(file: &[u8], words: &[Item], label: Label) -> String {
    let of_label = words.iter().filter(|word| word.label == label);
    let classes = classed(file, &of_label.cloned().collect::<Vec<_>>());
    [Class::LookedUp, Class::PassedOver, Class::Undecided]
        .map(|class| classes.iter().filter(|&&found| found == class).count())
        .map(|count| count.to_string())
        .join(", ")
}

/// A row of the README's table: what a cell says of each log.
fn assert_row(logs: &[Vec<u8>], title: &str, cell: impl Fn(&[u8]) -> String) {
    let readme = std::fs::read_to_string(samples().join("pooling/README.md")).expect("the README");
    let cells: Vec<String> = logs.iter().map(|log| cell(log)).collect();
    let row = format!("| {title} | {} |\n", cells.join(" | "));
    assert!(readme.contains(&row), "{row}");
}

/// The rows of the listing's first and last line.
fn assert_lines(logs: &[Vec<u8>]) {
    let line = |file: &[u8], last: bool| {
        let printed = listing(file);
        let mut lines = printed.lines();
        let shown = if last { lines.last() } else { lines.next() };
        format!("`{}`", shown.expect("a line"))
    };
    assert_row(logs, "first line", |file| line(file, false));
    assert_row(logs, "last line", |file| line(file, true));
}

fn words(file: &[u8]) -> Vec<Item> {
    read(file).expect("accepted").items
}

/// The words of the pool, and those of the newer log as they were met last.
#[test]
fn the_readme_says_what_a_pool_changes() {
    let logs = logs();
    let [_, newer, pooled] = &logs;
    assert_lines(&logs);
    let this_years = left(&words(newer));
    let own_side = |file: &[u8]| {
        let classes = classed(file, &this_years).into_iter().zip(&this_years);
        let own = |&(class, word): &(Class, &Item)| match class {
            Class::LookedUp => word.label == Label::LookedUp,
            Class::PassedOver => word.label == Label::PassedOver,
            Class::Undecided => false,
        };
        classes.filter(own).count().to_string()
    };
    let title = format!(
        "of this year's {} words, on their own side",
        this_years.len()
    );
    assert_row(&logs, &title, own_side);
    for (title, label) in [
        ("of 34 words looked up", Label::LookedUp),
        ("of 48 words passed over", Label::PassedOver),
    ] {
        assert_row(&logs, title, |file| classes(file, &words(pooled), label));
    }
}
