//! The samples: that they print what is expected, and what their README says of
//! one ceiling and of two, and of the overlap beside the linear kernel.

use crate::file::{read, Label};
use crate::generate::draft::LINEAR;
use crate::{classify, listing, run, Class};
use std::path::PathBuf;

/// Where the header has the kernel.
const KERNEL: usize = 5;

pub(super) fn samples() -> PathBuf {
    PathBuf::from(concat!(env!("CARGO_MANIFEST_DIR"), "/../../samples"))
}

pub(super) fn log(name: &str) -> Vec<u8> {
    std::fs::read(samples().join(name)).expect("a sample")
}

/// How many logs a folder has, each of which prints what is expected.
pub(super) fn compared(folder: PathBuf) -> usize {
    let mut compared = 0;
    for entry in std::fs::read_dir(&folder).expect("the samples") {
        let path = entry.expect("a name").path();
        if path.extension() != Some("log".as_ref()) {
            continue;
        }
        let name = path.file_stem().expect("a name").to_string_lossy();
        let expected = folder.join(format!("expected/{name}.txt"));
        let expected = std::fs::read_to_string(expected).expect("a listing");
        let printed = listing(&std::fs::read(&path).expect("a sample"));
        assert_eq!(printed, expected, "{name}");
        compared += 1;
    }
    compared
}

#[test]
fn samples_print_what_is_expected() {
    assert_eq!(compared(samples()), 12);
}

/// How many words of a label a log's own training classes as looked up, passed
/// over and undecided.
fn classes(file: &[u8], label: Label) -> String {
    let problem = read(file).expect("accepted");
    let multipliers = run(&problem).multipliers;
    let multipliers: Vec<u32> = multipliers.into_iter().map(|a| a as u32).collect();
    let of_label = problem.items.iter().filter(|item| item.label == label);
    let classes: Vec<Class> = of_label
        .map(|item| classify(file, &multipliers, &item.features).expect("classified"))
        .collect();
    [Class::LookedUp, Class::PassedOver, Class::Undecided]
        .map(|class| classes.iter().filter(|&&found| found == class).count())
        .map(|count| count.to_string())
        .join(", ")
}

/// A row of the README's tables: what a cell says of each of two logs.
fn assert_row(logs: &[Vec<u8>; 2], title: &str, cell: impl Fn(&[u8]) -> String) {
    let readme = std::fs::read_to_string(samples().join("README.md")).expect("the README");
    let [one, other] = [cell(&logs[0]), cell(&logs[1])];
    let row = format!("| {title} | {one} | {other} |\n");
    assert!(readme.contains(&row), "{row}");
}

/// The rows that both tables have: the listing's first and last line, and the
/// classes of the words of each label.
fn assert_results(logs: &[Vec<u8>; 2], looked_up: &str, passed_over: &str) {
    let line = |file: &[u8], last: bool| {
        let printed = listing(file);
        let mut lines = printed.lines();
        let shown = if last { lines.last() } else { lines.next() };
        format!("`{}`", shown.expect("a line"))
    };
    assert_row(logs, "first line", |file| line(file, false));
    assert_row(logs, "last line", |file| line(file, true));
    assert_row(logs, looked_up, |file| classes(file, Label::LookedUp));
    assert_row(logs, passed_over, |file| classes(file, Label::PassedOver));
}

#[test]
fn the_readme_says_what_a_second_ceiling_changes() {
    let logs = ["rare.log", "ceilings.log"].map(log);
    assert_row(&logs, "second ceiling", |file| {
        let parameters = read(file).expect("accepted").parameters;
        parameters.second_ceiling.to_string()
    });
    assert_results(&logs, "of 10 words looked up", "of 200 words passed over");
}

/// The same bytes with another kernel.
fn with_kernel(file: &[u8], kernel: u8) -> Vec<u8> {
    let mut changed = file.to_vec();
    changed[KERNEL] = kernel;
    changed
}

#[test]
fn the_readme_says_what_the_overlap_changes() {
    let overlap = log("overlap.log");
    let logs = [with_kernel(&overlap, LINEAR), overlap];
    assert_row(&logs, "kernel", |file| file[KERNEL].to_string());
    assert_results(&logs, "of 38 words looked up", "of 42 words passed over");
}

/// What the table shows comes from the second ceiling and nothing else.
#[test]
fn both_logs_differ_in_the_second_ceiling_alone() {
    let [one, two] = ["rare.log", "ceilings.log"].map(log);
    assert_eq!((&one[..28], &one[32..]), (&two[..28], &two[32..]));
}
