//! The settled examples: that the reference gives the results written down.

use crate::classify::doubled_score;
use crate::file::{numbers, read, HEADER_BYTES};
use crate::import::import;
use crate::settled::{p9, table, with_first_line, Call, Case};
use crate::write::{rows, write};
use crate::{certify, classify, run, train, Class, Refusal};

/// The result of a case as the reference works it out.
fn worked_out(case: &Case) -> String {
    match case.call {
        Call::Train => trained(&case.file),
        Call::Certify(a) => shown(certify(&case.file, &a).map(thresholds)),
        Call::Classify(a, word) => shown(classify(&case.file, &a, &[word]).map(class)),
        Call::Write { items, places } => written(&case.file, items, places),
        Call::Import { times, places } => imported(&case.file, times, places),
    }
}

fn trained(file: &[u8]) -> String {
    let (mut multipliers, mut gradient) = ([9; 3], [9; 3]);
    let ended = train(file, &mut multipliers, &mut gradient).map(|trained| {
        let both = thresholds((trained.lower, trained.upper));
        format!("{} {}, {both}", trained.ending.name(), trained.steps)
    });
    let [first, second, third] = multipliers;
    shown(ended) + &format!(", multipliers {first} {second} {third}")
}

fn written(file: &[u8], items: usize, places: usize) -> String {
    let both = rows(file, &[1, 2]);
    let mut rows = vec![both[1]; items];
    if let Some(first) = rows.first_mut() {
        *first = both[0];
    }
    let mut output = vec![9; places];
    let length = write(&numbers(file), &rows, &mut output);
    with_output(length, &output)
}

fn imported(file: &[u8], times: usize, places: usize) -> String {
    let text = with_first_line(&file[HEADER_BYTES..], times);
    let mut output = vec![9; places];
    let length = import(&numbers(file), &text, &mut output);
    with_output(length, &output)
}

fn with_output(length: Result<usize, Refusal>, output: &[u8]) -> String {
    let places: String = output.iter().map(|byte| format!(" {byte}")).collect();
    shown(length.map(|length| format!("length {length}"))) + ", output" + &places
}

fn thresholds((lower, upper): (i64, i64)) -> String {
    format!("thresholds {lower} {upper}")
}

fn class(class: Class) -> String {
    let name = match class {
        Class::LookedUp => "looked up",
        Class::PassedOver => "passed over",
        Class::Undecided => "undecided",
    };
    name.into()
}

fn shown(answer: Result<String, Refusal>) -> String {
    answer.unwrap_or_else(|Refusal { number, record }| {
        let record = record.unwrap_or(0);
        format!("refused {number} {record}")
    })
}

#[test]
fn every_case_is_as_settled() {
    for case in table() {
        assert_eq!(worked_out(&case), case.result, "{}", case.name);
    }
}

/// What B1 has written is the file of P1, and B2's is its own file.
#[test]
fn a_file_comes_out_byte_for_byte() {
    let written =
        |case: &&Case| matches!(case.call, Call::Write { .. }) && case.result.starts_with("length");
    for case in table().iter().filter(written) {
        let bytes: String = case.file.iter().map(|byte| format!(" {byte}")).collect();
        let whole = format!("length {}, output{bytes} 9", case.file.len());
        assert_eq!(case.result, whole, "{}", case.name);
    }
}

/// Certifying what training leaves gives the thresholds that training answers.
#[test]
fn what_training_leaves_is_certified() {
    for case in table() {
        let (mut multipliers, mut gradient) = ([0; 3], [0; 3]);
        if let Ok(trained) = train(&case.file, &mut multipliers, &mut gradient) {
            let n = read(&case.file).expect("accepted").items.len();
            let both = (trained.lower, trained.upper);
            assert_eq!(certify(&case.file, &multipliers[..n]), Ok(both));
            assert!(gradient.contains(&both.0) && gradient.contains(&both.1));
        }
    }
}

#[test]
fn p9_takes_the_fallback_pair() {
    let steps = run(&read(&p9().plain()).expect("accepted")).steps;
    assert!(steps.len() == 1 && steps[0].pair.fallback);
}

/// The scores behind the classes; P12's are document 01's "value 60" and "value 0".
#[test]
fn scores_are_as_settled() {
    let scores: Vec<(&str, i128)> = table()
        .iter()
        .filter_map(|case| match case.call {
            Call::Classify(a, word) => {
                let score = doubled_score(&case.file, &a, &[word]).ok()?;
                Some((case.name, score))
            }
            _ => None,
        })
        .collect();
    assert_eq!(
        scores,
        [
            ("P12", 60),
            ("P12", 0),
            ("E1", 0),
            ("E2", -1),
            ("E3", 1),
            ("I5", 20),
            ("I5", 0),
            ("I6", -254),
            ("W1", 2_540),
            ("W2", -2_540),
        ]
    );
}
