//! The one table of settled examples: document 01's P1 to P12, with P12's second
//! half as document 02, request (e), has it; our own E1 to E3 of that request, K1
//! to K4 of (k), F1 to F6 of (f), I1 to I7 of (i), B1 to B7 of (b) and C1 to C7 of
//! (c); and W1 to W3, words at the ends of the range, which the paper has run only.
//!
//! The results are written down and not worked out. What document 01 leaves out
//! of one, as the thresholds of P4, is as the library's theorem `settled` has it.

use crate::generate::chains::{with_label, with_next};
use crate::generate::draft::{Draft, LINEAR, LOOKED_UP, OVERLAP, PASSED_OVER, SQUARE};
use crate::import::pieces;
use crate::write::{header, Numbers};

/// What is done with the file of a case.
#[derive(Clone, Copy)]
pub enum Call {
    /// Into lists of three places that hold 9s, so that what stays alone shows.
    Train,
    Certify([u32; 2]),
    Classify([u32; 2], i8),
    /// Writes the parameters of the file's header and so many items, into an
    /// output of so many places that hold 9s. The first item is that of record 1,
    /// every other one that of record 2.
    Write {
        items: usize,
        places: usize,
    },
    /// Imports the text behind the file's header with the header's parameters, into
    /// an output of so many places that hold 9s. The first line of the text stands
    /// so often.
    Import {
        times: usize,
        places: usize,
    },
}

pub struct Case {
    pub name: &'static str,
    pub file: Vec<u8>,
    pub call: Call,
    /// As `settled_test` prints it: a refusal with its number and its record, 0
    /// where it carries none.
    pub result: &'static str,
}

/// "±1 file": d = 1, linear, item + with feature 1, item − with feature −1,
/// budget 50.
pub fn plus_minus_one(units: u32, ceiling: u32, tolerance: u64) -> Draft {
    Draft {
        features: 1,
        kernel: LINEAR,
        units,
        ceiling,
        tolerance,
        budget: 50,
        second_ceiling: 0,
        items: vec![(LOOKED_UP, vec![1]), (PASSED_OVER, vec![-1])],
    }
}

pub fn p1() -> Draft {
    plus_minus_one(10, 100, 0)
}

pub fn p2() -> Draft {
    Draft { ceiling: 3, ..p1() }
}

pub fn p3() -> Draft {
    plus_minus_one(1, 10, 0)
}

fn p7() -> Draft {
    let items = vec![(LOOKED_UP, vec![1]), (PASSED_OVER, vec![1])];
    Draft {
        items,
        ..plus_minus_one(10, 7, 0)
    }
}

pub fn p8() -> Draft {
    Draft {
        kernel: SQUARE,
        ..plus_minus_one(16, 100, 0)
    }
}

pub fn p9() -> Draft {
    let minus = |feature| (PASSED_OVER, vec![feature]);
    Draft {
        items: vec![(LOOKED_UP, vec![10]), minus(-10), minus(10)],
        ..plus_minus_one(1, 2, 0)
    }
}

/// Items of features 1 and 0 have thresholds 1 and 0 with multipliers 1 1, so
/// that no score is even.
fn uneven() -> Draft {
    let items = vec![(LOOKED_UP, vec![1]), (PASSED_OVER, vec![0])];
    Draft { items, ..p3() }
}

/// P9 with a tail into a cycle, and with a wrong label, which is judged later.
fn tail_into_cycle() -> Vec<u8> {
    with_label(&with_next(&p9().plain(), 3, 2), 1, 9)
}

fn with_second(draft: Draft, second_ceiling: u32) -> Draft {
    Draft {
        second_ceiling,
        ..draft
    }
}

/// c stops the item looked up, far below the second ceiling.
pub fn f2() -> Draft {
    with_second(p2(), 100)
}

/// Two items passed over, alike, go to the second ceiling one after the other.
pub fn f6() -> Draft {
    let minus = (PASSED_OVER, vec![-1]);
    Draft {
        items: vec![(LOOKED_UP, vec![1]), minus.clone(), minus],
        second_ceiling: 2,
        ..p1()
    }
}

fn with_kernel(draft: Draft, kernel: u8) -> Draft {
    Draft { kernel, ..draft }
}

/// P1 with the overlap.
pub fn i1() -> Draft {
    with_kernel(p1(), OVERLAP)
}

/// The items at the ends of the range of a feature, raised to 254 and to 0.
fn i2() -> Draft {
    let items = vec![(LOOKED_UP, vec![127]), (PASSED_OVER, vec![-127])];
    Draft {
        units: 127,
        items,
        ..i1()
    }
}

pub fn table() -> Vec<Case> {
    let mut cases = scope();
    cases.extend(words_and_chains());
    cases.extend(second_ceilings());
    cases.extend(overlaps());
    cases.extend(files_written());
    cases.extend(texts_imported());
    cases.extend(words_at_the_ends());
    cases
}

/// The files of the cases whose names begin with one of these letters, each once.
pub fn files(letters: &str) -> Vec<Vec<u8>> {
    let mut files = Vec::new();
    for case in table() {
        if case.name.starts_with(|first| letters.contains(first)) && !files.contains(&case.file) {
            files.push(case.file);
        }
    }
    files
}

fn train(name: &'static str, file: &Draft, result: &'static str) -> Case {
    train_on(name, file.plain(), result)
}

fn train_on(name: &'static str, file: Vec<u8>, result: &'static str) -> Case {
    let call = Call::Train;
    Case {
        name,
        file,
        call,
        result,
    }
}

fn certify(name: &'static str, file: &Draft, a: [u32; 2], result: &'static str) -> Case {
    let call = Call::Certify(a);
    Case {
        call,
        ..train(name, file, result)
    }
}

fn classify(name: &'static str, file: &Draft, a: [u32; 2], word: i8, result: &'static str) -> Case {
    let call = Call::Classify(a, word);
    Case {
        call,
        ..train(name, file, result)
    }
}

fn write(
    name: &'static str,
    file: &Draft,
    items: usize,
    places: usize,
    result: &'static str,
) -> Case {
    let call = Call::Write { items, places };
    Case {
        call,
        ..train(name, file, result)
    }
}

fn import(
    name: &'static str,
    text: &str,
    times: usize,
    places: usize,
    result: &'static str,
) -> Case {
    let mut file = header(&c1(), 0, 0).to_vec();
    file.extend(text.as_bytes());
    let call = Call::Import { times, places };
    Case {
        call,
        ..train_on(name, file, result)
    }
}

/// A text with its first line so often.
pub fn with_first_line(text: &[u8], times: usize) -> Vec<u8> {
    let mut lines = pieces(text);
    let first = lines.next().unwrap_or(&[]);
    [first.repeat(times), lines.collect::<Vec<_>>().concat()].concat()
}

#[rustfmt::skip]
fn scope() -> Vec<Case> {
    let (p1, p3) = (&p1(), &p3());
    let p4 = &Draft { tolerance: 1, ..p3.clone() };
    let no_budget = |draft: &Draft| Draft { budget: 0, ..draft.clone() };
    vec![
        train("P1", p1, "converged 1, thresholds 0 0, multipliers 5 5 9"),
        train("P2", &p2(), "converged 1, thresholds -4 4, multipliers 3 3 9"),
        train("P3", p3, "stuck 0, thresholds 1 -1, multipliers 0 0 9"),
        train("P4", p4, "converged 0, thresholds 1 -1, multipliers 0 0 9"),
        train("P5", &no_budget(p3), "stuck 0, thresholds 1 -1, multipliers 0 0 9"),
        train("P6", &no_budget(p1), "spent 0, thresholds 10 -10, multipliers 0 0 9"),
        train("P7", &p7(), "converged 1, thresholds -10 10, multipliers 7 7 9"),
        train("P8", &p8(), "converged 1, thresholds 0 0, multipliers 4 4 9"),
        train("P9", &p9(), "converged 1, thresholds 1 1, multipliers 2 0 2"),
        certify("P10", p1, [0, 0], "thresholds 10 -10"),
        certify("P11", p1, [5, 4], "refused 8 0"),
        certify("P11", p1, [101, 100], "refused 7 0"),
        classify("P12", p1, [5, 5], 3, "looked up"),
        classify("P12", p1, [5, 5], 0, "undecided"),
    ]
}

/// Requests (e) and (k).
#[rustfmt::skip]
fn words_and_chains() -> Vec<Case> {
    let p1_with = |record, next| with_next(&p1().plain(), record, next);
    vec![
        classify("E1", &p1(), [0, 0], 3, "undecided"),
        classify("E2", &uneven(), [1, 1], 0, "passed over"),
        classify("E3", &uneven(), [1, 1], 1, "looked up"),
        train_on("K1", p1_with(2, 1), "refused 16 2, multipliers 9 9 9"),
        train_on("K2", p1_with(1, 1), "refused 16 1, multipliers 9 9 9"),
        train_on("K3", p1_with(2, 3), "refused 3 2, multipliers 9 9 9"),
        train_on("K4", tail_into_cycle(), "refused 16 3, multipliers 9 9 9"),
    ]
}

/// Request (f). In F1 the second ceiling stops the item passed over, far below c;
/// F3 is P1 with c given twice, F4 has a second ceiling beyond its range.
#[rustfmt::skip]
fn second_ceilings() -> Vec<Case> {
    let f1 = &with_second(p1(), 3);
    let with = |second_ceiling| with_second(p1(), second_ceiling);
    vec![
        train("F1", f1, "converged 1, thresholds -4 -4, multipliers 3 3 9"),
        train("F2", &f2(), "converged 1, thresholds 4 4, multipliers 3 3 9"),
        train("F3", &with(100), "converged 1, thresholds 0 0, multipliers 5 5 9"),
        train("F4", &with(65_537), "refused 2 0, multipliers 9 9 9"),
        certify("F5", f1, [4, 4], "refused 7 0"),
        certify("F5", &f2(), [4, 4], "refused 7 0"),
        train("F6", &f6(), "converged 2, thresholds -2 -2, multipliers 4 2 2"),
    ]
}

/// Request (i). In I3 both features are 1, so that η is 0; I7 has a kernel beyond
/// its range.
#[rustfmt::skip]
fn overlaps() -> Vec<Case> {
    let (i1, i2) = (&i1(), &i2());
    let i3 = &with_kernel(p7(), OVERLAP);
    let i7 = &with_kernel(p1(), OVERLAP + 1);
    vec![
        train("I1", i1, "converged 1, thresholds 10 10, multipliers 10 10 9"),
        train("I2", i2, "converged 1, thresholds 127 127, multipliers 1 1 9"),
        train("I3", i3, "converged 1, thresholds -10 10, multipliers 7 7 9"),
        certify("I4", i1, [5, 5], "thresholds 10 0"),
        classify("I5", i1, [10, 10], 3, "looked up"),
        classify("I5", i1, [10, 10], 0, "undecided"),
        classify("I6", i2, [1, 1], -127, "passed over"),
        train("I7", i7, "refused 2 0, multipliers 9 9 9"),
    ]
}

/// Every parameter at its greatest, so that the order of its bytes shows, and
/// features at both ends of their range.
fn b2() -> Draft {
    let mut features = vec![-127; 16];
    let passed_over = (PASSED_OVER, features.clone());
    features[0] = 127;
    Draft {
        features: 16,
        kernel: OVERLAP,
        units: 1_048_576,
        ceiling: 65_536,
        tolerance: 1_000_000_000_000,
        budget: 1_000_000,
        second_ceiling: 65_536,
        items: vec![(LOOKED_UP, features), passed_over],
    }
}

/// The file of P1, byte for byte, and one place that is left as it was.
const B1: &str = "length 72, output \
    2 0 1 0 1 0 0 0 10 0 0 0 100 0 0 0 0 0 0 0 0 0 0 0 50 0 0 0 0 0 0 0 \
    2 0 1 0 1 0 0 0 0 0 0 0 0 0 0 0 0 0 0 0 \
    0 0 2 0 255 0 0 0 0 0 0 0 0 0 0 0 0 0 0 0 \
    9";

const B2: &str = "length 72, output \
    2 0 1 0 16 2 0 0 0 0 16 0 0 0 1 0 0 16 165 212 232 0 0 0 64 66 15 0 0 0 1 0 \
    2 0 1 0 127 129 129 129 129 129 129 129 129 129 129 129 129 129 129 129 \
    0 0 2 0 129 129 129 129 129 129 129 129 129 129 129 129 129 129 129 129 \
    9";

/// 71 places, one fewer than there are bytes in the file.
const B7: &str = "refused 10 0, output \
    9 9 9 9 9 9 9 9 9 9 9 9 9 9 9 9 9 9 9 9 9 9 9 9 9 9 9 9 9 9 9 9 \
    9 9 9 9 9 9 9 9 9 9 9 9 9 9 9 9 9 9 9 9 \
    9 9 9 9 9 9 9 9 9 9 9 9 9 9 9 9 9 9 9";

/// Request (b). B3 to B7 have a refusal each, beside faults that are tested later:
/// in all of them the output is too short. In B3 S is 0, and there are 257 items;
/// in B4 one of as many has a wrong label. In B5 all labels that are right are the
/// same, and a label is −1, a feature −128, or a feature past d not 0.
#[rustfmt::skip]
fn files_written() -> Vec<Case> {
    let of = |first, second| Draft { items: vec![first, second], ..p1() };
    let plus = |feature| (LOOKED_UP, vec![feature]);
    let b3 = &Draft { units: 0, ..p1() };
    let b4 = &of((3, vec![1]), (PASSED_OVER, vec![-1]));
    let wrong_label = &of((255, vec![1]), plus(1));
    let wrong_feature = &of(plus(1), plus(-128));
    let past_used = &of(plus(1), (LOOKED_UP, vec![1, 1]));
    vec![
        write("B1", &p1(), 2, 73, B1),
        write("B2", &b2(), 2, 73, B2),
        write("B3", b3, 257, 3, "refused 2 0, output 9 9 9"),
        write("B4", b4, 257, 3, "refused 1 0, output 9 9 9"),
        write("B5", wrong_label, 2, 3, "refused 4 0, output 9 9 9"),
        write("B5", wrong_feature, 2, 3, "refused 4 0, output 9 9 9"),
        write("B5", past_used, 2, 3, "refused 4 0, output 9 9 9"),
        write("B6", &of(plus(1), plus(-1)), 2, 3, "refused 5 0, output 9 9 9"),
        write("B6", &p1(), 0, 3, "refused 5 0, output 9 9 9"),
        write("B7", &p1(), 2, 71, B7),
    ]
}

/// The parameters of C1 to C7.
fn c1() -> Numbers {
    Numbers {
        used: 2,
        kernel: LINEAR,
        grid: 1_000,
        ceiling: 500,
        second_ceiling: 0,
        tolerance: 10,
        budget: 100,
    }
}

const C1: &str = "length 72, output \
    2 0 1 0 2 0 0 0 232 3 0 0 244 1 0 0 10 0 0 0 0 0 0 0 100 0 0 0 0 0 0 0 \
    2 0 1 0 127 0 0 0 0 0 0 0 0 0 0 0 0 0 0 0 \
    0 0 2 0 253 5 0 0 0 0 0 0 0 0 0 0 0 0 0 0 \
    9";

/// Request (c). C2 to C7 have a refusal each, and in all of them the output is too
/// short. C3 has a leading zero before a value that is out of its range, C5 a −0. C6
/// and C7 have 257 lines; in C7 a space ends the last.
#[rustfmt::skip]
fn texts_imported() -> Vec<Case> {
    vec![
        import("C1", "+1 1:127\n-1 1:-3 2:5\n", 1, 73, C1),
        import("C2", "+1 1:128\n-1 1:1\n", 1, 3, "refused 4 0, output 9 9 9"),
        import("C3", "+1 1:0128\n-1 1:1\n", 1, 3, "refused 11 0, output 9 9 9"),
        import("C4", "", 1, 3, "refused 5 0, output 9 9 9"),
        import("C5", "-1 1:-0\n+1\n", 1, 3, "refused 11 0, output 9 9 9"),
        import("C6", "+1\n-1\n", 256, 3, "refused 12 0, output 9 9 9"),
        import("C7", "+1\n-1 \n", 256, 3, "refused 11 0, output 9 9 9"),
    ]
}

fn words_at_the_ends() -> Vec<Case> {
    let word = |name, word, result| classify(name, &p1(), [5, 5], word, result);
    vec![
        word("W1", 127, "looked up"),
        word("W2", -127, "passed over"),
        word("W3", -128, "refused 9 0"),
    ]
}
