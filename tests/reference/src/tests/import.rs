//! Document 02, request (c): import from libsvm text.

use crate::cases::ImportCall;
use crate::file::{read, MOST_RECORDS};
use crate::generate::first_texts::{short_texts, with_faults};
use crate::generate::importing::{handed_in, Importing, REFUSALS};
use crate::generate::texts::{bare_lines, changes, numbers_at_limits, printed, ALPHABET, FOREIGN};
use crate::generate::{any_file, Random};
use crate::import::{import, judge_form};
use crate::settled::{f2, p1};
use crate::write::{file_length, rows, write, Numbers, Row, LABEL};
use crate::{contents, Refusal};

/// Imports with d features in use, into an output that is long enough.
fn imported(used: usize, text: &[u8]) -> Result<Vec<u8>, Refusal> {
    let numbers = Numbers {
        used,
        ..p1().numbers()
    };
    let mut output = vec![9; file_length(MOST_RECORDS) + 1];
    let length = import(&numbers, text, &mut output)?;
    assert!(output[length..].iter().all(|&byte| byte == 9));
    output.truncate(length);
    Ok(output)
}

/// The answer's number, 0 for a file.
fn answer(used: usize, text: &str) -> u8 {
    let refusal = imported(used, text.as_bytes()).err();
    refusal.map_or(0, |refusal| refusal.number)
}

/// The items of an imported text.
fn items(used: usize, text: &str) -> Vec<Row> {
    let file = imported(used, text.as_bytes()).expect("imported");
    let mut order = vec![0; MOST_RECORDS];
    let read = contents(&file, &mut order).expect("accepted");
    rows(&file, &order[..read.items])
}

fn row(label: i8, features: &[i8]) -> Row {
    let mut row = [0; LABEL + 1];
    row[..features.len()].copy_from_slice(features);
    row[LABEL] = label;
    row
}

#[test]
fn items_by_hand() {
    assert_eq!(items(1, "+1\n-1\n"), [row(1, &[]), row(2, &[])]);
    assert_eq!(
        items(3, "-1 1:127 3:-127\n+1 2:0 3:10\n+1 1:-5\n"),
        [row(2, &[127, 0, -127]), row(1, &[0, 0, 10]), row(1, &[-5])]
    );
    let last = row(2, &[0, 0, 0, 0, 0, 0, 0, 0, 9, 10, 0, 0, 0, 0, 0, 16]);
    assert_eq!(items(16, "+1\n-1 9:9 10:10 16:16\n"), [row(1, &[]), last]);
}

/// Every line of the table is refused with 11, as the only line that is not of the form.
#[test]
fn texts_not_of_the_form() {
    for line in [
        "",
        " ",
        "1",
        "1 1:1",
        "+",
        "-",
        "+2",
        "-2",
        "+0",
        "-0",
        "0",
        "+01",
        "+11",
        "++1",
        "+1.0",
        " +1",
        "+1 ",
        "+1  1:1",
        "+1 1:1 ",
        "+1 1:1  2:1",
        "+1\t1:1",
        "+1\r",
        "+1 1:1\r",
        "+1,1:1",
        "+1 1",
        "+1 1:",
        "+1 :1",
        "+1 :",
        "+1 1:-",
        "+1 1:+1",
        "+1 1:--1",
        "+1 1:-0",
        "+1 1:00",
        "+1 1:01",
        "+1 1:-01",
        "+1 1:0128",
        "+1 1:1.5",
        "+1 1:1.",
        "+1 1:1e1",
        "+1 1:0x1",
        "+1 1:1-",
        "+1 1:1:1",
        "+1 1::1",
        "+1 1: 1",
        "+1 1 :1",
        "+1 01:1",
        "+1 +1:1",
        "+1 -1:1",
        "+1 0:1",
        "+1 3:1",
        "+1 10:1",
        "+1 257:1",
        "+1 65537:1",
        "+1 4294967297:1",
        "+1 18446744073709551617:1",
        "+1 1:1 1:1",
        "+1 2:1 1:1",
        "+1 2:1 2:2",
        "+1 1:1 # word",
        "# word",
        "+1 1:1#",
        "+1 1:\u{661}",
        "\u{2212}1",
        "+1\0",
        "+1\u{a0}1:1",
    ] {
        for text in [
            format!("{line}\n+1\n-1\n"),
            format!("+1\n{line}\n-1\n"),
            format!("+1\n-1\n{line}\n"),
            format!("+1 1:128\n-1\n{line}\n"),
            format!("+1\n{line}\n"),
        ] {
            assert_eq!(answer(2, &text), 11, "{text:?}");
        }
    }
    assert_eq!(answer(1, "+1\n-1"), 11);
    assert_eq!(answer(1, "\n"), 11);
}

#[test]
fn values_at_the_ends() {
    for value in ["0", "1", "-1", "10", "99", "-100", "127", "-127"] {
        assert_eq!(answer(1, &format!("+1 1:{value}\n-1\n")), 0, "{value}");
    }
    for value in [
        "128", "-128", "255", "256", "257", "-256", "-257", "65536", "1000",
    ] {
        assert_eq!(answer(1, &format!("+1 1:{value}\n-1\n")), 4, "{value}");
    }
}

/// "a well-formed value outside the range, however long, draws 4", and "A feature
/// number of 0 or above d draws 11"; the numbers are told apart by their texts alone.
#[test]
fn numbers_however_long() {
    let good: Vec<String> = (0..=127).map(|number: u32| number.to_string()).collect();
    for number in numbers_at_limits() {
        let value = if good.contains(&number) { 0 } else { 4 };
        assert_eq!(answer(1, &format!("+1 1:{number}\n-1\n")), value);
        let negative = if number == "0" { 11 } else { value };
        assert_eq!(answer(1, &format!("+1 1:-{number}\n-1\n")), negative);
        assert_eq!(answer(1, &format!("+1 1:0{number}\n-1\n")), 11);
        for used in [1, 9, 10, 16] {
            let named = good[1..=used].contains(&number);
            let expected = if named { 0 } else { 11 };
            assert_eq!(answer(used, &format!("+1 {number}:1\n-1\n")), expected);
            assert_eq!(answer(used, &format!("+1 0{number}:1\n-1\n")), 11);
        }
    }
}

#[test]
fn lines_0_1_256_and_257() {
    let numbered = |text: &[u8]| imported(1, text).err().map_or(0, |refusal| refusal.number);
    assert_eq!([0, 1].map(|count| numbered(&bare_lines(count))), [5, 5]);
    assert_eq!([2, 256].map(|count| numbered(&bare_lines(count))), [0, 0]);
    assert_eq!(
        [257, 65_538].map(|count| numbered(&bare_lines(count))),
        [12, 12]
    );
    let with_last = |count, line: &str| [&bare_lines(count)[..], line.as_bytes()].concat();
    assert_eq!(numbered(&with_last(256, "+2\n")), 11);
    assert_eq!(numbered(&with_last(65_538, "+1")), 11);
    assert_eq!(numbered(&with_last(256, "+1 1:128\n")), 12);
    assert_eq!(numbered(&with_last(255, "+1 1:128\n")), 4);
}

/// "The order is 2, 11, 12, then 4, 5, 10", for every choice of faults.
#[test]
fn refusals_of_importing_come_in_order() {
    for choice in 0..1 << REFUSALS.len() {
        let chosen = (0..REFUSALS.len()).filter(|k| choice >> k & 1 == 1);
        let faults: Vec<u8> = chosen.map(|k| REFUSALS[k]).collect();
        let call = ImportCall::of(with_faults(&faults));
        assert_eq!(call.at_fault, faults);
        assert_answers(call);
    }
}

/// The answer is the first of the refusals that have a cause. On a refusal nothing lent
/// changes; otherwise the bytes past the file stay.
fn assert_answers(call: ImportCall) {
    let Importing {
        numbers,
        text,
        places,
    } = &call.handed;
    let mut output = vec![9; *places];
    let answer = import(numbers, text, &mut output);
    let length = match call.at_fault.first() {
        Some(&number) => {
            assert_eq!(answer, Err(number.into()), "{:?}", call.handed);
            0
        }
        None => {
            assert_eq!(answer, Ok(file_length(call.lines)), "{:?}", call.handed);
            file_length(call.lines)
        }
    };
    assert!(output[length..].iter().all(|&byte| byte == 9));
}

#[test]
fn the_first_refusal_of_those_with_a_cause() {
    for number in 0..2_000 {
        assert_answers(ImportCall::of(handed_in(&mut Random::numbered(2, number))));
    }
}

/// Any way to print the items of an accepted file gives the file written of them.
#[test]
fn a_file_printed_is_imported() {
    let mut accepted = 0;
    for number in 0..500 {
        let random = &mut Random::numbered(3, number);
        let file = any_file(random);
        if read(&file).is_err() {
            continue;
        }
        let mut order = vec![0; MOST_RECORDS];
        let read = contents(&file, &mut order).expect("accepted");
        let (numbers, rows) = (read.parameters, rows(&file, &order[..read.items]));
        let mut expected = vec![0; file_length(rows.len())];
        write(&numbers, &rows, &mut expected).expect("written");
        for zeros in [0, 1, 2] {
            let text = printed(&rows, numbers.used, || random.chance(zeros, 2));
            let mut output = vec![0; expected.len()];
            assert_eq!(import(&numbers, &text, &mut output), Ok(expected.len()));
            assert_eq!(output, expected);
        }
        accepted += 1;
    }
    assert!(accepted > 100);
}

/// Of the short texts only these have the form.
#[test]
fn every_short_text() {
    let texts = short_texts();
    assert_eq!(
        texts.len(),
        1 + 16 + 16 * 16 + 16 * 16 * 16 + 16 * 16 * 16 * 16
    );
    let formed = |text: &&Vec<u8>| judge_form(text, 2).is_ok();
    let formed: Vec<&[u8]> = texts.iter().filter(formed).map(|text| &text[..]).collect();
    assert_eq!(formed, [&b""[..], b"+1\n", b"-1\n"]);
}

/// A byte that is not of the form is never taken.
#[test]
fn a_foreign_byte_at_every_place() {
    let text = b"+1 1:10 3:-7 12:0\n-1 2:127\n";
    assert!(judge_form(text, 12).is_ok());
    for place in 0..text.len() {
        for &byte in FOREIGN {
            assert!(!ALPHABET.contains(&byte));
            let [changed, added, ..] = changes(text, place, byte);
            assert!(judge_form(&changed, 12).is_err() && judge_form(&added, 12).is_err());
        }
    }
}

/// "The writer and the import carry the field as given, a 0 staying 0".
#[test]
fn parameters_are_carried_as_given() {
    for draft in [p1(), f2()] {
        let mut output = vec![9; draft.plain().len()];
        let text = printed(&draft.rows(), 1, || true);
        let length = import(&draft.numbers(), &text, &mut output);
        assert_eq!((length, output), (Ok(draft.plain().len()), draft.plain()));
    }
}
