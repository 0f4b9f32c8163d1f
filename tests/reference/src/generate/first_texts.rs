//! What is imported in each comparison, whatever the seed.

use super::draft::{LINEAR, LOOKED_UP, PASSED_OVER};
use super::importing::{Importing, REFUSALS};
use super::random::Random;
use super::texts::{
    any_byte, any_line, bare_lines, changes, joined, numbers_at_limits, ALPHABET, FOREIGN,
};
use crate::file::{numbers, HEADER_BYTES, MOST_RECORDS, STORED_FEATURES};
use crate::settled::{table, with_first_line, Call, Case};
use crate::write::{file_length, Numbers};

/// What such a text is there for.
#[derive(Clone, Copy, PartialEq, Eq, Debug)]
pub enum Kind {
    Settled,
    ChoiceOfFaults,
    Odd,
    Number,
    LineCount,
    OutputLength,
    Changed,
    Short,
}

/// All of them, the few of a kind first.
pub fn first_texts(random: &mut Random) -> Vec<(Kind, Importing)> {
    let odd = ODD.iter().map(|text| of(2, text.as_bytes().to_vec()));
    let short = short_texts().into_iter().map(|text| of(2, text));
    let kinds = [
        (Kind::Settled, settled()),
        (Kind::ChoiceOfFaults, every_choice_of_faults()),
        (Kind::Odd, odd.collect()),
        (Kind::LineCount, line_counts()),
        (Kind::OutputLength, output_lengths()),
        (Kind::Number, numbers_in_texts()),
        (Kind::Changed, every_change(random)),
        (Kind::Short, short.collect()),
    ];
    let named =
        |(kind, calls): (Kind, Vec<Importing>)| calls.into_iter().map(move |call| (kind, call));
    kinds.into_iter().flat_map(named).collect()
}

/// Small parameters, with an output long enough for most texts.
fn of(used: usize, text: Vec<u8>) -> Importing {
    let numbers = Numbers {
        used,
        kernel: LINEAR,
        grid: 10,
        ceiling: 100,
        second_ceiling: 0,
        tolerance: 0,
        budget: 50,
    };
    Importing {
        numbers,
        text,
        places: file_length(4),
    }
}

fn settled() -> Vec<Importing> {
    let imported = |case: Case| match case.call {
        Call::Import { times, places } => Some(Importing {
            numbers: numbers(&case.file),
            text: with_first_line(&case.file[HEADER_BYTES..], times),
            places,
        }),
        _ => None,
    };
    table().into_iter().filter_map(imported).collect()
}

/// A text with each choice of faults.
fn every_choice_of_faults() -> Vec<Importing> {
    let chosen = |choice: usize| {
        let faults = (0..REFUSALS.len()).filter(|k| choice >> k & 1 == 1);
        with_faults(&faults.map(|k| REFUSALS[k]).collect::<Vec<_>>())
    };
    (0..1 << REFUSALS.len()).map(chosen).collect()
}

/// A text with these faults and no others: a kernel beyond its range, a label of 2 in
/// the last line, 257 lines, a value of −128, no line of one label, an output a byte
/// short.
pub fn with_faults(faults: &[u8]) -> Importing {
    let count = if faults.contains(&12) { 257 } else { 4 };
    let mut lines = vec!["+1 1:7"; count];
    if !faults.contains(&5) {
        lines[1] = "-1 2:-7";
    }
    if faults.contains(&4) {
        lines[2] = "+1 1:-128";
    }
    if faults.contains(&11) {
        lines[count - 1] = "+2 1:7";
    }
    let mut call = of(2, (lines.join("\n") + "\n").into_bytes());
    call.places = file_length(count) - usize::from(faults.contains(&10));
    if faults.contains(&2) {
        call.numbers.kernel = 3;
    }
    call
}

/// Texts that other readers take, and texts at the ends of the form, for 2 features.
const ODD: &[&str] = &[
    "",
    "\n",
    "\n\n",
    "+1\n-1\n",
    "+1\n-1",
    "+1\n-1\n\n",
    "\n+1\n-1\n",
    "+1\n\n-1\n",
    "+1\r\n-1\r\n",
    "+1\n-1\r",
    "+1\t1:1\n-1\n",
    "+1 1:1\t2:1\n-1\n",
    "+1  1:1\n-1\n",
    "+1 1:1  2:1\n-1\n",
    "+1 \n-1\n",
    "+1 1:1 \n-1\n",
    "+1 1:1\n-1 \n",
    " +1\n-1\n",
    "# word\n+1\n-1\n",
    "+1 1:1 # word\n-1\n",
    "+1 1:1#\n-1\n",
    "1\n-1\n",
    "1 1:1\n-1 2:1\n",
    "+1\n1\n-1\n",
    "+1\n0\n",
    "+1\n-2\n",
    "+2\n-1\n",
    "+01\n-1\n",
    "+1.0\n-1\n",
    "++1\n-1\n",
    "+1 1:1.5\n-1\n",
    "+1 1:1.0\n-1\n",
    "+1 1:.5\n-1\n",
    "+1 1:1e1\n-1\n",
    "+1 1:1E1\n-1\n",
    "+1 1:0x1\n-1\n",
    "+1 1:+1\n-1\n",
    "+1 1:+0\n-1\n",
    "+1 1:--1\n-1\n",
    "+1 1:-\n-1\n",
    "+1 1:\n-1\n",
    "+1 :1\n-1\n",
    "+1 1\n-1\n",
    "+1 1 1\n-1\n",
    "+1 1::1\n-1\n",
    "+1 1:1:1\n-1\n",
    "+1 1: 1\n-1\n",
    "+1 1 :1\n-1\n",
    "+1 +1:1\n-1\n",
    "+1 -1:1\n-1\n",
    "+1 qid:1 1:1\n-1\n",
    "+1 1:0\n-1 2:0\n",
    "+1 1:127 2:-127\n-1 1:-127 2:127\n",
    "+1 1:128\n-1 1:0128\n",
    "+1 1:1,2:1\n-1\n",
    "+1 1:nan\n-1\n",
    "+1 1:inf\n-1\n",
    "+1\0-1\n",
    "+1\n\0-1\n",
    "+1 1:1\0\n-1\n",
    "+1\n-1\n\0",
    "+1 1:\u{661}\n-1\n",
    "\u{feff}+1\n-1\n",
    "\u{2212}1\n+1\n",
    "+1\u{a0}1:1\n-1\n",
    "+1\u{85}-1\n",
    "+1\u{2028}-1\n",
];

/// Every number around a limit as a value and as a feature number, in the first line
/// and in the last, with signs and with leading zeros.
fn numbers_in_texts() -> Vec<Importing> {
    let mut calls = Vec::new();
    for number in numbers_at_limits() {
        for before in ["", "-", "+", "0", "-0", "0000000000000000000000000"] {
            let first = format!("+1 1:{before}{number}\n-1\n");
            let last = format!("+1\n-1 1:-3 2:{before}{number}\n");
            calls.extend([first, last].map(|text| of(2, text.into_bytes())));
        }
        for used in [1, 9, 10, STORED_FEATURES] {
            for before in ["", "0", "-"] {
                let first = format!("+1 {before}{number}:1\n-1\n");
                let last = format!("+1\n-1 1:-3 {before}{number}:-7\n");
                calls.extend([first, last].map(|text| of(used, text.into_bytes())));
            }
        }
    }
    calls
}

/// Lines around the most that there may be, without a fault and with one of form in
/// the last line or in the last byte.
fn line_counts() -> Vec<Importing> {
    let mut calls = Vec::new();
    let most = MOST_RECORDS;
    for count in [0, 1, 2, most - 1, most, most + 1, most + 2, 2 * most] {
        let whole = bare_lines(count);
        let end = whole.len().saturating_sub(1);
        for text in [
            whole.clone(),
            whole[..end].to_vec(),
            [&whole[..], b"\n"].concat(),
            [&whole[..], b"+1 1:0128\n"].concat(),
            [&whole[..], b"+1 1:128\n"].concat(),
            [&b"+1 1:128\n"[..], &whole].concat(),
        ] {
            let places = file_length(count + 1);
            calls.push(Importing {
                places,
                ..of(2, text)
            });
        }
    }
    calls
}

/// Outputs of every length around the file's, of two lines and of 256.
fn output_lengths() -> Vec<Importing> {
    let lent = |count: usize, places: usize| Importing {
        places,
        ..of(1, bare_lines(count))
    };
    let (short, long) = (file_length(2), file_length(MOST_RECORDS));
    let mut calls: Vec<Importing> = (0..=short + 24).map(|places| lent(2, places)).collect();
    calls.extend((long - 24..=long + 24).map(|places| lent(MOST_RECORDS, places)));
    calls
}

/// Texts with one byte changed, added, removed or exchanged at every place: one with
/// each byte of the form and each foreign one, and with two bytes of the form added;
/// others with bytes that are drawn.
fn every_change(random: &mut Random) -> Vec<Importing> {
    let mut calls = Vec::new();
    let text = &b"+1 1:10 3:-7 12:0\n-1 2:127\n"[..];
    for place in 0..=text.len() {
        let (before, after) = text.split_at(place);
        for &byte in ALPHABET.iter().chain(FOREIGN) {
            calls.extend(changes(text, place, byte).map(|text| of(12, text)));
            for &second in ALPHABET {
                let added = [before, &[byte, second], after].concat();
                calls.push(of(12, added));
            }
        }
    }
    for _ in 0..20 {
        let used = random.between(1, STORED_FEATURES as i64) as usize;
        let mut text = joined(&any_line(LOOKED_UP, used, random));
        text.extend(joined(&any_line(PASSED_OVER, used, random)));
        for place in 0..=text.len() {
            let byte = any_byte(random);
            calls.extend(changes(&text, place, byte).map(|text| of(used, text)));
        }
    }
    calls
}

/// Every text of up to four bytes, each a byte of the form or one that is not.
pub fn short_texts() -> Vec<Vec<u8>> {
    let mut texts = vec![Vec::new()];
    let mut start = 0;
    for _ in 0..4 {
        let end = texts.len();
        for shorter in start..end {
            for &byte in ALPHABET.iter().chain(b";") {
                texts.push([&texts[shorter][..], &[byte]].concat());
            }
        }
        start = end;
    }
    texts
}
