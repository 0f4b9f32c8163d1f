//! Texts in libsvm's form and next to it: lines with features left out and written,
//! numbers around every limit, and each way that we know to miss the form.

use super::draft::{any_feature, LOOKED_UP};
use super::random::Random;
use crate::file::{HIGHEST_FEATURE, LOWEST_FEATURE};
use crate::write::{Row, LABEL};

/// All bytes of the form.
pub const ALPHABET: &[u8] = b"0123456789+- :\n";

/// Next to the digits on both sides, blanks of other kinds, 0, and bytes with their
/// highest bit set, of which one is otherwise a digit and one a newline.
pub const FOREIGN: &[u8] = b"/;.,*#e\r\t\x0b\0\x80\xb1\x8a\xff";

/// A line before it is put together: the label, and the groups.
pub type Fields = Vec<String>;

pub fn joined(fields: &[String]) -> Vec<u8> {
    (fields.join(" ") + "\n").into_bytes()
}

/// The items as lines, a 0 written where it is asked for.
pub fn printed(rows: &[Row], used: usize, mut with_zero: impl FnMut() -> bool) -> Vec<u8> {
    let lines = rows.iter().map(|row| fields(row, used, &mut with_zero));
    lines.flat_map(|fields| joined(&fields)).collect()
}

pub fn fields(row: &Row, used: usize, mut with_zero: impl FnMut() -> bool) -> Fields {
    let plus = row[LABEL] == LOOKED_UP as i8;
    let mut fields = vec![if plus { "+1" } else { "-1" }.to_string()];
    for (number, &feature) in (1..).zip(&row[..used]) {
        if feature != 0 || with_zero() {
            fields.push(format!("{number}:{feature}"));
        }
    }
    fields
}

/// A line of a label, with features in use left out, written as 0, at an end of their
/// range or anywhere in it.
pub fn any_line(label: u8, used: usize, random: &mut Random) -> Fields {
    let mut row = [0; LABEL + 1];
    row[LABEL] = label as i8;
    if random.chance(9, 10) {
        for feature in &mut row[..used] {
            let any = any_feature(random);
            *feature = random.pick(&[0, 0, LOWEST_FEATURE, HIGHEST_FEATURE, any, any, any]);
        }
    }
    let written = random.pick(&[0, 1, 2]);
    fields(&row, used, || random.chance(written, 2))
}

/// What a number may wrap at when its digits are added up, in bits.
pub const WIDTHS: [u32; 4] = [8, 16, 32, 64];

/// Numbers around every limit, without signs: of 1 to 40 digits, those next to a power
/// of 2 or of 10, and those that leave a small number when they wrap.
pub fn numbers_at_limits() -> Vec<String> {
    let mut numbers: Vec<u128> = (0..=20).chain(98..=102).chain(124..=131).collect();
    for bits in WIDTHS {
        let limit = 1 << bits;
        numbers.extend([limit / 2 - 1, limit / 2, limit / 2 + 1, 2 * limit + 1]);
        numbers.extend((1..=5).map(|k| limit - k));
        numbers.extend((0..=17).chain(125..=129).map(|k| limit + k));
    }
    let mut texts: Vec<String> = numbers.iter().map(u128::to_string).collect();
    // 2^128 + 1.
    texts.push("340282366920938463463374607431768211457".into());
    for digits in 1..=40 {
        texts.push("9".repeat(digits));
        texts.push(format!("1{}", "0".repeat(digits - 1)));
        texts.push(format!("1{:0>1$}", 1, digits.max(2) - 1));
    }
    texts
}

/// A number that is not in the range of a value, with a sign or none.
pub fn outside(random: &mut Random) -> String {
    let next = random.pick(&[128, 128, 129, 255, 256, 1_000]);
    let wraps = wrapping(random.below(128), random);
    let long = digits(random.between(4, 40) as usize, random);
    let number = match random.below(4) {
        0 => next.to_string(),
        1 => long,
        _ => wraps,
    };
    random.pick(&["", "-"]).to_string() + &number
}

/// A number of which the lower bits are this one.
pub fn wrapping(low: u64, random: &mut Random) -> String {
    let bits = random.pick(&WIDTHS);
    let times = random.pick(&[1, 1, 2, 255]);
    ((times << bits) + u128::from(low)).to_string()
}

/// So many digits, of which the first is not 0.
fn digits(count: usize, random: &mut Random) -> String {
    let first = random.between(1, 9).to_string();
    let others = (1..count).map(|_| random.below(10).to_string());
    first + &others.collect::<String>()
}

/// A line made one that is not of the form, or, by chance, is all the same.
pub fn misformed(line: &[u8], used: usize, random: &mut Random) -> Vec<u8> {
    let text = String::from_utf8_lossy(line);
    let mut fields: Fields = text.trim_end().split(' ').map(String::from).collect();
    match random.below(13) {
        0..=2 => fields[0] = wrong_label(&fields[0], random),
        3..=5 => spoil_number(&mut fields, used, random),
        6..=8 => spoil_value(&mut fields, used, random),
        9 => spoil_order(&mut fields, used, random),
        _ => return spoilt(line, used, random),
    }
    joined(&fields)
}

fn wrong_label(label: &str, random: &mut Random) -> String {
    let unsigned = &label[1..];
    let wrong = [
        unsigned, unsigned, "+2", "-2", "+0", "-0", "", "+", "-", "+01", "+01", "+11", "-1.0",
    ];
    random.pick(&wrong).to_string()
}

/// The place of a group, which is made where the line has none.
fn any_group(fields: &mut Fields, used: usize, random: &mut Random) -> usize {
    if fields.len() == 1 {
        fields.push(format!("{}:{}", random.between(1, used as i64), 7));
    }
    random.between(1, fields.len() as i64 - 1) as usize
}

/// The number and the value of a group.
fn halves(group: &str) -> (&str, &str) {
    group.split_once(':').unwrap_or((group, ""))
}

fn spoil_number(fields: &mut Fields, used: usize, random: &mut Random) {
    let place = any_group(fields, used, random);
    let (number, value) = halves(&fields[place]);
    let low = number.parse().unwrap_or(1);
    let wrong = match random.below(13) {
        0 => "0".into(),
        1 => (used + 1).to_string(),
        2 => random.between(used as i64 + 2, 99).to_string(),
        3 => format!("{used}{}", random.below(10)),
        4 => "".into(),
        5 => format!("0{number}"),
        6 => format!("+{number}"),
        7 => format!("-{number}"),
        8 => digits(40, random),
        _ => wrapping(low, random),
    };
    fields[place] = format!("{wrong}:{value}");
}

fn spoil_value(fields: &mut Fields, used: usize, random: &mut Random) {
    let place = any_group(fields, used, random);
    let (number, value) = halves(&fields[place]);
    let unsigned = value.trim_start_matches('-');
    let wrong = match random.below(13) {
        0 => format!("+{unsigned}"),
        1 => format!("0{unsigned}"),
        2 => format!("-0{unsigned}"),
        3 | 4 => "-0".into(),
        5 => "".into(),
        6 => "-".into(),
        7 => format!("--{unsigned}"),
        8 => format!("{value}.{}", random.pick(&[0, 5])),
        9 => format!("{value}e1"),
        10 => format!("{value}-"),
        11 => format!("0{}", outside(random).trim_start_matches('-')),
        _ => format!("{}{unsigned}", "0".repeat(random.between(1, 40) as usize)),
    };
    fields[place] = format!("{number}:{wrong}");
}

/// The same feature number twice, or two groups exchanged.
fn spoil_order(fields: &mut Fields, used: usize, random: &mut Random) {
    let place = any_group(fields, used, random);
    match random.below(3) {
        0 if place > 1 => fields.swap(place - 1, place),
        1 => {
            let first = fields[1].clone();
            fields.push(first);
        }
        _ => {
            let again = fields[place].clone();
            fields.insert(place, again);
        }
    }
}

/// Faults of whole lines, and bytes of 0 and of 128 or above.
fn spoilt(line: &[u8], used: usize, random: &mut Random) -> Vec<u8> {
    let body = &line[..line.len() - 1];
    let with_group = [body, format!(" {used}:1\n").as_bytes()].concat();
    let grouped = if body.contains(&b' ') {
        line
    } else {
        &with_group
    };
    match random.below(13) {
        0 | 1 => [b"\n", line].concat(),
        2 | 3 => [line, b"\n"].concat(),
        4 => [body, b"\r\n"].concat(),
        5 => replaced_once(grouped, b" ", b"\t"),
        6 => replaced_once(grouped, b" ", b"  "),
        7 => [body, b" \n"].concat(),
        8 => [b" ", line].concat(),
        9 => [body, b" # word\n"].concat(),
        10 => [body, b"# word\n"].concat(),
        11 => replaced_once(
            grouped,
            b":",
            random.pick(&["", "=", "=", ";", ";"]).as_bytes(),
        ),
        _ => {
            let place = random.below(line.len() as u64) as usize;
            let byte = random.pick(b"\0\0\0\x80\xb1\x8a");
            let [changed, added, ..] = changes(line, place, byte);
            random.pick(&[&changed, &added]).clone()
        }
    }
}

/// The bytes with the first of these parts exchanged for another, where there is one.
pub fn replaced_once(bytes: &[u8], part: &[u8], other: &[u8]) -> Vec<u8> {
    let place = bytes.windows(part.len()).position(|there| there == part);
    match place {
        None => bytes.to_vec(),
        Some(place) => [&bytes[..place], other, &bytes[place + part.len()..]].concat(),
    }
}

/// One byte changed, added, removed or exchanged with the next, at any place.
pub fn changed(bytes: &[u8], random: &mut Random) -> Vec<u8> {
    let place = random.below(bytes.len() as u64) as usize;
    let kinds = changes(bytes, place, any_byte(random));
    kinds[random.below(kinds.len() as u64) as usize].clone()
}

pub fn any_byte(random: &mut Random) -> u8 {
    let any = random.draw() as u8;
    let (near, foreign) = (random.pick(ALPHABET), random.pick(FOREIGN));
    random.pick(&[near, near, foreign, any])
}

/// The four changes at a place, two of them with this byte.
pub fn changes(bytes: &[u8], place: usize, byte: u8) -> [Vec<u8>; 4] {
    let (before, after) = (&bytes[..place], &bytes[place..]);
    let rest = after.get(1..).unwrap_or(&[]);
    let next = &rest[..rest.len().min(1)];
    let here = &after[..after.len().min(1)];
    [
        [before, &[byte], rest].concat(),
        [before, &[byte], after].concat(),
        [before, rest].concat(),
        [before, next, here, &rest[next.len()..]].concat(),
    ]
}

/// The text of so many lines without groups, of both labels by turns.
pub fn bare_lines(count: usize) -> Vec<u8> {
    let lines = (0..count).map(|k| if k % 2 == 0 { "+1\n" } else { "-1\n" });
    lines.collect::<String>().into_bytes()
}
