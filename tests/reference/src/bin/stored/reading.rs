//! The streams of `reading_test`: the edge cases, and then files drawn at random,
//! with one or more faults or none.
//!
//! Its input has an entry for each file: the length of its name in one byte and
//! the name; in two bytes, least first, how many places of an order table are
//! lent; its length in two bytes, and its bytes.

use crate::edges::{edges, Edge};
use crate::{counted, two_bytes, Streams, SEED};
use reference::contents;
use reference::file::read;
use reference::generate::{
    among, broken, damaged, noise, one_sided, with_changed_header, with_changed_record,
    with_relinked_spares, Random,
};

/// Kinds come by turns, so that each refusal has its share.
const KINDS: u64 = 29;
const DRAWN: u64 = 27 * KINDS;

pub fn streams() -> Streams {
    let mut cases = edges();
    cases.extend((0..DRAWN).map(drawn));
    let answers = counted(cases.iter().map(|(_, file, _)| answer(file)));
    println!("reading_test: {} files: {answers}", cases.len());
    Streams {
        stdin: cases.iter().flat_map(entry).collect(),
        stdout: cases.iter().map(line).collect(),
    }
}

/// A file with no name.
fn drawn(number: u64) -> Edge {
    let random = &mut Random::numbered(SEED, number);
    let items = random.pick(&[2, 2, 2, 2, 3, 3, 4]);
    let spares = random.pick(&[0, 0, 1, 2]);
    let file = among(random, items, items + spares);
    let file = match number % KINDS {
        0..=7 => file,
        8 => with_relinked_spares(&file, random),
        9..=11 => one_sided(&file, random),
        12 => among(random, 0, spares),
        13 => among(random, 1, 1 + spares),
        14 => with_changed_header(&file, random),
        15..=17 => with_changed_record(&file, random),
        18..=21 => damaged(&file, random),
        22..=26 => broken(&file, random),
        _ => noise(random),
    };
    let places = table_length(&file, random);
    ("", file, places)
}

/// Places for all items, or one more or less, or none; two or so for a file that
/// is refused.
fn table_length(file: &[u8], random: &mut Random) -> usize {
    let n = read(file).map_or(2, |problem| problem.items.len());
    random.pick(&[n, n, n + 1, n - 1, 0])
}

/// Accepted, or the refusal's number.
fn answer(file: &[u8]) -> String {
    match read(file) {
        Ok(_) => "accepted".into(),
        Err(refusal) => format!("refused {}", refusal.number),
    }
}

fn entry((name, file, places): &Edge) -> Vec<u8> {
    let length = u8::try_from(name.len()).expect("a name's length fits a byte");
    let sizes = [two_bytes(*places), two_bytes(file.len())].concat();
    [&[length][..], name.as_bytes(), &sizes, file].concat()
}

/// The answer, and what the table then holds: 9s, but for the record numbers that
/// reading an accepted file puts there.
fn line((name, file, places): &Edge) -> String {
    let mut table = vec![9; *places];
    let answer = match contents(file, &mut table) {
        Ok(read) => format!("accepted {}", read.items),
        Err(refusal) => format!("refused {} {}", refusal.number, refusal.record.unwrap_or(0)),
    };
    let named = if name.is_empty() { "" } else { ": " };
    let shown = if table.is_empty() { "" } else { ":" };
    let numbers: String = table.iter().map(|number| format!(" {number}")).collect();
    format!("{name}{named}{answer}{shown}{numbers}\n")
}
