//! Document 01's edge cases, with those of document 02's requests, each with a
//! name: most are one change to the example of the training program.

use reference::file::{record_start, HEADER_BYTES, MOST_RECORDS, RECORD_BYTES};
use reference::generate::chains::{with_first, with_next};
use reference::generate::draft::{Draft, LOOKED_UP};
use reference::generate::with;
use reference::settled::p1;

/// A name, a file, and how many places of an order table are lent.
pub type Edge = (&'static str, Vec<u8>, usize);

/// Where fields are in the header.
const M: usize = 0;
const D: usize = 4;
const KERNEL: usize = 5;
const SPARE: usize = 6;
const S: usize = 8;
const C: usize = 12;
const T: usize = 16;
const BUDGET: usize = 24;
const SECOND: usize = 28;

/// Where fields are in a record.
const LABEL: usize = 2;
const ZERO: usize = 3;
const FEATURE: usize = 4;

pub fn edges() -> Vec<Edge> {
    let groups = [lengths(), headers(), chains(), records(), largest()];
    let without_table = |(name, file)| (name, file, 0);
    let edges = groups.into_iter().flatten().map(without_table);
    edges.chain(tables()).collect()
}

/// Record 3 is looked up with feature 1, then record 1 passed over with feature
/// −1. Record 2 is spare and holds bytes that a record on the chain may not.
fn sample() -> Vec<u8> {
    let mut records = vec![0; 3 * RECORD_BYTES];
    records[RECORD_BYTES..][..5].copy_from_slice(&[200, 0, 7, 0, 200]);
    p1().stored(&[3, 1], records)
}

/// The sample with a byte of a record changed.
fn changed(record: usize, field: usize, value: u8) -> Vec<u8> {
    with(&sample(), record_start(record) + field, &[value])
}

/// The sample with a record that leads elsewhere.
fn leading(record: usize, next: usize) -> Vec<u8> {
    with_next(&sample(), record, next)
}

fn lengths() -> Vec<(&'static str, Vec<u8>)> {
    let cut = |length: usize| sample()[..length].to_vec();
    let empty = Draft {
        items: Vec::new(),
        ..p1()
    };
    vec![
        ("no bytes", cut(0)),
        ("31 bytes", cut(HEADER_BYTES - 1)),
        ("32 bytes, m 3", cut(HEADER_BYTES)),
        ("91 bytes, m 3", cut(91)),
        ("93 bytes, m 3", [sample(), vec![0]].concat()),
        ("m 2", with(&sample(), M, &[2])),
        ("32 bytes, m 0", empty.plain()),
    ]
}

fn headers() -> Vec<(&'static str, Vec<u8>)> {
    let byte = |at: usize, value: u8| with(&sample(), at, &[value]);
    let four = |at: usize, value: u32| with(&sample(), at, &value.to_le_bytes());
    let tolerance = |value: u64| with(&sample(), T, &value.to_le_bytes());
    vec![
        ("first record 4", with_first(&sample(), 4)),
        ("d 0", byte(D, 0)),
        ("d 16", byte(D, 16)),
        ("d 17", byte(D, 17)),
        ("kernel 1", byte(KERNEL, 1)),
        ("kernel 2", byte(KERNEL, 2)),
        ("kernel 3", byte(KERNEL, 3)),
        ("spare byte 6", byte(SPARE, 1)),
        ("spare byte 7", byte(SPARE + 1, 1)),
        ("S 0", four(S, 0)),
        ("S 1048576", four(S, 1_048_576)),
        ("S 1048577", four(S, 1_048_577)),
        ("c 0", four(C, 0)),
        ("c 65536", four(C, 65_536)),
        ("c 65537", four(C, 65_537)),
        ("t 1000000000000", tolerance(1_000_000_000_000)),
        ("t 1000000000001", tolerance(1_000_000_000_001)),
        ("budget 1000000", four(BUDGET, 1_000_000)),
        ("budget 1000001", four(BUDGET, 1_000_001)),
        ("second ceiling 0", four(SECOND, 0)),
        ("second ceiling 1", four(SECOND, 1)),
        ("second ceiling 100, as c", four(SECOND, 100)),
        ("second ceiling 65535", four(SECOND, 65_535)),
        ("second ceiling 65536", four(SECOND, 65_536)),
        ("second ceiling 65537", four(SECOND, 65_537)),
        ("second ceiling 65792", four(SECOND, 65_792)),
        ("second ceiling 131072", four(SECOND, 131_072)),
        ("second ceiling 16777216", four(SECOND, 16_777_216)),
        ("second ceiling 4294967295", four(SECOND, u32::MAX)),
        ("second ceiling 100, c 0", with(&four(SECOND, 100), C, &[0])),
    ]
}

/// Where a wrong label stands beside a broken chain, byte 3 is not 0 either.
fn chains() -> Vec<(&'static str, Vec<u8>)> {
    let mislabelled = |file: Vec<u8>| with(&file, record_start(3) + LABEL, &[9, 1]);
    let tail = with_next(&leading(2, 1), 1, 2);
    let (over, own) = (leading(3, 4), leading(3, 3));
    vec![
        ("next 4, m 3", leading(3, 4)),
        ("next 257, m 3", leading(3, 257)),
        ("next 65535, m 3", leading(3, 65_535)),
        ("next 4 of the last record, m 3", leading(1, 4)),
        ("next 4, and a wrong label", mislabelled(over)),
        ("the spare record next, its next 200", leading(3, 2)),
        ("the first record its own next", leading(3, 3)),
        ("the last record its own next", leading(1, 1)),
        ("the last record's next the first", leading(1, 3)),
        ("a tail into a cycle", tail),
        ("a record its own next, and a wrong label", mislabelled(own)),
        ("the spare record its own next", leading(2, 2)),
    ]
}

fn records() -> Vec<(&'static str, Vec<u8>)> {
    let feature = |place: usize, value: i8| changed(3, FEATURE + place, value as u8);
    vec![
        ("label 0", changed(3, LABEL, 0)),
        ("label 3", changed(1, LABEL, 3)),
        ("byte 3 not 0", changed(3, ZERO, 1)),
        ("feature 127", feature(0, 127)),
        ("feature -127", feature(0, -127)),
        ("feature -128", feature(0, -128)),
        ("feature 2 past d 1", feature(1, 1)),
        ("feature 16 past d 1", feature(15, -1)),
        ("all looked up", changed(1, LABEL, 1)),
        ("all passed over", changed(3, LABEL, 2)),
        ("an empty chain", with_first(&sample(), 0)),
    ]
}

/// As many records as can be, all chained, and one more.
fn largest() -> Vec<(&'static str, Vec<u8>)> {
    let full = || chained(MOST_RECORDS);
    let ending_in = |next| with_next(&full(), MOST_RECORDS, next);
    vec![
        ("m 256, n 256", full()),
        ("m 256, the last record's next the first", ending_in(1)),
        ("m 256, the last record's next 257", ending_in(257)),
        ("m 257", chained(MOST_RECORDS + 1)),
    ]
}

/// Records chained in their order, passed over and looked up by turns, the last
/// looked up.
fn chained(records: usize) -> Vec<u8> {
    let label = |k: usize| LOOKED_UP + (k % 2) as u8;
    let mut items: Vec<(u8, Vec<i8>)> = (1..records).map(|k| (label(k), vec![0])).collect();
    items.push((LOOKED_UP, vec![0]));
    Draft { items, ..p1() }.plain()
}

fn tables() -> Vec<Edge> {
    vec![
        ("a table of 4", sample(), 4),
        ("a table of 1", sample(), 1),
        ("no table", sample(), 0),
        ("a table of 4, refused", changed(3, ZERO, 1), 4),
    ]
}
