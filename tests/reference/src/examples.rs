//! Files beside the settled ones: the cases that document 01 has run only, its
//! example of the training program, and what is at the ends of what can be.

use crate::file::{MOST_RECORDS, RECORD_BYTES, STORED_FEATURES};
use crate::generate::draft::{Draft, LOOKED_UP, OVERLAP, PASSED_OVER};
use crate::settled::{f6, p1, plus_minus_one};

/// The file of F6 with each ceiling at an end of its range.
pub fn ceilings_at_the_ends() -> Vec<Vec<u8>> {
    let ends = [(1, 1), (1, 65_536), (65_536, 1), (65_536, 65_536)];
    let draft = |(ceiling, second_ceiling)| Draft {
        ceiling,
        second_ceiling,
        ..f6()
    };
    ends.map(|both| draft(both).plain()).to_vec()
}

/// The example of the training program: three records, first 3, record 2 spare.
/// The spare record is given bytes that no item may have.
pub fn three_records() -> Vec<u8> {
    p1().stored(&[3, 1], vec![0xEE; 60])
}

/// A training that converges after 70,880 steps, more than 16 bits can count.
pub fn long_run() -> Draft {
    let plus = |feature| (LOOKED_UP, vec![feature]);
    let minus = |feature| (PASSED_OVER, vec![feature]);
    let items = vec![
        plus(66),
        minus(-91),
        plus(-52),
        plus(-82),
        plus(-21),
        plus(-53),
        minus(-127),
        minus(16),
        plus(-59),
        minus(-10),
        plus(22),
        minus(76),
        plus(36),
        plus(-37),
        plus(80),
        plus(-60),
        minus(46),
        minus(-2),
        minus(-14),
        plus(76),
        plus(-29),
        plus(127),
        plus(72),
        plus(87),
    ];
    Draft {
        items,
        budget: 1_000_000,
        ..plus_minus_one(691, 3_000, 0)
    }
}

/// n items, + and − by turns, with one feature each.
pub fn by_turns(n: usize, feature: impl Fn(usize) -> i8) -> Vec<(u8, Vec<i8>)> {
    let label = |k| if k % 2 == 0 { LOOKED_UP } else { PASSED_OVER };
    (0..n).map(|k| (label(k), vec![feature(k)])).collect()
}

/// The largest totals that there are, and the longest item lines: with items all
/// alike, half of them of each label, every multiplier goes to the greatest
/// ceiling, a pair at a step.
pub fn largest_totals() -> Draft {
    Draft {
        items: by_turns(MOST_RECORDS, |_| 1),
        budget: MOST_RECORDS as u32 / 2,
        ..plus_minus_one(10, 65_536, 0)
    }
}

/// As many items as can be, each of sixteen features, with the overlap: 131
/// steps, 3 of them of fallback pairs, and then no pair of all moves.
pub fn largest_overlap() -> Draft {
    let feature = |k: usize, p: usize| ((k * k * (p + 3) + 29 * k + 17 * p) % 255) as i32 - 127;
    let item = |k: usize| {
        let features: Vec<i32> = (0..STORED_FEATURES).map(|p| feature(k, p)).collect();
        let hard = features.iter().sum::<i32>() > 0;
        let label = if hard { LOOKED_UP } else { PASSED_OVER };
        (label, features.into_iter().map(|f| f as i8).collect())
    };
    Draft {
        features: STORED_FEATURES as u8,
        kernel: OVERLAP,
        items: (0..MOST_RECORDS).map(item).collect(),
        budget: 1_000_000,
        ..plus_minus_one(100_000, 30, 0)
    }
}

/// As many records as can be, all chained.
pub fn full_chain() -> Vec<u8> {
    Draft {
        items: by_turns(MOST_RECORDS, |_| 1),
        ..p1()
    }
    .plain()
}

/// The cases that the paper has run only: the three records cut off after 31 and
/// 32 bytes, with a feature at either end of its range and past the lower, and
/// with a record that is its own next; 256 records, all chained, and a record more.
pub fn run_only() -> Vec<Vec<u8>> {
    const NEXT_OF_RECORD_3: usize = 72;
    const FEATURE_OF_RECORD_3: usize = 76;
    let whole = three_records();
    let with = |at: usize, byte: u8| {
        let mut file = whole.clone();
        file[at] = byte;
        file
    };
    let mut files = Vec::from([31, 32].map(|length| whole[..length].to_vec()));
    files.extend([127i8, -127, -128].map(|feature| with(FEATURE_OF_RECORD_3, feature as u8)));
    files.push(with(NEXT_OF_RECORD_3, 3));
    files.push(full_chain());
    files.push(one_record_more(full_chain()));
    files
}

fn one_record_more(mut file: Vec<u8>) -> Vec<u8> {
    let records = u16::from_le_bytes([file[0], file[1]]) + 1;
    file[..2].copy_from_slice(&records.to_le_bytes());
    file.extend([0; RECORD_BYTES]);
    file
}
