//! Document 02, request (h): moving up a year.

use crate::cases::PoolCall;
use crate::examples::by_turns;
use crate::file::{MOST_RECORDS, RECORD_BYTES};
use crate::generate::chains::{with_label, with_next};
use crate::generate::draft::{Draft, LOOKED_UP, OVERLAP, PASSED_OVER, SQUARE};
use crate::generate::first_pools::{every_choice, first_pools, with_faults, Kind};
use crate::generate::pooling::{beside, handed_in, Pooling, OF_A_FILE};
use crate::generate::{any_file, spoilt, Random};
use crate::pool::pool;
use crate::settled::{f2, p1};
use crate::write::{file_length, rows, Row, LABEL};
use crate::{contents, Refusal};

/// Pools into an output that is long enough.
fn pooled(older: &[u8], newer: &[u8]) -> Result<Vec<u8>, Refusal> {
    let mut output = vec![9; file_length(MOST_RECORDS) + 1];
    let length = pool(older, newer, &mut output)?;
    assert!(output[length..].iter().all(|&byte| byte == 9));
    output.truncate(length);
    Ok(output)
}

/// The answer's number, 0 for a file.
fn answer(older: &[u8], newer: &[u8]) -> u8 {
    let refusal = pooled(older, newer).err();
    refusal.map_or(0, |refusal| refusal.number)
}

/// Labels and features.
type Items<'a> = &'a [(u8, &'a [i8])];

fn draft(used: usize, items: Items) -> Draft {
    Draft {
        features: used as u8,
        items: items.iter().map(|&(y, x)| (y, x.to_vec())).collect(),
        ..p1()
    }
}

/// The items in a file, in the order of its chain.
fn items_in(file: &[u8]) -> Vec<Row> {
    let mut order = vec![0; MOST_RECORDS];
    let read = contents(file, &mut order).expect("accepted");
    rows(file, &order[..read.items])
}

const PLUS: u8 = LOOKED_UP;
const MINUS: u8 = PASSED_OVER;

/// Older items, newer ones, and those left.
#[rustfmt::skip]
const BY_HAND: &[(usize, Items, Items, Items)] = &[
    // All are different, and keep their order.
    (1, &[(PLUS, &[3]), (MINUS, &[1])], &[(MINUS, &[4]), (PLUS, &[2])],
        &[(PLUS, &[3]), (MINUS, &[1]), (MINUS, &[4]), (PLUS, &[2])]),
    // A word of the older file has changed its label, or has kept it.
    (1, &[(PLUS, &[1]), (MINUS, &[-1])], &[(MINUS, &[1]), (PLUS, &[2])],
        &[(MINUS, &[-1]), (MINUS, &[1]), (PLUS, &[2])]),
    (1, &[(PLUS, &[1]), (MINUS, &[-1])], &[(MINUS, &[2]), (PLUS, &[1])],
        &[(MINUS, &[-1]), (MINUS, &[2]), (PLUS, &[1])]),
    // The same within the older file, and within the newer.
    (1, &[(PLUS, &[1]), (MINUS, &[2]), (MINUS, &[1])], &[(PLUS, &[3]), (MINUS, &[4])],
        &[(MINUS, &[2]), (MINUS, &[1]), (PLUS, &[3]), (MINUS, &[4])]),
    (1, &[(PLUS, &[3]), (MINUS, &[4])], &[(PLUS, &[1]), (MINUS, &[2]), (PLUS, &[1])],
        &[(PLUS, &[3]), (MINUS, &[4]), (MINUS, &[2]), (PLUS, &[1])]),
    // One word in all places but two; the last item is the one that stays.
    (1, &[(PLUS, &[1]), (MINUS, &[1]), (PLUS, &[2])], &[(PLUS, &[1]), (MINUS, &[1])],
        &[(PLUS, &[2]), (MINUS, &[1])]),
    (1, &[(MINUS, &[0]), (PLUS, &[0])], &[(MINUS, &[0]), (PLUS, &[5]), (PLUS, &[0]), (MINUS, &[5])],
        &[(PLUS, &[0]), (MINUS, &[5])]),
    // Nothing is left of the older file.
    (1, &[(PLUS, &[1]), (MINUS, &[2])], &[(PLUS, &[2]), (MINUS, &[1])],
        &[(PLUS, &[2]), (MINUS, &[1])]),
    // Two features: the same in one of them is not the same.
    (2, &[(PLUS, &[1, 2]), (MINUS, &[2, 1])], &[(MINUS, &[1, 1]), (PLUS, &[2, 2])],
        &[(PLUS, &[1, 2]), (MINUS, &[2, 1]), (MINUS, &[1, 1]), (PLUS, &[2, 2])]),
    (2, &[(PLUS, &[1, 2]), (MINUS, &[2, 1])], &[(MINUS, &[1, 2]), (PLUS, &[1, -2])],
        &[(MINUS, &[2, 1]), (MINUS, &[1, 2]), (PLUS, &[1, -2])]),
];

#[test]
fn items_by_hand() {
    for &(used, older, newer, left) in BY_HAND {
        let [older, newer, left] = [older, newer, left].map(|items| draft(used, items).plain());
        assert_eq!(pooled(&older, &newer), Ok(left));
    }
}

/// "items with the same d features": for every d, two that differ at one place stay, and
/// two that do not are one.
#[test]
fn every_place_of_every_d_counts() {
    for used in 1..=16 {
        let word: Vec<i8> = (1..=used as i8).collect();
        let far = vec![-1; used];
        let farther = vec![-2; used];
        let older = draft(used, &[(PLUS, &word), (MINUS, &far)]).plain();
        let newer = |word: &[i8]| draft(used, &[(PLUS, word), (MINUS, &farther)]).plain();
        let left = pooled(&older, &newer(&word)).expect("pooled");
        assert_eq!(left.len(), file_length(3));
        for place in 0..used {
            let mut other = word.clone();
            other[place] = 100;
            let left = pooled(&older, &newer(&other)).expect("pooled");
            assert_eq!(left.len(), file_length(4));
        }
    }
}

/// The chain's order counts, not that of the records; spares count for nothing.
#[test]
fn chains_and_spares() {
    let older = draft(1, &[(PLUS, &[1]), (MINUS, &[2]), (MINUS, &[1])]);
    let newer = draft(1, &[(MINUS, &[3]), (MINUS, &[4]), (PLUS, &[3])]);
    let left: Items = &[(MINUS, &[2]), (MINUS, &[1]), (MINUS, &[4]), (PLUS, &[3])];
    let expected = draft(1, left).plain();
    assert_eq!(pooled(&older.plain(), &newer.plain()), Ok(expected.clone()));
    // Spare records that look like an item of the word.
    let spares = |word: u8| -> Vec<u8> {
        let mut record = [0; RECORD_BYTES];
        (record[2], record[4]) = (PLUS, word);
        record.repeat(5)
    };
    for word in [1, 2, 3, 4, 5] {
        let last_year = older.stored(&[5, 3, 1], spares(word));
        let this_year = newer.stored(&[4, 2, 3], spares(word));
        assert_eq!(pooled(&last_year, &this_year), Ok(expected.clone()));
    }
}

/// "Parameters are the newer file's", "a 0 staying 0", whatever those of the older file.
#[test]
fn parameters_are_the_newer_files() {
    let other = Draft {
        units: 1,
        ceiling: 2,
        tolerance: 3,
        budget: 4,
        second_ceiling: 5,
        ..p1()
    };
    for older in [p1(), f2(), other.clone()] {
        for newer in [p1(), f2(), other.clone()] {
            // Both have the items of P1, so the newer file comes out.
            assert_eq!(pooled(&older.plain(), &newer.plain()), Ok(newer.plain()));
        }
    }
}

/// Only d and the kernel must not differ.
#[test]
fn unlike_files_draw_14() {
    let other = |features: u8, kernel: u8| {
        let draft = Draft {
            features,
            kernel,
            ..p1()
        };
        draft.plain()
    };
    for (one, another) in (1..=16).flat_map(|one| (1..=16).map(move |other| (one, other))) {
        let expected = if one == another { 0 } else { 14 };
        assert_eq!(answer(&other(one, 0), &other(another, 0)), expected);
    }
    for (one, another) in [(0, SQUARE), (0, OVERLAP), (SQUARE, OVERLAP)] {
        assert_eq!(answer(&other(1, one), &other(1, another)), 14);
        assert_eq!(answer(&other(1, another), &other(1, one)), 14);
        assert_eq!(answer(&other(1, another), &other(1, another)), 0);
    }
}

/// Files of so many items, all different but for some of the newer file's, which are
/// those of the older one.
fn with_left(older: usize, newer: usize, left: usize) -> [Draft; 2] {
    let words = |first: usize, count: usize| {
        let mut items = by_turns(count, |_| 0);
        for (k, (_, features)) in (first..).zip(&mut items) {
            *features = vec![(k / 100) as i8, (k % 100) as i8];
        }
        Draft {
            features: 2,
            items,
            ..p1()
        }
    };
    [words(0, older), words(left - newer, newer)]
}

/// "over 256 items left".
#[test]
fn items_255_to_512_left() {
    for (older, newer, left) in [
        (256, 256, 256),
        (255, 255, 255),
        (256, 256, 257),
        (256, 256, 512),
        (2, 254, 256),
        (2, 255, 257),
        (254, 2, 256),
        (255, 2, 257),
        (128, 128, 256),
    ] {
        let [one, other] = with_left(older, newer, left);
        let file = pooled(&one.plain(), &other.plain());
        match left {
            0..=256 => assert_eq!(file.expect("pooled").len(), file_length(left)),
            _ => assert_eq!(file, Err(15.into())),
        }
    }
}

/// 5 is of what is left, and ahead of 15.
#[test]
fn one_label_left() {
    let older = draft(1, &[(PLUS, &[1]), (MINUS, &[2])]).plain();
    let newer = |items: Items| draft(1, items).plain();
    assert_eq!(answer(&older, &newer(&[(PLUS, &[2]), (MINUS, &[2])])), 0);
    assert_eq!(
        answer(&older, &newer(&[(PLUS, &[2]), (MINUS, &[1]), (PLUS, &[1])])),
        5
    );
    let all_minus = newer(&[(PLUS, &[1]), (PLUS, &[3]), (MINUS, &[1]), (MINUS, &[3])]);
    assert_eq!(answer(&older, &all_minus), 5);
    // Of 512 items, both files' first ones alone are passed over, and are dropped for the
    // last item of all.
    let [mut one, mut other] = with_left(256, 256, 512);
    let last = other.items[255].1.clone();
    for draft in [&mut one, &mut other] {
        draft.items.iter_mut().for_each(|item| item.0 = PLUS);
        draft.items[0] = (MINUS, last.clone());
    }
    assert_eq!(answer(&one.plain(), &other.plain()), 5);
    other.items[1].0 = MINUS;
    assert_eq!(answer(&one.plain(), &other.plain()), 15);
}

/// "The older file is judged first, then the newer", then 14, 5, 15 and 10, for every
/// choice of faults: the one that is tested first is answered.
#[test]
fn refusals_of_pooling_come_in_order() {
    let choices = every_choice();
    assert_eq!(choices.len(), 7 * 7 * 32);
    for faults in choices {
        let call = with_faults(&faults);
        let first = faults.refusals().first().copied();
        let mut output = vec![9; call.places];
        let answer = pool(&call.older, &call.newer, &mut output);
        assert_eq!(answer.err().map(|refusal| refusal.number), first);
        assert_eq!(output.iter().all(|&byte| byte == 9), first.is_some());
    }
}

/// The record that is carried is of the file that drew the refusal.
#[test]
fn a_record_of_the_file_that_is_refused() {
    let good = p1().plain();
    let carried = |older: &[u8], newer: &[u8]| pooled(older, newer).err();
    let of = |number, record| Some(Refusal::with_record(number, record));
    let (back, over) = (with_next(&good, 2, 1), with_next(&good, 1, 3));
    assert_eq!(carried(&back, &good), of(16, 2));
    assert_eq!(carried(&good, &back), of(16, 2));
    assert_eq!(carried(&over, &back), of(3, 1));
    assert_eq!(carried(&back, &over), of(16, 2));
    assert_eq!(carried(&with_label(&good, 1, 0), &over), Some(4.into()));
    assert_eq!(carried(&over, &good[..31]), of(3, 1));
    assert_eq!(carried(&good[..31], &over), Some(1.into()));
}

/// The answer is the first of the refusals that have a cause. On a refusal nothing lent
/// changes; otherwise the bytes past the file stay.
fn assert_answers(call: PoolCall) {
    let Pooling {
        older,
        newer,
        places,
        ..
    } = &call.handed;
    let mut output = vec![9; *places];
    let answer = pool(older, newer, &mut output);
    let length = match (call.older.or(call.newer), call.at_fault.first()) {
        (Some(refusal), _) => {
            assert_eq!(answer, Err(refusal), "{:?}", call.handed);
            0
        }
        (None, Some(&number)) => {
            assert_eq!(answer, Err(number.into()), "{:?}", call.handed);
            0
        }
        (None, None) => {
            let length = file_length(call.left().count());
            assert_eq!(answer, Ok(length), "{:?}", call.handed);
            length
        }
    };
    assert!(output[length..].iter().all(|&byte| byte == 9));
}

#[test]
fn the_first_refusal_of_those_with_a_cause() {
    for number in 0..2_000 {
        let random = &mut Random::numbered(2, number);
        assert_answers(PoolCall::of(handed_in(random)));
        let file = any_file(random);
        assert_answers(PoolCall::of(beside(&file, random)));
    }
    for (_, call) in first_pools() {
        assert_answers(PoolCall::of(call));
    }
}

/// A pool's items are those of both files, each once, and the labels are the last ones:
/// told from the last item of all to the first.
#[test]
fn what_is_left_by_another_count() {
    let mut accepted = 0;
    for number in 0..1_000 {
        let random = &mut Random::numbered(3, number);
        let call = handed_in(random);
        let file = match pooled(&call.older, &call.newer) {
            Ok(file) => file,
            Err(_) => continue,
        };
        let mut left: Vec<Row> = Vec::new();
        let all = [items_in(&call.older), items_in(&call.newer)].concat();
        for item in all.iter().rev() {
            if left.iter().all(|later| later[..LABEL] != item[..LABEL]) {
                left.push(*item);
            }
        }
        left.reverse();
        assert_eq!(items_in(&file), left);
        accepted += 1;
    }
    assert!(accepted > 300);
}

/// Pooled again, with itself or with either of the files that it came from, a pool stays
/// as it is.
#[test]
fn a_pool_again_is_the_same() {
    let mut accepted = 0;
    for number in 0..1_000 {
        let call = handed_in(&mut Random::numbered(4, number));
        if let Ok(file) = pooled(&call.older, &call.newer) {
            assert_eq!(pooled(&file, &file), Ok(file.clone()));
            assert_eq!(pooled(&file, &call.newer), Ok(file.clone()));
            assert_eq!(pooled(&call.older, &file), Ok(file));
            accepted += 1;
        }
    }
    assert!(accepted > 300);
}

/// Files that are made to be refused are, each with its number.
#[test]
fn a_spoilt_file_draws_its_refusal() {
    let good = p1().stored(&[4, 2], vec![1; 5 * RECORD_BYTES]);
    for number in OF_A_FILE {
        for seed in 0..200 {
            let file = spoilt::refused_with(number, &good, &mut Random::new(seed));
            assert_eq!(answer(&file, &good), number);
            assert_eq!(answer(&good, &file), number);
        }
    }
}

/// Of the files that come first, as many of a kind as there are.
#[test]
fn files_that_come_first() {
    let calls = first_pools();
    let count = |kind: Kind| calls.iter().filter(|(other, _)| *other == kind).count();
    assert_eq!(count(Kind::Settled), 8);
    // Lists of two and of three of four items, without those of one label.
    let small = 16 - 2 * 4 + 64 - 2 * 8;
    assert_eq!(count(Kind::Small), small * small);
    assert_eq!(count(Kind::Same), 2 * small);
    assert_eq!(count(Kind::OnePlace), 136 * 4 * 3);
    assert_eq!(count(Kind::Stored), 24 * 24);
    assert_eq!(count(Kind::Unlike), 16 * 16 + 3 * 3);
}
