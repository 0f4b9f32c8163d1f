//! Document 02, request (b): files written by us.

use crate::cases::WriteCall;
use crate::examples::by_turns;
use crate::file::{read, MOST_RECORDS};
use crate::generate::chains::is_as_written;
use crate::generate::draft::Draft;
use crate::generate::writing::handed_in;
use crate::generate::{any_file, Random};
use crate::settled::{f2, p1};
use crate::write::{file_length, rows, write, Numbers, Row, LABEL};
use crate::{contents, Refusal};

/// Writes into an output just as long as the file.
fn written(numbers: &Numbers, rows: &[Row]) -> Result<Vec<u8>, Refusal> {
    let mut output = vec![9; file_length(rows.len())];
    let length = write(numbers, rows, &mut output)?;
    assert_eq!(length, output.len());
    Ok(output)
}

/// The parameters and the items of a file, with the numbers of their records.
fn parts(file: &[u8]) -> (Numbers, Vec<Row>, Vec<u16>) {
    let mut order = vec![0; MOST_RECORDS];
    let read = contents(file, &mut order).expect("accepted");
    order.truncate(read.items);
    (read.parameters, rows(file, &order), order)
}

/// By document 01's table, byte for byte.
#[test]
fn a_file_by_hand() {
    let numbers = Numbers {
        used: 2,
        kernel: 1,
        grid: 0x0004_0302,
        ceiling: 0x0506,
        second_ceiling: 0x0908,
        tolerance: 0x0000_000E_0D0C_0B0A,
        budget: 0x000F_0201,
    };
    let mut items = [[0; LABEL + 1]; 2];
    items[0][..2].copy_from_slice(&[5, -127]);
    items[0][LABEL] = 2;
    items[1][..2].copy_from_slice(&[127, -1]);
    items[1][LABEL] = 1;
    let mut expected = vec![2, 0, 1, 0, 2, 1, 0, 0, 2, 3, 4, 0, 6, 5, 0, 0];
    expected.extend([
        0x0A, 0x0B, 0x0C, 0x0D, 0x0E, 0, 0, 0, 1, 2, 0x0F, 0, 8, 9, 0, 0,
    ]);
    expected.extend([2, 0, 2, 0, 5, 129]);
    expected.extend([0; 14]);
    expected.extend([0, 0, 1, 0, 127, 255]);
    expected.extend([0; 14]);
    assert_eq!(written(&numbers, &items), Ok(expected));
}

/// "Reading such a file yields the same items and parameters."
#[test]
fn what_is_written_reads_back() {
    let mut accepted = 0;
    for number in 0..1_000 {
        let handed = handed_in(&mut Random::numbered(1, number));
        if let Ok(file) = written(&handed.numbers, &handed.rows) {
            let order = (1..=handed.rows.len() as u16).collect();
            assert_eq!(parts(&file), (handed.numbers, handed.rows, order));
            accepted += 1;
        }
    }
    assert!(accepted > 200);
}

/// "an accepted file with this layout comes out byte for byte", and one with another
/// layout reads the same.
#[test]
fn an_accepted_file_is_written_anew() {
    let (mut ours, mut others) = (0, 0);
    for number in 0..1_000 {
        let file = any_file(&mut Random::numbered(1, number));
        if read(&file).is_err() {
            continue;
        }
        let (numbers, items, order) = parts(&file);
        let anew = written(&numbers, &items).expect("written");
        if is_as_written(&file) {
            assert_eq!(anew, file);
            ours += 1;
        } else {
            assert_eq!(
                parts(&anew),
                (numbers, items, (1..=order.len() as u16).collect())
            );
            others += 1;
        }
    }
    assert!(ours > 100 && others > 100);
}

/// "each tested at the place named": the answer is the first in the order 2, 1, 4, 5,
/// 10 of the refusals that have a cause. On a refusal nothing lent changes; otherwise
/// the bytes past the file stay.
#[test]
fn the_first_refusal_of_those_with_a_cause() {
    for number in 0..2_000 {
        let random = &mut Random::numbered(2, number);
        let handed = handed_in(random);
        let before = random.bytes(handed.places);
        let mut output = before.clone();
        let answer = write(&handed.numbers, &handed.rows, &mut output);
        let call = WriteCall::of(handed);
        match call.at_fault.first() {
            Some(&number) => {
                assert_eq!(answer, Err(number.into()));
                assert_eq!(output, before);
            }
            None => {
                let length = file_length(call.handed.rows.len());
                assert_eq!(answer, Ok(length));
                assert_eq!(output[length..], before[length..]);
            }
        }
    }
}

/// The refusal of a call with the faults named, and the rows that it takes.
fn refused(faults: &[u8]) -> Option<u8> {
    let mut draft = Draft {
        items: by_turns(if faults.contains(&1) { 257 } else { 4 }, |k| k as i8),
        ..p1()
    };
    if faults.contains(&2) {
        draft.kernel = 3;
    }
    if faults.contains(&5) {
        draft.items.iter_mut().for_each(|item| item.0 = 1);
    }
    if faults.contains(&4) {
        draft.items[2].1 = vec![-128];
    }
    let mut output = vec![9; file_length(draft.items.len())];
    let short = usize::from(faults.contains(&10));
    let answer = write(&draft.numbers(), &draft.rows(), &mut output[short..]);
    answer.err().map(|refusal| refusal.number)
}

/// Every choice of faults: the one that is tested first is answered.
#[test]
fn refusals_of_writing_come_in_order() {
    let order = [2, 1, 4, 5, 10];
    for choice in 0..1 << order.len() {
        let chosen = (0..order.len()).filter(|k| choice >> k & 1 == 1);
        let faults: Vec<u8> = chosen.map(|k| order[k]).collect();
        assert_eq!(refused(&faults), faults.first().copied(), "{faults:?}");
    }
}

#[test]
fn items_0_1_256_and_257() {
    let answer = |items: usize| {
        let items = by_turns(items, |k| (k % 100) as i8);
        let draft = Draft { items, ..p1() };
        let file = written(&draft.numbers(), &draft.rows());
        file.map(|file| assert_eq!(file, draft.plain()))
    };
    assert_eq!([answer(0), answer(1)], [Err(5.into()), Err(5.into())]);
    assert_eq!([answer(2), answer(256)], [Ok(()), Ok(())]);
    assert_eq!(answer(257), Err(1.into()));
}

/// "The writer and the import carry the field as given, a 0 staying 0".
#[test]
fn the_second_ceiling_is_carried_as_given() {
    for draft in [p1(), f2()] {
        let file = written(&draft.numbers(), &draft.rows()).expect("written");
        assert_eq!(file, draft.plain());
    }
}

/// d in bytes past the lowest is judged, too.
#[test]
fn every_d_but_1_to_16_is_refused() {
    for used in [
        0,
        17,
        255,
        256,
        257,
        (1 << 16) + 1,
        (1 << 32) + 1,
        usize::MAX,
    ] {
        let numbers = Numbers {
            used,
            ..p1().numbers()
        };
        assert_eq!(written(&numbers, &p1().rows()), Err(2.into()));
    }
}
