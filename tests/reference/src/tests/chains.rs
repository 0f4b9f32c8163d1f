//! Document 02, request (k): chains that break, and the record that both faults
//! carry.

use crate::examples::{by_turns, full_chain, three_records};
use crate::file::{read, MOST_RECORDS};
use crate::generate::chains::{
    chain, next_of, records, with_first, with_header_faults, with_label, with_next,
};
use crate::generate::draft::{Draft, LOOKED_UP};
use crate::generate::every_chain;
use crate::settled::p1;
use crate::{certify, classify, contents, listing, train, Refusal};

/// As many records as there are next numbers, with labels by turns.
fn chained(first: usize, next: &[usize]) -> Vec<u8> {
    let items = by_turns(next.len(), |k| k as i8);
    let file = with_first(&Draft { items, ..p1() }.plain(), first);
    let numbered = (1..).zip(next);
    numbered.fold(file, |file, (record, &next)| with_next(&file, record, next))
}

fn order(file: &[u8]) -> Result<Vec<usize>, Refusal> {
    let problem = read(file)?;
    Ok(problem.items.iter().map(|item| item.record).collect())
}

fn assert_breaks(file: &[u8], number: u8, record: usize) {
    let refusal = read(file).err();
    assert_eq!(refusal, Some(Refusal::with_record(number, record)));
}

#[test]
fn a_next_number_over_m() {
    for over in [4, 5, 255, 256, 257, 32_768, 65_535] {
        assert_breaks(&chained(2, &[over, 1, 0]), 3, 1);
        assert_breaks(&chained(2, &[3, over, 0]), 3, 2);
        assert_breaks(&chained(2, &[3, 1, over]), 3, 3);
    }
}

#[test]
fn a_next_number_of_exactly_m() {
    assert_eq!(order(&chained(1, &[3, 0, 2])), Ok(vec![1, 3, 2]));
    assert_eq!(
        order(&with_next(&full_chain(), 1, MOST_RECORDS)),
        Ok(vec![1, 256])
    );
    assert_breaks(&chained(3, &[0, 0, 3]), 16, 3);
}

#[test]
fn a_record_that_is_its_own_next() {
    assert_breaks(&chained(1, &[1, 0, 0]), 16, 1);
    assert_breaks(&chained(1, &[2, 2, 0]), 16, 2);
    assert_breaks(&chained(1, &[2, 3, 3]), 16, 3);
}

#[test]
fn a_chain_that_leads_back() {
    assert_breaks(&chained(1, &[2, 1]), 16, 2);
    assert_breaks(&chained(1, &[2, 3, 1]), 16, 3);
    assert_breaks(&chained(3, &[3, 0, 1]), 16, 1);
    // A tail into a cycle: the record at fault is in the cycle, the last met.
    assert_breaks(&chained(1, &[2, 3, 2]), 16, 3);
    assert_breaks(&chained(2, &[3, 1, 1]), 16, 3);
    assert_breaks(&chained(4, &[3, 1, 2, 3, 0]), 16, 1);
}

#[test]
fn the_last_of_256_records() {
    for met in [1, 128, 255, 256] {
        assert_breaks(&with_next(&full_chain(), 256, met), 16, 256);
    }
    for over in [257, 65_535] {
        assert_breaks(&with_next(&full_chain(), 256, over), 3, 256);
    }
    assert_breaks(&with_next(&full_chain(), 255, 255), 16, 255);
    assert_eq!(order(&full_chain()), Ok((1..=256).collect()));
}

/// "both are tested before 4", which comes before 5, and after 2.
#[test]
fn a_chain_fault_among_other_faults() {
    for (number, last_next) in [(3, 4), (16, 1), (16, 3)] {
        let broken = chained(1, &[2, 3, last_next]);
        for record in 1..=3 {
            assert_breaks(&with_label(&broken, record, 0), number, 3);
        }
        let one_label = with_label(&broken, 2, LOOKED_UP);
        assert_breaks(&one_label, number, 3);
        for faulty in with_header_faults(&broken) {
            assert_eq!(read(&faulty).err(), Some(2.into()));
        }
    }
}

/// "the first on the walk", wherever it is stored.
#[test]
fn the_first_of_two_faults() {
    assert_breaks(&chained(3, &[1, 4, 2]), 3, 2);
    assert_breaks(&chained(3, &[4, 2, 2]), 16, 2);
    assert_breaks(&chained(3, &[4, 5, 3]), 16, 3);
    assert_breaks(&chained(2, &[1, 3, 4]), 3, 3);
}

#[test]
fn numbers_in_spare_records_do_not_count() {
    for next in [1, 2, 3, 4, 65_535] {
        assert_eq!(order(&chained(1, &[2, 0, next])), Ok(vec![1, 2]));
        assert_breaks(&chained(1, &[2, 1, next]), 16, 2);
    }
    assert_eq!(order(&chained(1, &[2, 0, 4, 3])), Ok(vec![1, 2]));
    assert_eq!(order(&three_records()), Ok(vec![3, 1]));
}

#[test]
fn a_first_record_over_m_is_a_header_fault() {
    for next in [[0, 0], [1, 2], [3, 3]] {
        assert_eq!(read(&chained(3, &next)).err(), Some(2.into()));
    }
}

#[test]
fn the_record_is_printed_after_the_number() {
    let seven = |next| listing(&chained(7, &[0, 0, 0, 0, 0, 0, next]));
    assert_eq!(seven(8), "refused 3 7\n");
    assert_eq!(seven(7), "refused 16 7\n");
    let wrong = with_label(&chained(7, &[0; 7]), 7, 0);
    assert_eq!(listing(&wrong), "refused 4\n");
}

#[test]
fn every_call_carries_the_record() {
    for (number, next) in [(3, 3), (16, 1)] {
        let file = chained(1, &[2, next]);
        let refusal = Refusal::with_record(number, 2);
        assert_eq!(contents(&file, &mut []), Err(refusal));
        assert_eq!(train(&file, &mut [], &mut []), Err(refusal));
        assert_eq!(certify(&file, &[]), Err(refusal));
        assert_eq!(classify(&file, &[], &[]), Err(refusal));
    }
}

/// Whether the chain is whole and meets the same records once it ends at this one.
fn mended_at(file: &[u8], record: usize) -> bool {
    let ended = with_next(file, record, 0);
    let breaks = read(&ended).err().and_then(|refusal| refusal.record);
    breaks.is_none() && chain(&ended) == chain(file)
}

/// Of all records of a broken chain, ending it mends it at the one at fault alone.
#[test]
fn every_small_chain_breaks_at_the_record_named() {
    let mut broken = 0;
    for file in [1, 2, 3].into_iter().flat_map(every_chain) {
        let refusal = match read(&file) {
            Err(refusal) if refusal.record.is_some() => refusal,
            _ => continue,
        };
        let mut at_fault = chain(&file);
        at_fault.retain(|&record| mended_at(&file, record));
        assert_eq!(at_fault.len(), 1);
        let over = next_of(&file, at_fault[0]) > records(&file);
        let number = if over { 3 } else { 16 };
        assert_eq!(refusal, Refusal::with_record(number, at_fault[0]));
        broken += 1;
    }
    assert_eq!(broken, 288);
}
