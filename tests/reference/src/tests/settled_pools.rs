//! The settled examples of pooling: that the reference gives the results written
//! down.

use crate::pool::pool;
use crate::settled_pools::table;
use crate::Refusal;

/// The result of a pool as the reference works it out.
fn worked_out(older: &[u8], newer: &[u8], places: usize) -> String {
    let mut output = vec![9; places];
    let answer = match pool(older, newer, &mut output) {
        Ok(length) => format!("length {length}"),
        Err(Refusal { number, record }) => format!("refused {number} {}", record.unwrap_or(0)),
    };
    answer + ", output" + &places_of(&output)
}

fn places_of(bytes: &[u8]) -> String {
    bytes.iter().map(|byte| format!(" {byte}")).collect()
}

#[test]
fn every_pool_is_as_settled() {
    for case in table() {
        let result = worked_out(&case.older, &case.newer, case.places);
        assert_eq!(result, case.result, "{}", case.name);
    }
}

#[test]
fn the_table_has_h1_to_h8() {
    let names: Vec<&str> = table().iter().map(|case| case.name).collect();
    assert_eq!(names, ["H1", "H2", "H3", "H4", "H5", "H6", "H7", "H8"]);
}

/// What H8 gives is the newer file itself.
#[test]
fn a_pool_with_itself_comes_out_byte_for_byte() {
    let cases = table();
    let case = cases.iter().find(|case| case.name == "H8");
    let case = case.expect("H8");
    assert_eq!(case.older, case.newer);
    let bytes = places_of(&case.newer);
    let whole = format!("length {}, output{bytes} 9", case.newer.len());
    assert_eq!(case.result, whole);
}
