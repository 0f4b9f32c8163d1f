//! Writing a training file: document 02, request (b).
//!
//! Each refusal has a pass of its own, so that the order of the tests can be seen
//! by reading `write` from top to bottom. Nothing is put into the output before
//! all of them are passed.

pub use crate::file::Numbers;
use crate::file::{
    are_features, judge_labels, judge_numbers, record_start, Label, HEADER_BYTES, MOST_RECORDS,
    RECORD_BYTES, STORED_FEATURES,
};
use crate::refusal::Refusal;

/// An item as a caller has it in memory: sixteen features, then the label's number.
pub type Row = [i8; STORED_FEATURES + 1];

/// Where the label's number is.
pub const LABEL: usize = STORED_FEATURES;

/// The file's length. "Checks are those of the reader in the order 2, 1 (over 256
/// items), 4, 5", and 10, "output shorter than the file, tested last".
pub fn write(numbers: &Numbers, rows: &[Row], output: &mut [u8]) -> Result<usize, Refusal> {
    judge_numbers(numbers)?;
    judge_row_count(rows)?;
    judge_rows(rows, numbers.used)?;
    judge_both_labels(rows)?;
    judge_output(rows, output.len())?;
    let file = laid_out(numbers, rows);
    output[..file.len()].copy_from_slice(&file);
    Ok(file.len())
}

/// Refusal 1: over 256 items.
pub fn judge_row_count(rows: &[Row]) -> Result<(), u8> {
    if rows.len() > MOST_RECORDS {
        return Err(1);
    }
    Ok(())
}

/// Refusal 4: an item with a wrong label, a feature outside its range, or a feature
/// past d not 0.
pub fn judge_rows(rows: &[Row], features: usize) -> Result<(), u8> {
    let sound = |row: &Row| label(row).is_some() && are_features(&row[..LABEL], features);
    if !rows.iter().all(sound) {
        return Err(4);
    }
    Ok(())
}

/// Refusal 5: one label, or both, has no item.
pub fn judge_both_labels(rows: &[Row]) -> Result<(), u8> {
    let labels: Vec<Label> = rows.iter().filter_map(label).collect();
    judge_labels(&labels)
}

/// Refusal 10: an output shorter than the file.
pub fn judge_output(rows: &[Row], places: usize) -> Result<(), u8> {
    if places < file_length(rows.len()) {
        return Err(10);
    }
    Ok(())
}

fn label(row: &Row) -> Option<Label> {
    Label::numbered(row[LABEL].into())
}

/// "The file's length is 32 + 20 × m."
pub fn file_length(records: usize) -> usize {
    HEADER_BYTES + RECORD_BYTES * records
}

/// "Items are stored as records 1 to n, chained in that order, with no spares."
fn laid_out(numbers: &Numbers, rows: &[Row]) -> Vec<u8> {
    let n = rows.len();
    let mut file = header(numbers, n, 1).to_vec();
    for (place, row) in (1..).zip(rows) {
        let next = if place == n { 0 } else { place + 1 };
        file.extend(record(row, next));
    }
    file
}

/// The bytes of a header, with m and the first record.
pub fn header(numbers: &Numbers, records: usize, first: usize) -> [u8; HEADER_BYTES] {
    let mut header = [0; HEADER_BYTES];
    header[0..2].copy_from_slice(&(records as u16).to_le_bytes());
    header[2..4].copy_from_slice(&(first as u16).to_le_bytes());
    header[4] = numbers.used as u8;
    header[5] = numbers.kernel;
    header[8..12].copy_from_slice(&numbers.grid.to_le_bytes());
    header[12..16].copy_from_slice(&numbers.ceiling.to_le_bytes());
    header[16..24].copy_from_slice(&numbers.tolerance.to_le_bytes());
    header[24..28].copy_from_slice(&numbers.budget.to_le_bytes());
    header[28..32].copy_from_slice(&numbers.second_ceiling.to_le_bytes());
    header
}

/// The bytes of a record: the next number, the label, a 0 and the features.
pub fn record(row: &Row, next: usize) -> [u8; RECORD_BYTES] {
    let mut record = [0; RECORD_BYTES];
    record[0..2].copy_from_slice(&(next as u16).to_le_bytes());
    record[2] = row[LABEL] as u8;
    for (byte, &feature) in record[4..].iter_mut().zip(&row[..LABEL]) {
        *byte = feature as u8;
    }
    record
}

/// The items of records, by their numbers, as a caller hands them over.
pub fn rows(file: &[u8], order: &[u16]) -> Vec<Row> {
    let row = |&number: &u16| {
        let start = record_start(number.into());
        let mut row = [0; LABEL + 1];
        row[LABEL] = file[start + 2] as i8;
        for (feature, &byte) in row[..LABEL].iter_mut().zip(&file[start + 4..]) {
            *feature = byte as i8;
        }
        row
    };
    order.iter().map(row).collect()
}
