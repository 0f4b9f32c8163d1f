//! Writing: the call itself, that what is written reads back, and accepted files
//! written anew.

use crate::answer::{numbers, ACCEPTED};
use crate::calls::{agreed, compare_read};
use crate::expected;
use crate::library::{self, WriteAnswer};
use crate::report::{Difference, Tally};
use reference::file::MOST_RECORDS;
use reference::generate::chains::is_as_written;
use reference::generate::writing::Writing;
use reference::generate::Random;
use reference::write::{file_length, rows, Numbers, Row};

/// What reading gives: parameters, the numbers of the records, and the items.
pub type Parts = (Numbers, Vec<u16>, Vec<Row>);

/// Writes an accepted file anew, from what the library reads in it: "an accepted file
/// with this layout comes out byte for byte".
pub fn compare_anew(
    file: &[u8],
    random: &mut Random,
    tally: &mut Tally,
) -> Result<(), Box<Difference>> {
    let (numbers, _, rows) = parts(file, random, tally)?;
    let places = file_length(rows.len()) + random.pick(&[0, 1, 300]);
    let handed = Writing {
        numbers,
        rows,
        places,
    };
    let written = compare_write(file, &handed, random, tally)?;
    if !is_as_written(file) {
        return Ok(());
    }
    let expected = Some(file.to_vec());
    agreed(
        "writing anew",
        file,
        format_args!("{handed:?}"),
        expected,
        written,
    )
    .map(drop)
}

/// Writes, and reads what is written. Gives the file where there is one.
pub fn compare_write(
    file: &[u8],
    handed: &Writing,
    random: &mut Random,
    tally: &mut Tally,
) -> Result<Option<Vec<u8>>, Box<Difference>> {
    let before = WriteAnswer::lent(handed.places, random);
    let expected = expected::write(handed, &before);
    let answered = library::write(handed, &before, random);
    tally.count("write", expected.returned.number, handed.numbers.kernel);
    let answer = agreed(
        "write",
        file,
        format_args!("{handed:?}"),
        expected,
        answered,
    )?;
    if answer.returned != ACCEPTED {
        return Ok(None);
    }
    let written = answer.output[..answer.length].to_vec();
    compare_read_back(&written, handed, random, tally)?;
    Ok(Some(written))
}

/// "Reading such a file yields the same items and parameters", in records 1 to n.
fn compare_read_back(
    written: &[u8],
    handed: &Writing,
    random: &mut Random,
    tally: &mut Tally,
) -> Result<(), Box<Difference>> {
    let order = (1..=handed.rows.len() as u16).collect();
    let expected = (handed.numbers, order, handed.rows.clone());
    let read = parts(written, random, tally)?;
    agreed(
        "reading what was written",
        written,
        format_args!("{handed:?}"),
        expected,
        read,
    )
    .map(drop)
}

/// What the library reads in an accepted file.
pub fn parts(
    file: &[u8],
    random: &mut Random,
    tally: &mut Tally,
) -> Result<Parts, Box<Difference>> {
    let read = compare_read(file, MOST_RECORDS, random, tally)?;
    let order = read.order[..read.returned.items].to_vec();
    let rows = rows(file, &order);
    Ok((numbers(&read.returned.parameters), order, rows))
}
