//! The settled examples of request (h) of document 02, H1 to H8: two files, and what
//! their pool is. The table of `settled` has none of them.
//!
//! The results are written down and not worked out, in the form of that table.

use crate::generate::chains::with_next;
use crate::generate::draft::{Draft, LOOKED_UP, PASSED_OVER, SQUARE};
use crate::settled::p1;

pub struct Pool {
    pub name: &'static str,
    pub older: Vec<u8>,
    pub newer: Vec<u8>,
    /// So many places, which hold 9s, has the output.
    pub places: usize,
    /// The length or the refusal with its number and its record, 0 where it carries
    /// none; then the output.
    pub result: &'static str,
}

fn pool(
    name: &'static str,
    older: &[u8],
    newer: &[u8],
    places: usize,
    result: &'static str,
) -> Pool {
    Pool {
        name,
        older: older.to_vec(),
        newer: newer.to_vec(),
        places,
        result,
    }
}

/// The newer file of H1: the word 1 has changed its label, and 2 is new.
fn h1() -> Draft {
    Draft {
        units: 20,
        ceiling: 50,
        tolerance: 3,
        budget: 7,
        items: vec![(PASSED_OVER, vec![1]), (LOOKED_UP, vec![2])],
        ..p1()
    }
}

/// P1's item − −1, then both items of the newer file, with its parameters.
const H1: &str = "length 92, output \
    3 0 1 0 1 0 0 0 20 0 0 0 50 0 0 0 3 0 0 0 0 0 0 0 7 0 0 0 0 0 0 0 \
    2 0 2 0 255 0 0 0 0 0 0 0 0 0 0 0 0 0 0 0 \
    3 0 2 0 1 0 0 0 0 0 0 0 0 0 0 0 0 0 0 0 \
    0 0 1 0 2 0 0 0 0 0 0 0 0 0 0 0 0 0 0 0 \
    9";

/// 91 places, one fewer than there are bytes in the file.
const H6: &str = "refused 10 0, output \
    9 9 9 9 9 9 9 9 9 9 9 9 9 9 9 9 9 9 9 9 9 9 9 9 9 9 9 9 9 9 9 9 \
    9 9 9 9 9 9 9 9 9 9 9 9 9 9 9 9 9 9 9 9 \
    9 9 9 9 9 9 9 9 9 9 9 9 9 9 9 9 9 9 9 9 \
    9 9 9 9 9 9 9 9 9 9 9 9 9 9 9 9 9 9 9";

/// The newer file of H1, byte for byte.
const H8: &str = "length 72, output \
    2 0 1 0 1 0 0 0 20 0 0 0 50 0 0 0 3 0 0 0 0 0 0 0 7 0 0 0 0 0 0 0 \
    2 0 2 0 1 0 0 0 0 0 0 0 0 0 0 0 0 0 0 0 \
    0 0 1 0 2 0 0 0 0 0 0 0 0 0 0 0 0 0 0 0 \
    9";

/// Request (h). H2 to H7 have a refusal each, and in all of them the output is too
/// short. In H2 and H3 the files differ in d and in the kernel; in H4 the chain of H3's
/// newer file leads back, too. What H5 has left, − 2 and − 1, is all passed over. In H7
/// the older file's chain leads back, and the newer file is cut to 31 bytes.
#[rustfmt::skip]
pub fn table() -> Vec<Pool> {
    let (p1, h1) = (&p1().plain(), &h1());
    let newer = &h1.plain();
    let h2 = &Draft { features: 2, ..h1.clone() }.plain();
    let h3 = &Draft { kernel: SQUARE, ..h1.clone() }.plain();
    let plus_minus = |plus, minus| Draft {
        items: vec![(LOOKED_UP, vec![plus]), (PASSED_OVER, vec![minus])],
        ..h1.clone()
    }.plain();
    vec![
        pool("H1", p1, newer, 93, H1),
        pool("H2", p1, h2, 3, "refused 14 0, output 9 9 9"),
        pool("H3", p1, h3, 3, "refused 14 0, output 9 9 9"),
        pool("H4", p1, &with_next(h3, 2, 1), 3, "refused 16 2, output 9 9 9"),
        pool("H5", &plus_minus(1, 2), &plus_minus(1, 1), 3, "refused 5 0, output 9 9 9"),
        pool("H6", p1, newer, 91, H6),
        pool("H7", &with_next(p1, 1, 1), &h2[..31], 3, "refused 16 1, output 9 9 9"),
        pool("H8", newer, newer, 73, H8),
    ]
}
