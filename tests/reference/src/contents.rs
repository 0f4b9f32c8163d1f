//! Reading alone: what a caller can know of a file ahead of a training.

use crate::file::{numbers, read, Numbers};
use crate::refusal::Refusal;

/// n and the parameters of an accepted file.
#[derive(Clone, Copy, PartialEq, Eq, Debug)]
pub struct Contents {
    /// n, the chained records.
    pub items: usize,
    pub parameters: Numbers,
}

/// Reads the file. The first n places of the lent table hold the numbers of the
/// chained records in chain order, as far as it has places; on a refusal nothing
/// lent changes.
pub fn contents(file: &[u8], order: &mut [u16]) -> Result<Contents, Refusal> {
    let problem = read(file)?;
    for (place, item) in order.iter_mut().zip(&problem.items) {
        *place = item.record.try_into().expect("m is at most 256");
    }
    Ok(Contents {
        items: problem.items.len(),
        parameters: numbers(file),
    })
}
