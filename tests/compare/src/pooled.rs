//! Pooling: the files that are pooled in each comparison, those that are drawn, and the
//! file at hand with another one. What a pool gives is read back, and pooled again.

use crate::answer::ACCEPTED;
use crate::calls::agreed;
use crate::expected;
use crate::library::{self, WriteAnswer};
use crate::report::{Difference, Tally};
use crate::written::{parts, Parts};
use reference::cases::Drawn;
use reference::file::{numbers, read};
use reference::generate::first_pools::Kind;
use reference::generate::pooling::{beside, handed_in, Pooling};
use reference::generate::Random;
use reference::pool::{left, one_after_the_other, row};

/// Pairs of files drawn for each file.
const DRAWN: usize = 3;

/// Pools these files and some that are drawn, and the file at hand with another one.
pub fn compare_pooling(
    file: &[u8],
    drawn: &mut Drawn,
    pairs: &[(Kind, Pooling)],
    random: &mut Random,
    tally: &mut Tally,
) -> Result<(), Box<Difference>> {
    for (kind, handed) in pairs {
        compare_pool(file, handed, random, tally)?;
        drawn.pairs.push(*kind);
    }
    for _ in 0..DRAWN {
        let handed = handed_in(random);
        compare_pool(file, &handed, random, tally)?;
        drawn.pool(handed);
    }
    let handed = beside(file, random);
    compare_pool(file, &handed, random, tally)?;
    drawn.pool(handed);
    Ok(())
}

/// Pools, reads what comes out, and pools it again.
fn compare_pool(
    file: &[u8],
    handed: &Pooling,
    random: &mut Random,
    tally: &mut Tally,
) -> Result<(), Box<Difference>> {
    match compare_once(file, handed, random, tally)? {
        None => Ok(()),
        Some(pool) => {
            compare_read_back(&pool, handed, random, tally)?;
            compare_again(&pool, handed, random, tally)
        }
    }
}

/// Pools. Gives the file where there is one.
fn compare_once(
    file: &[u8],
    handed: &Pooling,
    random: &mut Random,
    tally: &mut Tally,
) -> Result<Option<Vec<u8>>, Box<Difference>> {
    let before = WriteAnswer::lent(handed.places, random);
    let expected = expected::pool(handed, &before);
    let answered = library::pool(handed, &before, random);
    let kernel = handed.newer.get(5).copied().unwrap_or(0);
    tally.count("pool", expected.returned.number, kernel);
    let answer = agreed("pool", file, format_args!("{handed:?}"), expected, answered)?;
    let accepted = answer.returned == ACCEPTED;
    Ok(accepted.then(|| answer.output[..answer.length].to_vec()))
}

/// What is read of a pool: "Parameters are the newer file's", and the items that are
/// left, in records 1 to n.
fn compare_read_back(
    pool: &[u8],
    handed: &Pooling,
    random: &mut Random,
    tally: &mut Tally,
) -> Result<(), Box<Difference>> {
    let items = |file: &[u8]| read(file).expect("an accepted file").items;
    let both = one_after_the_other(&items(&handed.older), &items(&handed.newer));
    let left = left(&both);
    let order = (1..=left.len() as u16).collect();
    let rows = left.iter().map(row).collect();
    let expected: Parts = (numbers(&handed.newer), order, rows);
    let read = parts(pool, random, tally)?;
    agreed(
        "reading what was pooled",
        pool,
        format_args!("{handed:?}"),
        expected,
        read,
    )
    .map(drop)
}

/// A pool with itself, with the newer file behind it, or with the older one ahead of it
/// comes out byte for byte: it has every word already, with the last label.
fn compare_again(
    pool: &[u8],
    handed: &Pooling,
    random: &mut Random,
    tally: &mut Tally,
) -> Result<(), Box<Difference>> {
    let places = pool.len() + random.pick(&[0, 1, 300]);
    let one_memory = random.chance(1, 2);
    for (older, newer) in [(pool, pool), (pool, &handed.newer), (&handed.older, pool)] {
        let again = Pooling {
            older: older.to_vec(),
            newer: newer.to_vec(),
            one_memory: one_memory && older == newer,
            places,
        };
        let answered = compare_once(pool, &again, random, tally)?;
        agreed(
            "pooling a pool again",
            pool,
            format_args!("{again:?}"),
            Some(pool.to_vec()),
            answered,
        )?;
    }
    Ok(())
}
