//! Importing: the texts that are met in each comparison, those that are drawn, and
//! accepted files printed as texts.

use crate::answer::ACCEPTED;
use crate::calls::agreed;
use crate::expected;
use crate::library::{self, WriteAnswer};
use crate::report::{Difference, Tally};
use crate::written::parts;
use reference::cases::Drawn;
use reference::generate::first_texts::Kind;
use reference::generate::importing::{handed_in, Importing};
use reference::generate::texts::printed;
use reference::generate::Random;
use reference::write::{file_length, write};

/// Texts drawn for each file.
const DRAWN: usize = 3;

/// Imports these texts and some that are drawn, and an accepted file's items.
pub fn compare_importing(
    file: &[u8],
    drawn: &mut Drawn,
    texts: &[(Kind, Importing)],
    random: &mut Random,
    tally: &mut Tally,
) -> Result<(), Box<Difference>> {
    for (kind, handed) in texts {
        compare_import(file, handed, random, tally)?;
        drawn.texts.push(*kind);
    }
    for _ in 0..DRAWN {
        let handed = handed_in(random);
        compare_import(file, &handed, random, tally)?;
        drawn.import(handed);
    }
    match drawn.problem() {
        Some(_) => compare_printed(file, random, tally),
        None => Ok(()),
    }
}

/// Prints an accepted file's items as lines, with every 0 left out, with some and with
/// all, and imports them: what comes out is the file written of the same items.
fn compare_printed(
    file: &[u8],
    random: &mut Random,
    tally: &mut Tally,
) -> Result<(), Box<Difference>> {
    let (numbers, _, rows) = parts(file, random, tally)?;
    let mut written = vec![0; file_length(rows.len())];
    write(&numbers, &rows, &mut written).expect("an accepted file can be written");
    for zeros in [0, 1, 2] {
        let handed = Importing {
            numbers,
            text: printed(&rows, numbers.used, || random.chance(zeros, 2)),
            places: written.len() + random.pick(&[0, 1, 300]),
        };
        let imported = compare_import(file, &handed, random, tally)?;
        agreed(
            "importing what was printed",
            file,
            format_args!("{handed:?}"),
            Some(written.clone()),
            imported,
        )?;
    }
    Ok(())
}

/// Imports. Gives the file where there is one.
fn compare_import(
    file: &[u8],
    handed: &Importing,
    random: &mut Random,
    tally: &mut Tally,
) -> Result<Option<Vec<u8>>, Box<Difference>> {
    let before = WriteAnswer::lent(handed.places, random);
    let expected = expected::import(handed, &before);
    let answered = library::import(handed, &before, random);
    tally.count("import", expected.returned.number, handed.numbers.kernel);
    let answer = agreed(
        "import",
        file,
        format_args!("{handed:?}"),
        expected,
        answered,
    )?;
    let accepted = answer.returned == ACCEPTED;
    Ok(accepted.then(|| answer.output[..answer.length].to_vec()))
}
