//! The calls made for one file, each answered by the library and the reference.

use crate::answer::{ACCEPTED, NOTHING_READ};
use crate::expected;
use crate::imported::compare_importing;
use crate::library::{self, CertifyAnswer, ClassifyAnswer, ReadAnswer, TrainAnswer};
use crate::pooled::compare_pooling;
use crate::report::{Difference, Tally};
use crate::written::{compare_anew, compare_write};
use reference::cases::Drawn;
use reference::file::{Problem, MOST_RECORDS};
use reference::generate::importing::Importing;
use reference::generate::pooling::Pooling;
use reference::generate::{first_pools, first_texts, multipliers, words, writing, Random};
use std::fmt::{Arguments, Debug};

/// All calls for one file, with the texts that are imported and the files that are
/// pooled beside it; the first difference ends them. Reading comes after the calls that
/// were there before it, then writing, importing, and pooling after all: so their draws
/// change none of those of the others, and a difference noted with its seed and file
/// number is met there again.
pub fn compare(
    file: &[u8],
    texts: &[(first_texts::Kind, Importing)],
    pairs: &[(first_pools::Kind, Pooling)],
    random: &mut Random,
    tally: &mut Tally,
) -> Result<(), Box<Difference>> {
    let mut drawn = Drawn::of(file.to_vec());
    let trained = compare_train(file, drawn.problem(), random, tally)?;
    for _ in 0..2 {
        let multipliers = multipliers::handed_in(drawn.problem(), &trained, random);
        compare_certify(file, &multipliers, random, tally)?;
        drawn.certify(multipliers);
    }
    for _ in 0..3 {
        let multipliers = multipliers::handed_in(drawn.problem(), &trained, random);
        let word = words::handed_in(drawn.problem(), &multipliers, random);
        compare_classify(file, &multipliers, &word, random, tally)?;
        drawn.classify(multipliers, word);
    }
    let places = table_length(items(drawn.problem(), random), random);
    compare_read(file, places, random, tally)?;
    compare_writing(file, &mut drawn, random, tally)?;
    compare_importing(file, &mut drawn, texts, random, tally)?;
    compare_pooling(file, &mut drawn, pairs, random, tally)?;
    tally.cases.count(&drawn);
    Ok(())
}

/// Writes what is drawn, and an accepted file anew.
fn compare_writing(
    file: &[u8],
    drawn: &mut Drawn,
    random: &mut Random,
    tally: &mut Tally,
) -> Result<(), Box<Difference>> {
    let handed = writing::handed_in(random);
    compare_write(file, &handed, random, tally)?;
    drawn.write(handed);
    match drawn.problem() {
        Some(_) => compare_anew(file, random, tally),
        None => Ok(()),
    }
}

/// The answer that both gave, or the difference.
pub fn agreed<A: PartialEq + Debug>(
    call: &str,
    file: &[u8],
    handed: Arguments,
    expected: A,
    answered: A,
) -> Result<A, Box<Difference>> {
    if expected == answered {
        return Ok(expected);
    }
    Err(Difference::boxed(call, file, handed, &expected, &answered))
}

/// n, or a small number for a file that is refused.
fn items(problem: Option<&Problem>, random: &mut Random) -> usize {
    problem.map_or(random.below(5) as usize, |problem| problem.items.len())
}

/// Reads with a table of so many places.
pub fn compare_read(
    file: &[u8],
    places: usize,
    random: &mut Random,
    tally: &mut Tally,
) -> Result<ReadAnswer, Box<Difference>> {
    let before = ReadAnswer {
        returned: NOTHING_READ,
        order: (0..places).map(|_| random.draw() as u16).collect(),
        surroundings_kept: true,
    };
    let expected = expected::read(file, &before);
    let answered = library::read(file, &before, random);
    let returned = expected.returned;
    tally.count("read", returned.answer.number, returned.parameters.kernel);
    agreed(
        "read",
        file,
        format_args!("order {:?}", before.order),
        expected,
        answered,
    )
}

/// Lengths around n and at the ends, and any between.
fn table_length(n: usize, random: &mut Random) -> usize {
    let any = random.below(MOST_RECORDS as u64) as usize;
    random.pick(&[0, n.saturating_sub(1), n, n + 1, MOST_RECORDS, 300, any])
}

/// Trains into lists that are long enough, and on some files into a list that
/// is too short. Gives the multipliers that training leaves.
fn compare_train(
    file: &[u8],
    problem: Option<&Problem>,
    random: &mut Random,
    tally: &mut Tally,
) -> Result<Vec<u32>, Box<Difference>> {
    let n = items(problem, random);
    if random.chance(1, 5) {
        let (multipliers, gradient) = too_short(n, random);
        compare_one_training(file, multipliers, gradient, random, tally)?;
    }
    let longer = |random: &mut Random| n + random.pick(&[0, 1, 3, 300]);
    let (multipliers, gradient) = (longer(random), longer(random));
    let mut left = compare_one_training(file, multipliers, gradient, random, tally)?;
    left.truncate(n);
    Ok(left)
}

/// Lengths of which one or both are under n.
fn too_short(n: usize, random: &mut Random) -> (usize, usize) {
    let under = n.saturating_sub(random.pick(&[1, 1, 2, 256]));
    match random.below(3) {
        0 => (under, n),
        1 => (n + 1, under),
        _ => (under, under),
    }
}

fn compare_one_training(
    file: &[u8],
    multipliers: usize,
    gradient: usize,
    random: &mut Random,
    tally: &mut Tally,
) -> Result<Vec<u32>, Box<Difference>> {
    let before = TrainAnswer {
        returned: ACCEPTED,
        ending: random.draw() as u8,
        steps: random.draw() as u32,
        lower: random.draw() as i64,
        upper: random.draw() as i64,
        multipliers: (0..multipliers).map(|_| random.draw() as u32).collect(),
        gradient: (0..gradient).map(|_| random.draw() as i64).collect(),
        surroundings_kept: true,
    };
    let expected = expected::train(file, &before);
    let answered = library::train(file, &before, random);
    tally.count("train", expected.returned.number, expected.ending);
    agreed(
        "train",
        file,
        format_args!("multipliers {:?}", before.multipliers),
        expected,
        answered,
    )
    .map(|answer| answer.multipliers)
}

fn compare_certify(
    file: &[u8],
    multipliers: &[u32],
    random: &mut Random,
    tally: &mut Tally,
) -> Result<(), Box<Difference>> {
    let (lower, upper) = (random.draw() as i64, random.draw() as i64);
    let before = CertifyAnswer {
        returned: ACCEPTED,
        lower,
        upper,
        surroundings_kept: true,
    };
    let expected = expected::certify(file, multipliers, &before);
    let answered = library::certify(file, multipliers, &before, random);
    tally.count("certify", expected.returned.number, 0);
    agreed(
        "certify",
        file,
        format_args!("multipliers {multipliers:?}"),
        expected,
        answered,
    )
    .map(drop)
}

fn compare_classify(
    file: &[u8],
    multipliers: &[u32],
    word: &[i8],
    random: &mut Random,
    tally: &mut Tally,
) -> Result<(), Box<Difference>> {
    let before = ClassifyAnswer {
        returned: ACCEPTED,
        class: random.draw() as u8,
        surroundings_kept: true,
    };
    let expected = expected::classify(file, multipliers, word, &before);
    let answered = library::classify(file, multipliers, word, &before, random);
    tally.count("classify", expected.returned.number, expected.class);
    agreed(
        "classify",
        file,
        format_args!("multipliers {multipliers:?}, word {word:?}"),
        expected,
        answered,
    )
    .map(drop)
}
