//! Accepted training files, with weight on the ends of every range, on ties, on
//! copies of items (η = 0) and on budgets that run out just at the ending.

use super::draft::{Draft, LINEAR, LOOKED_UP, OVERLAP, PASSED_OVER, SQUARE};
use super::mirror::Mirror;
use super::random::Random;
use crate::file::{
    read, HIGHEST_BUDGET, HIGHEST_CEILING, HIGHEST_FEATURE, HIGHEST_TOLERANCE, LOWEST_FEATURE,
    MOST_RECORDS, MOST_UNITS, RECORD_BYTES,
};
use crate::kernel::{eta, table};
use crate::training::{run, Ending};

const LOWEST: i64 = LOWEST_FEATURE as i64;
const HIGHEST: i64 = HIGHEST_FEATURE as i64;

/// How much work a training may be, in multiply-adds of the reference or so;
/// budgets are cut to it, or a comparison would wait for single files.
const WORK: u64 = 1_500_000;
/// A few files may be longer.
const LONG_WORK: u64 = 15_000_000;

/// How many times the one ceiling the other is where they are far apart: "twenty
/// to one" is what the second ceiling is there for.
pub const FAR: i64 = 20;

/// An accepted file of any shape.
pub fn sound(random: &mut Random) -> Vec<u8> {
    if random.chance(1, 40) {
        return heavy(random);
    }
    let items = item_count(random);
    sound_with(random, items)
}

/// An accepted file in which G and scores come near the largest that the ranges
/// allow: the square kernel of sixteen features, one label at the end of the
/// feature range and the other at the middle or the same end, high ceilings.
fn heavy(random: &mut Random) -> Vec<u8> {
    let items = random.pick(&[8, 40, 128, MOST_RECORDS]);
    let far = random.pick(&[LOOKED_UP, PASSED_OVER]);
    let others_lowest = random.pick(&[-1, HIGHEST - 10]);
    let mut item = |k: usize| {
        let label = if k % 2 == 0 { LOOKED_UP } else { PASSED_OVER };
        let (lowest, highest) = if label == far {
            (HIGHEST - 3, HIGHEST)
        } else {
            (others_lowest, others_lowest + 2)
        };
        (
            label,
            (0..16)
                .map(|_| random.between(lowest, highest) as i8)
                .collect(),
        )
    };
    let items = (0..items).map(&mut item).collect();
    let draft = Draft {
        features: 16,
        kernel: SQUARE,
        units: random.spread(MOST_UNITS) as u32,
        ceiling: (HIGHEST_CEILING - random.below(3)) as u32,
        tolerance: 0,
        budget: random.pick(&[0, 1, 3]),
        second_ceiling: random.pick(&[0, HIGHEST_CEILING as u32, HIGHEST_CEILING as u32 - 1]),
        items,
    };
    laid_out(&draft, random)
}

/// An accepted file of so many items.
fn sound_with(random: &mut Random, items: usize) -> Vec<u8> {
    let kernel = any_kernel(random);
    sound_with_kernel(random, items, kernel)
}

/// An accepted file of so many items, with a kernel by its number.
pub fn sound_with_kernel(random: &mut Random, items: usize, kernel: u8) -> Vec<u8> {
    let draft = draft_with_kernel(random, items, kernel);
    let work = if random.chance(1, 60) {
        LONG_WORK
    } else {
        WORK
    };
    let file = tamed_to(laid_out(&draft, random), work);
    if random.chance(1, 5) {
        budget_at_the_edge(file, random)
    } else {
        file
    }
}

/// An accepted file whose items come in pairs: an item, and then its image in a
/// mirror with the other label.
pub fn mirrored(random: &mut Random) -> Vec<u8> {
    let items = item_count(random);
    let mut draft = draft(random, items - items % 2);
    let mirror = Mirror::draw(random, draft.features.into());
    for pair in draft.items.chunks_mut(2) {
        let (label, features) = &pair[0];
        let other = LOOKED_UP + PASSED_OVER - label;
        pair[1] = (other, mirror.image(features));
    }
    tamed(laid_out(&draft, random))
}

/// An accepted file of few items, shuffled among a few spare records.
pub fn small(random: &mut Random, items: usize) -> Vec<u8> {
    let kernel = any_kernel(random);
    small_with_kernel(random, items, kernel)
}

/// Such a file with a kernel by its number.
pub fn small_with_kernel(random: &mut Random, items: usize, kernel: u8) -> Vec<u8> {
    let mut draft = draft_with_kernel(random, items, kernel);
    draft.features = draft.features.min(8);
    draft
        .items
        .iter_mut()
        .for_each(|(_, features)| features.truncate(8));
    tamed(shuffled(&draft, random, items + 2))
}

/// A file of so many items among so many records: accepted, if there are two.
pub fn among(random: &mut Random, items: usize, records: usize) -> Vec<u8> {
    let mut draft = draft(random, items.max(2));
    draft.items.truncate(items);
    shuffled(&draft, random, records)
}

/// An accepted file so small that every feasible list of multipliers can be
/// tried: at most four items and ceilings of at most 6, which mostly differ.
pub fn tiny(random: &mut Random) -> Vec<u8> {
    let items = random.between(2, 4) as usize;
    let mut draft = draft(random, items);
    draft.ceiling = random.between(1, 6) as u32;
    draft.second_ceiling = random.between(0, 6) as u32;
    draft.units = random.pick(&[1, 2, 3, 5, 10, 40, 300]);
    draft.tolerance = random.pick(&[0, 0, 0, 1, 3]);
    draft.budget = random.pick(&[0, 1, 2, 5, 1_000]);
    draft.plain()
}

fn item_count(random: &mut Random) -> usize {
    let (lowest, highest) = match random.below(100) {
        0..=11 => (2, 2),
        12..=59 => (3, 8),
        60..=86 => (9, 24),
        87..=94 => (25, 80),
        95..=97 => (81, 255),
        _ => (MOST_RECORDS as i64, MOST_RECORDS as i64),
    };
    random.between(lowest, highest) as usize
}

fn draft(random: &mut Random, items: usize) -> Draft {
    let kernel = any_kernel(random);
    draft_with_kernel(random, items, kernel)
}

fn any_kernel(random: &mut Random) -> u8 {
    random.pick(&[LINEAR, SQUARE, OVERLAP])
}

fn draft_with_kernel(random: &mut Random, items: usize, kernel: u8) -> Draft {
    let features = feature_count(random);
    let style = Style::draw(random, kernel);
    let items = labelled_items(random, items, features, &style);
    let mut draft = Draft {
        features: features as u8,
        kernel,
        units: 1,
        ceiling: ceiling(random),
        tolerance: 0,
        budget: budget(random),
        second_ceiling: 0,
        items,
    };
    draft.second_ceiling = second_ceiling(random, draft.ceiling);
    draft.units = units(random, &draft);
    draft.tolerance = tolerance(random, draft.units);
    draft
}

fn feature_count(random: &mut Random) -> usize {
    match random.below(10) {
        0..=2 => 1,
        3 | 4 => 16,
        _ => random.between(1, 16) as usize,
    }
}

fn ceiling(random: &mut Random) -> u32 {
    match random.below(10) {
        0 => 1,
        1 => HIGHEST_CEILING as u32,
        2 | 3 => random.between(2, 12) as u32,
        4..=6 => random.between(13, 1_000) as u32,
        _ => random.spread(HIGHEST_CEILING) as u32,
    }
}

/// Beside c: 0, which says the same as c, or c itself, both ends of the range,
/// far below c and far above it, one off it, or like c from all over the range.
fn second_ceiling(random: &mut Random, c: u32) -> u32 {
    let drawn = match random.below(12) {
        0..=2 => return 0,
        3 => c,
        4 => 1,
        5 => HIGHEST_CEILING as u32,
        6 | 7 => c / random.between(FAR, 2 * FAR) as u32,
        8 | 9 => c * random.between(FAR, 2 * FAR) as u32,
        10 => random.pick(&[c - 1, c + 1]),
        _ => ceiling(random),
    };
    drawn.clamp(1, HIGHEST_CEILING as u32)
}

fn budget(random: &mut Random) -> u32 {
    match random.below(10) {
        0 => random.between(0, 2) as u32,
        1 | 2 => random.between(2, 30) as u32,
        3..=5 => HIGHEST_BUDGET as u32,
        _ => random.spread(HIGHEST_BUDGET) as u32,
    }
}

/// S from all over its range, but mostly set by the η of the first pair: at
/// zeros g is 2 × S, and the pair moves if 2 × g > η. So both sides of that edge
/// are met, and far above it trainings take many steps.
fn units(random: &mut Random, draft: &Draft) -> u32 {
    match random.below(20) {
        0 => 1,
        1 => MOST_UNITS as u32,
        2 | 3 => random.between(1, 20) as u32,
        4 | 5 => random.spread(MOST_UNITS) as u32,
        6..=8 => near_edge(random, draft).clamp(1, MOST_UNITS.into()) as u32,
        _ => {
            let quarters = random.spread(4_000);
            (near_edge(random, draft) * i128::from(quarters) / 4).clamp(1, MOST_UNITS.into()) as u32
        }
    }
}

fn near_edge(random: &mut Random, draft: &Draft) -> i128 {
    let problem = read(&draft.plain()).expect("a draft is accepted");
    let place = |label: u8| {
        draft
            .items
            .iter()
            .position(|item| item.0 == label)
            .expect("both labels")
    };
    let eta = eta(&table(&problem), place(PASSED_OVER), place(LOOKED_UP));
    eta / 4 + i128::from(random.between(-1, 1))
}

/// Half are 0; the gap of zeros is 2 × S, so S is an edge of 2 × t.
fn tolerance(random: &mut Random, units: u32) -> u64 {
    match random.below(30) {
        0 => HIGHEST_TOLERANCE,
        1 => random.spread(HIGHEST_TOLERANCE),
        2 | 3 => (i64::from(units) + random.between(-1, 1)) as u64,
        4..=8 => random.below(u64::from(units) + 1),
        9..=13 => random.below(u64::from(units) / 50 + 2),
        _ => 0,
    }
}

fn labelled_items(
    random: &mut Random,
    count: usize,
    features: usize,
    style: &Style,
) -> Vec<(u8, Vec<i8>)> {
    let mut labels = vec![LOOKED_UP, PASSED_OVER];
    let looked_up_parts = random.between(1, 19) as u64;
    labels.extend((2..count).map(|_| {
        if random.chance(looked_up_parts, 20) {
            LOOKED_UP
        } else {
            PASSED_OVER
        }
    }));
    random.shuffle(&mut labels);
    let copies = random.pick(&[0, 0, 1, 5]);
    let mut items: Vec<(u8, Vec<i8>)> = Vec::new();
    for label in labels {
        let copied = !items.is_empty() && random.chance(copies, 10);
        let drawn = if copied {
            let earlier = random.below(items.len() as u64) as usize;
            items[earlier].1.clone()
        } else {
            style.features(random, label, features)
        };
        items.push((label, drawn));
    }
    items
}

/// How the features of a file are spread.
enum Style {
    /// All from −k to k.
    Within(i64),
    /// Only 0 and the two ends of the range.
    Ends,
    /// One cloud for each label, apart by some distance.
    Clouds { apart: i64, width: i64 },
    /// Each item has a scale of its own, up to k: the pair of both thresholds
    /// then often has a large η and does not move, while another pair does.
    Scales(i64),
    /// All items alike, so that every η is 0.
    Alike(i8),
    /// Only k and k + 1, which with the overlap differ as little as can be.
    Neighbours(i64),
}

impl Style {
    /// The square kernel gets small features in most files: with large ones η
    /// is so far above S that nothing ever moves. The overlap gets neighbours in
    /// some, anywhere in the range and at its ends.
    fn draw(random: &mut Random, kernel: u8) -> Style {
        if kernel == OVERLAP && random.chance(1, 8) {
            let anywhere = random.between(LOWEST, HIGHEST - 1);
            return Style::Neighbours(random.pick(&[LOWEST, HIGHEST - 1, anywhere]));
        }
        let small = kernel == SQUARE && random.chance(3, 4);
        let most = if small { 6 } else { HIGHEST };
        match random.below(12) {
            0 | 1 => Style::Within(most),
            2..=4 => Style::Within(random.pick(&[1, 1, 2, 3, 10])),
            5 if !small => Style::Ends,
            5..=8 => Style::Clouds {
                apart: random.between(0, most / 2),
                width: random.between(0, most / 2),
            },
            9 | 10 => Style::Scales(most),
            _ => Style::Alike(random.between(-most, most) as i8),
        }
    }

    fn features(&self, random: &mut Random, label: u8, count: usize) -> Vec<i8> {
        let scale = random.pick(&[0, 1, 2, 3, 8, 30, HIGHEST]);
        (0..count)
            .map(|_| self.feature(random, label, scale))
            .collect()
    }

    fn feature(&self, random: &mut Random, label: u8, scale: i64) -> i8 {
        let value = match *self {
            Style::Within(k) => random.between(-k, k),
            Style::Ends => random.pick(&[LOWEST, 0, HIGHEST]),
            Style::Clouds { apart, width } => {
                let centre = if label == LOOKED_UP { apart } else { -apart };
                centre + random.between(-width, width)
            }
            Style::Scales(most) => random.between(-scale.min(most), scale.min(most)),
            Style::Alike(value) => value.into(),
            Style::Neighbours(lower) => random.between(lower, lower + 1),
        };
        value as i8
    }
}

/// The file with its budget cut if training would take too long. A file that is
/// refused is left alone, so damaged files can be handed in too.
pub fn tamed(file: Vec<u8>) -> Vec<u8> {
    tamed_to(file, WORK)
}

fn tamed_to(file: Vec<u8>, work: u64) -> Vec<u8> {
    let mut problem = match read(&file) {
        Ok(problem) => problem,
        Err(_) => return file,
    };
    let items = problem.items.len() as u64;
    let [looked_up, passed_over] = problem.parameters.ceilings();
    let per_step = items * items + 4 * looked_up.max(passed_over) as u64 + 50;
    let most = (work / per_step).max(1) as u32;
    if problem.parameters.budget <= most {
        return file;
    }
    problem.parameters.budget = most;
    match run(&problem).ending {
        Ending::Spent => with_budget(file, most),
        _ => file,
    }
}

/// Sets the budget to just what the training needs, or to one step less:
/// "converged" and "stuck" are tested ahead of "spent", and that only shows there.
fn budget_at_the_edge(file: Vec<u8>, random: &mut Random) -> Vec<u8> {
    let needed = run(&read(&file).expect("accepted")).steps.len() as u32;
    let less = random.below(2).min(needed.into()) as u32;
    with_budget(file, needed - less)
}

fn with_budget(mut file: Vec<u8>, budget: u32) -> Vec<u8> {
    file[24..28].copy_from_slice(&budget.to_le_bytes());
    file
}

/// The draft in bytes: in order without spares, or spread over more records in
/// any order.
fn laid_out(draft: &Draft, random: &mut Random) -> Vec<u8> {
    let items = draft.items.len();
    let left = (MOST_RECORDS - items) as i64;
    let spares = match random.below(10) {
        0..=2 => return draft.plain(),
        3 => left,
        4 | 5 => random.between(0, left),
        _ => random.between(0, left.min(6)),
    };
    shuffled(draft, random, items + spares as usize)
}

/// The draft in bytes, its items in any of so many records.
fn shuffled(draft: &Draft, random: &mut Random, records: usize) -> Vec<u8> {
    let mut places: Vec<usize> = (1..=records).collect();
    random.shuffle(&mut places);
    places.truncate(draft.items.len());
    draft.stored(&places, spare_records(random, records))
}

/// What spare records hold: noise, zeros, or the look of an item, so that a
/// reader that judges them is found out.
fn spare_records(random: &mut Random, records: usize) -> Vec<u8> {
    let mut bytes = random.bytes(RECORD_BYTES * records);
    for record in bytes.chunks_mut(RECORD_BYTES) {
        match random.below(4) {
            0 => record.fill(0),
            1 => {
                record[0] = random.below(records as u64 + 1) as u8;
                record[1..4].copy_from_slice(&[0, random.pick(&[LOOKED_UP, PASSED_OVER]), 0]);
            }
            _ => {}
        }
    }
    bytes
}
