//! The words that a caller hands in, right and wrong, many of them exactly on the
//! line or as near to it as can be.

use super::draft::{any_feature, NO_FEATURE};
use super::mirror::Mirror;
use super::random::Random;
use crate::certify::{judge_count, judge_feasible, thresholds_of};
use crate::classify::score;
use crate::file::{Problem, HIGHEST_FEATURE, LOWEST_FEATURE};

/// What a caller may hand in: a word of the file's features, also one beside the
/// line of the multipliers, or a wrong one. Without a problem the file is refused,
/// and any will do.
pub fn handed_in(problem: Option<&Problem>, multipliers: &[u32], random: &mut Random) -> Vec<i8> {
    let problem = match problem {
        Some(problem) => problem,
        None => return any(random),
    };
    match random.below(16) {
        0..=3 => spoilt(problem, random),
        4 | 5 => beside_the_line(problem, multipliers, random),
        _ => sound(problem, random),
    }
}

/// A word of d features in their range: for mirrored items often its own image;
/// zeros, near an item, at the ends of the range, near zero, or anywhere.
fn sound(problem: &Problem, random: &mut Random) -> Vec<i8> {
    if let Some(mirror) = Mirror::of(problem) {
        if random.chance(2, 3) {
            return mirror.own_image(&anywhere(problem, random));
        }
    }
    match random.below(5) {
        0 => of_features(problem, || 0),
        1 => near_item(problem, random),
        2 => of_features(problem, || random.pick(&[LOWEST_FEATURE, HIGHEST_FEATURE])),
        3 => of_features(problem, || random.between(-2, 2) as i8),
        _ => anywhere(problem, random),
    }
}

fn of_features(problem: &Problem, feature: impl FnMut() -> i8) -> Vec<i8> {
    std::iter::repeat_with(feature)
        .take(problem.parameters.features)
        .collect()
}

fn anywhere(problem: &Problem, random: &mut Random) -> Vec<i8> {
    of_features(problem, || any_feature(random))
}

/// A word with one feature set so that its score is as near to 0 as that feature
/// can bring it. Wrong multipliers have no line, and leave the word as it is.
fn beside_the_line(problem: &Problem, multipliers: &[u32], random: &mut Random) -> Vec<i8> {
    let mut word = sound(problem, random);
    let counted = judge_count(problem, multipliers);
    let judged = counted.and_then(|()| judge_feasible(problem, multipliers));
    if judged.is_err() {
        return word;
    }
    let both = thresholds_of(problem, multipliers);
    let place = random.below(word.len() as u64) as usize;
    let nearest = (LOWEST_FEATURE..=HIGHEST_FEATURE).min_by_key(|&feature| {
        word[place] = feature;
        score(problem, multipliers, both, &word).abs()
    });
    word[place] = nearest.expect("there are features");
    word
}

fn near_item(problem: &Problem, random: &mut Random) -> Vec<i8> {
    let item = &problem.items[random.below(problem.items.len() as u64) as usize];
    let nudge = random.pick(&[0, 0, 1, 10]);
    let near = |&feature: &i8| {
        let nudged = i64::from(feature) + random.between(-nudge, nudge);
        nudged.clamp(LOWEST_FEATURE.into(), HIGHEST_FEATURE.into()) as i8
    };
    item.features.iter().map(near).collect()
}

/// A word with a wrong number of features, a feature out of range, or both.
fn spoilt(problem: &Problem, random: &mut Random) -> Vec<i8> {
    let mut word = sound(problem, random);
    let place = random.below(word.len() as u64) as usize;
    match random.below(6) {
        0 => word.truncate(place),
        1 => word.push(random.pick(&[0, 5, NO_FEATURE])),
        2 => word.resize(16, 0),
        3 => word = any(random),
        _ => word[place] = NO_FEATURE,
    }
    word
}

/// Any word, for a file that is refused.
fn any(random: &mut Random) -> Vec<i8> {
    (0..random.below(18)).map(|_| random.draw() as i8).collect()
}
