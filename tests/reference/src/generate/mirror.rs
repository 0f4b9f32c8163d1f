//! Mirrors: reflections of the features that leave η as it is, so that η of two
//! images is η of the two, with each of the three kernels. The linear and the
//! square kernel keep K itself; the overlap need not.
//!
//! Where items come in pairs, an item and its image with the other label, and both
//! of each pair have one multiplier, the sum over the items of a × y × K, for a
//! word and for its image, adds up to one number C for all words, and so does G
//! of an item and of its image. So the thresholds add up to C, if no multiplier
//! is at one label's ceiling alone, and a word that is its own image has a score
//! of exactly 0.

use super::random::Random;
use crate::file::Problem;

#[derive(Clone, Copy, Debug)]
pub enum Mirror {
    /// Each feature with its sign changed. The zero word alone is its own image.
    ThroughZero,
    /// The features from the last to the first.
    EndToEnd,
    /// Both at once.
    EndToEndThroughZero,
}

impl Mirror {
    const ALL: [Mirror; 3] = [
        Mirror::ThroughZero,
        Mirror::EndToEnd,
        Mirror::EndToEndThroughZero,
    ];

    /// Any mirror; for one feature one that changes it, or all words would be on
    /// the line.
    pub fn draw(random: &mut Random, features: usize) -> Mirror {
        if features == 1 {
            return Mirror::ThroughZero;
        }
        random.pick(&Mirror::ALL)
    }

    /// The mirror in which the items of a problem are images, two by two.
    pub fn of(problem: &Problem) -> Option<Mirror> {
        let pairs = |mirror: &Mirror| {
            problem.items.chunks(2).all(|pair| match pair {
                [item, image] => {
                    item.label != image.label && mirror.image(&item.features) == image.features
                }
                _ => false,
            })
        };
        Mirror::ALL.into_iter().find(pairs)
    }

    pub fn image(self, features: &[i8]) -> Vec<i8> {
        let last = features.len() - 1;
        let at = |k: usize| match self {
            Mirror::ThroughZero => -features[k],
            Mirror::EndToEnd => features[last - k],
            Mirror::EndToEndThroughZero => -features[last - k],
        };
        (0..=last).map(at).collect()
    }

    /// A word that is its own image: where a place and its image's place are
    /// two, the first decides, and where they are one and the sign changes, it is 0.
    pub fn own_image(self, word: &[i8]) -> Vec<i8> {
        let image = self.image(word);
        let last = word.len() - 1;
        let at = |k: usize| match self {
            Mirror::ThroughZero => 0,
            Mirror::EndToEndThroughZero if 2 * k == last => 0,
            _ if 2 * k <= last => word[k],
            _ => image[k],
        };
        (0..=last).map(at).collect()
    }
}
