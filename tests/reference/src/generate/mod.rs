//! Training files, multipliers, words and what is to be written, imported or pooled,
//! drawn from a seed: the same seed gives the same bytes on every machine.

pub mod chains;
pub mod damage;
pub mod draft;
pub mod first_pools;
pub mod first_texts;
pub mod importing;
pub mod mirror;
pub mod multipliers;
pub mod pooling;
pub mod random;
pub mod sound;
pub mod spoilt;
pub mod texts;
pub mod words;
pub mod writing;

use crate::{examples, settled};
pub use chains::{broken, every_chain, with_relinked_spares};
pub use damage::{
    causes, damaged, every_damage, one_sided, with_changed_header, with_changed_record,
};
pub use draft::Draft;
use draft::{LINEAR, OVERLAP, SQUARE};
pub use random::Random;
pub use sound::{among, small, small_with_kernel, sound, sound_with_kernel, tiny};

/// A file of any kind: most are accepted, some of them mirrored; some are
/// damaged, a tenth in the chain; a few are noise.
pub fn any_file(random: &mut Random) -> Vec<u8> {
    match random.below(20) {
        0 => noise(random),
        1..=4 => {
            let file = sound(random);
            sound::tamed(damaged(&file, random))
        }
        5..=9 => sound::mirrored(random),
        10 | 11 => {
            let file = sound(random);
            sound::tamed(broken(&file, random))
        }
        12 => {
            let file = sound(random);
            with_relinked_spares(&file, random)
        }
        _ => sound(random),
    }
}

/// The file with these bytes put there.
pub fn with(file: &[u8], start: usize, bytes: &[u8]) -> Vec<u8> {
    let mut changed = file.to_vec();
    changed[start..start + bytes.len()].copy_from_slice(bytes);
    changed
}

/// Purely random bytes, half of them behind a length that agrees with m, so
/// that they come past refusal 1.
pub fn noise(random: &mut Random) -> Vec<u8> {
    let length = random.below(200) as usize;
    let mut file = random.bytes(length);
    if random.chance(1, 2) {
        let records = random.below(12) as u8;
        file = random.bytes(32 + 20 * usize::from(records));
        file[0] = records;
        file[1] = 0;
    }
    file
}

/// The largest m that two bytes can say, with the length that belongs to it.
fn longest(random: &mut Random) -> Vec<u8> {
    let mut file = random.bytes(32 + 20 * 65_535);
    file[..2].fill(255);
    file
}

/// What must be met in each comparison, whatever the seed: the longest training
/// and the longest chains, the settled examples, those run only and our own,
/// every cause of a refusal, every chain of one to three records, those of two
/// also beside another fault, and a small file of each kernel with every damage
/// of `every_damage`.
pub fn systematic(random: &mut Random) -> Vec<Vec<u8>> {
    let mut files = vec![examples::long_run().plain(), longest(random)];
    files.extend(chains::full_chains());
    files.extend(settled::table().into_iter().map(|case| case.file));
    files.extend(examples::run_only());
    files.extend(examples::ceilings_at_the_ends());
    files.extend(causes(random).into_iter().map(|(_, file)| file));
    files.extend([1, 2, 3].into_iter().flat_map(every_chain));
    files.extend(chains::every_chain_beside_a_fault());
    for (items, kernel) in [(2, LINEAR), (3, SQUARE), (4, OVERLAP)] {
        let file = small_with_kernel(random, items, kernel);
        files.extend(every_damage(&file, random).into_iter().map(sound::tamed));
    }
    files
}
