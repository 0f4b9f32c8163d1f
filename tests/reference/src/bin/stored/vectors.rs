//! The streams of `vectors_test`. Its input has, for each file, its length in two
//! bytes, least first, and its bytes; its output the line `file K`, K from 1, and
//! then what the training program prints for the file. The last file takes 70,880
//! steps; all others together take fewer than 2,000.

use crate::{counted, two_bytes, Streams, SEED};
use reference::cases::{Counts, Drawn};
use reference::examples::{
    ceilings_at_the_ends, full_chain, largest_overlap, largest_totals, long_run, run_only,
    three_records,
};
use reference::generate::chains::{with_next, HIGHEST_NEXT};
use reference::generate::draft::{LINEAR, OVERLAP, SQUARE};
use reference::generate::{
    broken, causes, damaged, every_chain, noise, small, sound, sound_with_kernel,
    with_relinked_spares, Random,
};
use reference::{file, listing, settled, Refusal};

const SOUND: usize = 213;
const LARGEST: usize = 12;
const DAMAGED: usize = 70;
const NOISE: usize = 20;
/// Small files, so that the stored ones stay few bytes.
const BROKEN: usize = 40;
const RELINKED_SPARES: usize = 10;
/// Most causes of refusal 4 differ in the place alone; every so many is enough.
const EACH_CAUSE_OF_4: usize = 6;

pub fn streams(files: &[Vec<u8>]) -> Streams {
    let listings: Vec<String> = files.iter().map(|file| listing(file)).collect();
    print_counts(files, &listings);
    Streams {
        stdin: packed(files),
        stdout: numbered(&listings),
    }
}

pub fn files() -> Vec<Vec<u8>> {
    let random = &mut Random::new(SEED);
    let mut files = settled::files("P");
    files.push(three_records());
    files.extend(run_only());
    files.extend(settled::files("F"));
    files.extend(ceilings_at_the_ends());
    files.extend(settled::files("I"));
    files.extend(thinned(causes(random)));
    files.extend(largest(random));
    files.extend((0..SOUND).map(|_| sound(random)));
    for _ in 0..DAMAGED {
        let whole = sound(random);
        files.push(damaged(&whole, random));
    }
    files.extend((0..NOISE).map(|_| noise(random)));
    files.extend(chains(random));
    files.push(largest_totals().plain());
    files.push(long_run().plain());
    files
}

/// Files of as many items as can be, drawn ones with the three kernels by turns.
/// They come ahead of other files of their length: the benchmark takes the longest
/// files, and of those that tie the first by name.
fn largest(random: &mut Random) -> Vec<Vec<u8>> {
    let mut files = vec![largest_overlap().plain()];
    let kernels = [LINEAR, SQUARE, OVERLAP].into_iter().cycle();
    let drawn = |kernel| sound_with_kernel(random, file::MOST_RECORDS, kernel);
    files.extend(kernels.take(LARGEST).map(drawn));
    files
}

/// Chains of as many records as can be, every chain of one and of two records,
/// and some of a few.
fn chains(random: &mut Random) -> Vec<Vec<u8>> {
    let most = file::MOST_RECORDS;
    let ends = [0, 1, 128, most, most + 1, HIGHEST_NEXT];
    let mut files: Vec<Vec<u8>> = ends.map(|next| with_next(&full_chain(), most, next)).into();
    files.extend([1, 2].into_iter().flat_map(every_chain));
    for k in 0..BROKEN {
        let whole = small(random, 2 + k % 5);
        files.push(broken(&whole, random));
    }
    for k in 0..RELINKED_SPARES {
        let whole = small(random, 2 + k % 5);
        files.push(with_relinked_spares(&whole, random));
    }
    files
}

fn thinned(causes: Vec<(Refusal, Vec<u8>)>) -> Vec<Vec<u8>> {
    let kept = causes
        .into_iter()
        .enumerate()
        .filter(|(k, (refusal, _))| refusal.number != 4 || k % EACH_CAUSE_OF_4 == 0);
    kept.map(|(_, (_, file))| file).collect()
}

fn packed(files: &[Vec<u8>]) -> Vec<u8> {
    let mut bytes = Vec::new();
    for file in files {
        bytes.extend(two_bytes(file.len()));
        bytes.extend(file);
    }
    bytes
}

fn numbered(listings: &[String]) -> String {
    listings
        .iter()
        .enumerate()
        .map(|(k, listing)| format!("file {}\n{listing}", k + 1))
        .collect()
}

/// How many files have each answer and each kernel, in how many listings no
/// multiplier is above 0, some are and all are, and how many files show each case.
fn print_counts(files: &[Vec<u8>], listings: &[String]) {
    let answers = counted(listings.iter().map(|listing| answer(listing)));
    println!("vectors_test: {} files: {answers}", files.len());
    let drawn: Vec<Drawn> = files.iter().cloned().map(Drawn::of).collect();
    let problems = drawn.iter().filter_map(Drawn::problem);
    let kernels = problems.map(|problem| format!("{:?}", problem.parameters.kernel).to_lowercase());
    println!("kernels: {}", counted(kernels));
    let above_zero = counted(listings.iter().filter_map(|listing| above_zero(listing)));
    println!("multipliers above 0: {above_zero}");
    let mut counts = Counts::default();
    drawn.iter().for_each(|drawn| counts.count(drawn));
    println!("{}", counts.lines().join("\n"));
}

/// The ending, or the refusal with its number.
fn answer(listing: &str) -> String {
    let words: Vec<&str> = listing.split_whitespace().collect();
    words[..if words[0] == "refused" { 2 } else { 1 }].join(" ")
}

/// Whether the multipliers above 0 are none, some or all, by the line of totals.
fn above_zero(listing: &str) -> Option<String> {
    let lines: Vec<&str> = listing.lines().collect();
    let total = lines[lines.len() - 1].strip_prefix("total ")?;
    let items = (lines.len() - 2).to_string();
    let share = match total.split(' ').next()? {
        "0" => "none",
        above if above == items => "all",
        _ => "some",
    };
    Some(share.into())
}
