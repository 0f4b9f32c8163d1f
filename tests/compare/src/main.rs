//! Compares the library's seven calls with the reference on random files.
//!
//! `compare [--seed N] [--files N | --soak SECONDS | --only FILE]`: so many
//! files, or files until the time is over, or one file by its number. The exit
//! status is 1 if a difference was found, and 3 if there was none but a case was
//! not met in as many files as the gate compares.

mod answer;
mod calls;
mod expected;
mod flags;
mod imported;
mod library;
mod pooled;
mod report;
mod watch;
mod written;

use flags::{Flags, Until, DEFAULT_FILES};
use reference::generate::first_pools::{self, first_pools};
use reference::generate::first_texts::{self, first_texts};
use reference::generate::importing::Importing;
use reference::generate::pooling::Pooling;
use reference::generate::{any_file, systematic, Random};
use report::{hex, Tally};
use std::process::ExitCode;
use std::sync::atomic::{AtomicBool, AtomicU64, AtomicUsize, Ordering};
use std::time::{Duration, Instant};

/// No file takes the reference or the library this long, by far.
const PATIENCE: Duration = Duration::from_secs(60);

/// So many texts beside each file, and so many pairs of files: all are met in as many
/// files as the gate compares.
const TEXTS: usize = 8;
const PAIRS: usize = 4;

fn main() -> ExitCode {
    let flags = match Flags::read(std::env::args().skip(1)) {
        Ok(flags) => flags,
        Err(message) => {
            eprintln!("{message}");
            return ExitCode::from(2);
        }
    };
    println!("seed {}", flags.seed);
    watch::start(flags.seed);
    let comparison = Comparison::new(flags);
    let (tally, differences) = comparison.on_all_cores();
    tally.print();
    let files = comparison.finished.load(Ordering::SeqCst);
    let missing = if files < DEFAULT_FILES {
        Vec::new()
    } else {
        tally.missing()
    };
    for case in &missing {
        println!("not met: {case}");
    }
    println!(
        "compared {files} files, {differences} differences (seed {})",
        comparison.flags.seed
    );
    match (differences, missing.len()) {
        (0, 0) => ExitCode::SUCCESS,
        (0, _) => ExitCode::from(3),
        _ => ExitCode::FAILURE,
    }
}

/// What the threads share.
struct Comparison {
    flags: Flags,
    start: Instant,
    /// The files that come first; random ones follow.
    systematic: Vec<Vec<u8>>,
    /// Texts that are imported beside the first files, some with each.
    texts: Vec<(first_texts::Kind, Importing)>,
    /// Files that are pooled beside the first files, some with each.
    pairs: Vec<(first_pools::Kind, Pooling)>,
    next: AtomicU64,
    finished: AtomicU64,
    found: AtomicBool,
    running: AtomicUsize,
}

impl Comparison {
    fn new(flags: Flags) -> Comparison {
        let first = match flags.until {
            Until::Only(number) => number,
            _ => 1,
        };
        Comparison {
            systematic: systematic(&mut Random::new(flags.seed)),
            texts: first_texts(&mut Random::new(flags.seed)),
            pairs: first_pools(),
            flags,
            start: Instant::now(),
            next: AtomicU64::new(first),
            finished: AtomicU64::new(0),
            found: AtomicBool::new(false),
            running: AtomicUsize::new(0),
        }
    }

    /// What all threads counted, and how many of them found a difference.
    fn on_all_cores(&self) -> (Tally, usize) {
        let cores = std::thread::available_parallelism()
            .map_or(1, usize::from)
            .min(watch::MOST_THREADS);
        self.running.store(cores, Ordering::SeqCst);
        let results: Vec<(Tally, bool)> = std::thread::scope(|scope| {
            let threads: Vec<_> = (0..cores)
                .map(|thread| scope.spawn(move || self.on_one_core(thread)))
                .collect();
            self.wait();
            threads
                .into_iter()
                .map(|thread| thread.join().expect("a thread ends"))
                .collect()
        });
        let mut tally = Tally::default();
        results.iter().for_each(|(part, _)| tally.add(part));
        let found = results.iter().filter(|(_, found)| *found).count();
        (tally, found)
    }

    /// Waits for the threads, but not for a call that does not come back.
    fn wait(&self) {
        let mut last = (0, Instant::now());
        while self.running.load(Ordering::SeqCst) > 0 {
            std::thread::sleep(Duration::from_millis(20));
            let finished = self.finished.load(Ordering::SeqCst);
            if finished != last.0 {
                last = (finished, Instant::now());
            }
            if last.1.elapsed() > PATIENCE {
                watch::end(format_args!("no answer"));
            }
        }
    }

    fn on_one_core(&self, thread: usize) -> (Tally, bool) {
        let result = self.file_after_file(thread);
        self.running.fetch_sub(1, Ordering::SeqCst);
        result
    }

    /// Compares file after file until there is no more to do. A difference ends
    /// the other threads too: it has to be mended before more is worth knowing.
    fn file_after_file(&self, thread: usize) -> (Tally, bool) {
        let mut tally = Tally::default();
        loop {
            let number = self.next.fetch_add(1, Ordering::SeqCst);
            if self.found.load(Ordering::SeqCst) || self.over(number) {
                watch::at_hand(thread, 0);
                return (tally, false);
            }
            watch::at_hand(thread, number);
            let mut random = Random::numbered(self.flags.seed, number);
            let file = self.file(number, &mut random);
            let (texts, pairs) = (self.texts(number), self.pairs(number));
            let compared = calls::compare(&file, texts, pairs, &mut random, &mut tally);
            self.finished.fetch_add(1, Ordering::SeqCst);
            if let Err(difference) = compared {
                self.found.store(true, Ordering::SeqCst);
                difference.print(number);
                return (tally, true);
            }
        }
    }

    fn over(&self, number: u64) -> bool {
        match self.flags.until {
            Until::Files(files) => number > files,
            Until::Seconds(seconds) => self.start.elapsed().as_secs() >= seconds,
            Until::Only(only) => number > only,
        }
    }

    /// The texts that belong to a file's number.
    fn texts(&self, number: u64) -> &[(first_texts::Kind, Importing)] {
        let last = self.texts.len();
        let start = (number as usize - 1).saturating_mul(TEXTS).min(last);
        &self.texts[start..(start + TEXTS).min(last)]
    }

    /// The pairs of files that belong to it.
    fn pairs(&self, number: u64) -> &[(first_pools::Kind, Pooling)] {
        let last = self.pairs.len();
        let start = (number as usize - 1).saturating_mul(PAIRS).min(last);
        &self.pairs[start..(start + PAIRS).min(last)]
    }

    fn file(&self, number: u64, random: &mut Random) -> Vec<u8> {
        let file = match self.systematic.get(number as usize - 1) {
            Some(file) => file.clone(),
            None => any_file(random),
        };
        if matches!(self.flags.until, Until::Only(_)) {
            println!("file {}", hex(&file));
        }
        file
    }
}
