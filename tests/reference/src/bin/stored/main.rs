//! Writes what the three test programs are run on and what they have to print:
//! `stored FOLDER` makes `reading_test`, `settled_test` and `vectors_test` in that
//! folder, each with `stdin` and `stdout`, always the same, and in `files` those
//! of `vectors_test` one by one, K.log for the one of number K. It prints how often
//! each answer is among them, and what the last ones show.

mod edges;
mod reading;
mod settled;
mod vectors;

use std::collections::BTreeMap;
use std::io;
use std::path::Path;

/// What is drawn depends on nothing else.
const SEED: u64 = 20_261_115;

/// The standard input of a test program, and the standard output that it must have.
pub struct Streams {
    stdin: Vec<u8>,
    stdout: String,
}

impl Streams {
    fn write(&self, folder: &Path) -> io::Result<()> {
        std::fs::create_dir_all(folder)?;
        std::fs::write(folder.join("stdin"), &self.stdin)?;
        std::fs::write(folder.join("stdout"), &self.stdout)
    }
}

fn main() -> io::Result<()> {
    let folder = std::env::args().nth(1).unwrap_or_else(|| {
        eprintln!("usage: stored FOLDER");
        std::process::exit(2)
    });
    let folder = Path::new(&folder);
    reading::streams().write(&folder.join("reading_test"))?;
    settled::streams().write(&folder.join("settled_test"))?;
    let files = vectors::files();
    vectors::streams(&files).write(&folder.join("vectors_test"))?;
    one_by_one(&files, &folder.join("files"))
}

fn one_by_one(files: &[Vec<u8>], folder: &Path) -> io::Result<()> {
    std::fs::create_dir_all(folder)?;
    for (number, file) in (1..).zip(files) {
        std::fs::write(folder.join(format!("{number}.log")), file)?;
    }
    Ok(())
}

/// A length as two bytes, least first.
fn two_bytes(length: usize) -> [u8; 2] {
    let length = u16::try_from(length).expect("a length fits two bytes");
    length.to_le_bytes()
}

/// Each text with how often it is there, short ones first.
fn counted(texts: impl Iterator<Item = String>) -> String {
    let mut counts = BTreeMap::new();
    for text in texts {
        *counts.entry((text.len(), text)).or_insert(0) += 1;
    }
    let parts: Vec<String> = counts
        .iter()
        .map(|((_, text), count)| format!("{text} {count}"))
        .collect();
    parts.join(", ")
}
