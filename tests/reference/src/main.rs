//! Reads one training file from standard input and prints its listing.

use std::io::{self, Read, Write};

fn main() -> io::Result<()> {
    let mut file = Vec::new();
    io::stdin().read_to_end(&mut file)?;
    io::stdout().write_all(reference::listing(&file).as_bytes())
}
