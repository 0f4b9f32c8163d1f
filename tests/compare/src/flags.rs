//! The flags of the program.

use std::time::{SystemTime, UNIX_EPOCH};

pub enum Until {
    Files(u64),
    Seconds(u64),
    Only(u64),
}

pub struct Flags {
    pub seed: u64,
    pub until: Until,
}

const USE: &str = "use --seed N and one of --files N, --soak SECONDS, --only FILE";
const DEFAULT_SEED: u64 = 1;
/// As many files as the gate compares: so many show every case.
pub const DEFAULT_FILES: u64 = 20_000;

impl Flags {
    /// A run of so many files has a fixed seed unless one is given, so that a
    /// gate does the same each time. A soak takes the clock's, so that each
    /// meets other files; it is printed, and can be given again.
    pub fn read(mut arguments: impl Iterator<Item = String>) -> Result<Flags, String> {
        let mut seed = None;
        let mut until = Until::Files(DEFAULT_FILES);
        while let Some(flag) = arguments.next() {
            let value = arguments.next().and_then(|text| text.parse().ok());
            let value: u64 = value.ok_or(format!("{flag} needs a number; {USE}"))?;
            match flag.as_str() {
                "--seed" => seed = Some(value),
                "--files" => until = Until::Files(value),
                "--soak" => until = Until::Seconds(value),
                "--only" if value > 0 => until = Until::Only(value),
                _ => return Err(format!("no such flag: {flag} {value}; {USE}")),
            }
        }
        let seed = seed.unwrap_or_else(|| match until {
            Until::Seconds(_) => clock(),
            _ => DEFAULT_SEED,
        });
        Ok(Flags { seed, until })
    }
}

fn clock() -> u64 {
    SystemTime::now()
        .duration_since(UNIX_EPOCH)
        .map_or(0, |time| time.as_secs())
}
