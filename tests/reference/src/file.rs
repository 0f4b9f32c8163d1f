//! Reading a training file: document 01, "The training file" and refusals 1 to 5,
//! and document 02, requests (k), refusal 16, (f), the second ceiling, and (i),
//! the kernel byte.
//!
//! Refusals 1, 2, 4 and 5 have a pass over the file each, 3 and 16 share one, so
//! that the order of the tests can be seen by reading `read` from top to bottom.

use crate::kernel::Kernel;
use crate::refusal::Refusal;

pub const HEADER_BYTES: usize = 32;
pub const RECORD_BYTES: usize = 20;
pub const MOST_RECORDS: usize = 256;
pub const STORED_FEATURES: usize = 16;
pub const LOWEST_FEATURE: i8 = -127;
pub const HIGHEST_FEATURE: i8 = 127;
pub const MOST_UNITS: u64 = 1_048_576;
pub const HIGHEST_CEILING: u64 = 65_536;
pub const HIGHEST_TOLERANCE: u64 = 1_000_000_000_000;
pub const HIGHEST_BUDGET: u64 = 1_000_000;

/// Looked up is y = +1, passed over is y = −1.
#[derive(Clone, Copy, PartialEq, Eq, Debug)]
pub enum Label {
    LookedUp,
    PassedOver,
}

impl Label {
    pub const BOTH: [Label; 2] = [Label::LookedUp, Label::PassedOver];

    /// The y of the formulas.
    pub fn sign(self) -> i128 {
        match self {
            Label::LookedUp => 1,
            Label::PassedOver => -1,
        }
    }

    /// "the label (1 looked up, y = +1; 2 passed over, y = −1)", in a record and in
    /// an item handed over.
    pub fn number(self) -> i8 {
        match self {
            Label::LookedUp => 1,
            Label::PassedOver => 2,
        }
    }

    pub fn numbered(number: i64) -> Option<Label> {
        let mut both = Label::BOTH.into_iter();
        both.find(|label| i64::from(label.number()) == number)
    }
}

/// The parameters as a header has them and as a caller hands them over: any
/// numbers.
#[derive(Clone, Copy, PartialEq, Eq, Debug)]
pub struct Numbers {
    /// d, features in use.
    pub used: usize,
    pub kernel: u8,
    /// S, grid units per 1.
    pub grid: u32,
    /// c, the ceiling of items looked up.
    pub ceiling: u32,
    /// The second ceiling, that of items passed over: "0 means the same as c".
    pub second_ceiling: u32,
    /// t, the tolerance.
    pub tolerance: u64,
    pub budget: u32,
}

/// The parameters once they are judged, as training uses them.
#[derive(Clone, Debug)]
pub struct Parameters {
    /// d, features in use.
    pub features: usize,
    pub kernel: Kernel,
    /// S, grid units per 1.
    pub units: i128,
    /// c, the ceiling of items looked up.
    pub ceiling: i128,
    /// The second ceiling, that of items passed over, as the header has it: "0
    /// means the same as c".
    pub second_ceiling: i128,
    /// t, the tolerance.
    pub tolerance: i128,
    pub budget: u32,
}

impl Parameters {
    /// The highest multiplier that an item of a label may have: "the item's own
    /// ceiling". Everything that needs a ceiling asks here.
    pub fn ceiling_of(&self, label: Label) -> i128 {
        match (label, self.second_ceiling) {
            (Label::LookedUp, _) | (Label::PassedOver, 0) => self.ceiling,
            (Label::PassedOver, second_ceiling) => second_ceiling,
        }
    }

    /// The ceilings of items looked up and of items passed over.
    pub fn ceilings(&self) -> [i128; 2] {
        Label::BOTH.map(|label| self.ceiling_of(label))
    }
}

/// A chained record. Only the first d features are kept: the rest are zero in
/// every accepted file, and all kernels use the first d alone.
#[derive(Clone, Debug)]
pub struct Item {
    pub record: usize,
    pub label: Label,
    pub features: Vec<i8>,
}

/// What an accepted file holds: parameters, and items in chain order.
#[derive(Clone, Debug)]
pub struct Problem {
    pub parameters: Parameters,
    pub items: Vec<Item>,
}

impl Problem {
    /// The ceiling of the item at a position.
    pub fn ceiling(&self, position: usize) -> i128 {
        self.parameters.ceiling_of(self.items[position].label)
    }
}

/// The problem stored in the file, or the first refusal met.
pub fn read(file: &[u8]) -> Result<Problem, Refusal> {
    let records = judge_length(file)?;
    let parameters = judge_header(file, records)?;
    let chain = walk(file, records)?;
    let items = judge_items(file, &chain, parameters.features)?;
    let labels: Vec<Label> = items.iter().map(|item| item.label).collect();
    judge_labels(&labels)?;
    Ok(Problem { parameters, items })
}

/// Refusal 1: under 32 bytes, m over 256, or a length other than 32 + 20 × m.
fn judge_length(file: &[u8]) -> Result<usize, u8> {
    if file.len() < HEADER_BYTES {
        return Err(1);
    }
    let records = number(file, 0, 2) as usize;
    let fits = records <= MOST_RECORDS && file.len() == HEADER_BYTES + RECORD_BYTES * records;
    if fits {
        Ok(records)
    } else {
        Err(1)
    }
}

/// Refusal 2: a header field beyond its range, or a spare byte not 0.
/// "A first record over m is refused with 2."
fn judge_header(file: &[u8], records: usize) -> Result<Parameters, u8> {
    let first = number(file, 2, 2) as usize;
    let spare = number(file, 6, 2);
    if first > records || spare != 0 {
        return Err(2);
    }
    judge_numbers(&numbers(file))
}

/// The parameters in a header.
pub fn numbers(file: &[u8]) -> Numbers {
    Numbers {
        used: file[4].into(),
        kernel: file[5],
        grid: number(file, 8, 4) as u32,
        ceiling: number(file, 12, 4) as u32,
        tolerance: number(file, 16, 8),
        budget: number(file, 24, 4) as u32,
        second_ceiling: number(file, 28, 4) as u32,
    }
}

/// Refusal 2, for the parameters: one beyond its range.
pub fn judge_numbers(numbers: &Numbers) -> Result<Parameters, u8> {
    let kernel = Kernel::numbered(numbers.kernel.into()).ok_or(2)?;
    let in_range = (1..=STORED_FEATURES).contains(&numbers.used)
        && (1..=MOST_UNITS).contains(&numbers.grid.into())
        && (1..=HIGHEST_CEILING).contains(&numbers.ceiling.into())
        && u64::from(numbers.second_ceiling) <= HIGHEST_CEILING
        && numbers.tolerance <= HIGHEST_TOLERANCE
        && u64::from(numbers.budget) <= HIGHEST_BUDGET;
    if !in_range {
        return Err(2);
    }
    Ok(Parameters {
        features: numbers.used,
        kernel,
        units: numbers.grid.into(),
        ceiling: numbers.ceiling.into(),
        second_ceiling: numbers.second_ceiling.into(),
        tolerance: numbers.tolerance.into(),
        budget: numbers.budget,
    })
}

/// The numbers of the chained records, in chain order.
/// Refusal 3: a next number over m. Refusal 16: "a next field that leads to a
/// record already met", which may be the record itself; "one walk finds either
/// fault". The list of the records met is kept and searched, as the rule says
/// it; records off the chain are never looked at.
fn walk(file: &[u8], records: usize) -> Result<Vec<usize>, Refusal> {
    let mut met = Vec::new();
    let mut reached = number(file, 2, 2) as usize;
    while reached != 0 {
        met.push(reached);
        let next = number(record(file, reached), 0, 2) as usize;
        if next > records {
            return Err(Refusal::with_record(3, reached));
        }
        if met.contains(&next) {
            return Err(Refusal::with_record(16, reached));
        }
        reached = next;
    }
    Ok(met)
}

/// The items of a whole chain; one that breaks a rule refuses them all.
fn judge_items(file: &[u8], chain: &[usize], features: usize) -> Result<Vec<Item>, u8> {
    chain
        .iter()
        .map(|&number| judge_item(file, number, features))
        .collect()
}

/// Refusal 4: a wrong label, byte 3 not 0, a feature outside its range, or a
/// feature past d not 0.
fn judge_item(file: &[u8], number: usize, features: usize) -> Result<Item, u8> {
    let bytes = record(file, number);
    let label = Label::numbered(bytes[2].into()).ok_or(4)?;
    let stored: Vec<i8> = bytes[4..].iter().map(|&byte| byte as i8).collect();
    if bytes[3] != 0 || !are_features(&stored, features) {
        return Err(4);
    }
    Ok(Item {
        record: number,
        label,
        features: stored[..features].to_vec(),
    })
}

/// Whether an item can have these sixteen features: the first d are in their
/// range, and those past d are 0.
pub fn are_features(stored: &[i8], features: usize) -> bool {
    let (used, past) = stored.split_at(features);
    used.iter().all(|&f| in_range(f)) && past.iter().all(|&f| f == 0)
}

/// Refusal 5: one label, or both, has no item.
pub fn judge_labels(labels: &[Label]) -> Result<(), u8> {
    let both = Label::BOTH.iter().all(|label| labels.contains(label));
    if both {
        Ok(())
    } else {
        Err(5)
    }
}

/// "each a signed byte from −127 to 127"; words are judged by the same range.
pub fn in_range(feature: i8) -> bool {
    (LOWEST_FEATURE..=HIGHEST_FEATURE).contains(&feature)
}

/// The bytes of a record.
fn record(file: &[u8], number: usize) -> &[u8] {
    let start = record_start(number);
    &file[start..start + RECORD_BYTES]
}

/// Where a record begins; records are numbered from 1.
pub fn record_start(number: usize) -> usize {
    HEADER_BYTES + RECORD_BYTES * (number - 1)
}

/// An unsigned little-endian field.
pub fn number(bytes: &[u8], start: usize, width: usize) -> u64 {
    bytes[start..start + width]
        .iter()
        .rev()
        .fold(0, |value, &byte| value * 256 + u64::from(byte))
}
