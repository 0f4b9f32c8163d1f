//! Reads a small file, trains on it, certifies the result and multipliers of 0,
//! with how far each can be from the best, and classifies words: a plain one, one
//! exactly on the line, those with the highest and the lowest feature, and one
//! with a feature that none may have. Then it reads the file with a damaged
//! chain, and says which record to open. Then it writes files: the same items out
//! of memory, the small file with another budget, and one for which there is no
//! room. At the end it imports a text in LIBSVM's line form, and one that is
//! refused.

#[path = "../../include/lookahead.rs"]
mod declared;

/// The library's calls behind safe functions: a slice brings its length along,
/// and what a call writes is a place of its own.
mod lookahead {
    use super::declared::{
        lookahead_certify, lookahead_classify, lookahead_import, lookahead_read, lookahead_train,
        lookahead_write, LookaheadAnswer, LOOKAHEAD_CONVERGED, LOOKAHEAD_LOOKED_UP,
        LOOKAHEAD_PASSED_OVER, LOOKAHEAD_STUCK,
    };
    use std::fmt;

    pub use super::declared::{
        LookaheadItem as Item, LookaheadParameters as Parameters, LOOKAHEAD_FEATURES as FEATURES,
        LOOKAHEAD_MOST_FILE as MOST_FILE, LOOKAHEAD_MOST_ITEMS as MOST_ITEMS,
    };

    /// The number of a refusal, which include/lookahead.h explains, and for the
    /// two faults of a chain the record to open.
    #[derive(Debug)]
    pub struct Refusal {
        pub number: u8,
        pub record: Option<u16>,
    }

    impl fmt::Display for Refusal {
        fn fmt(&self, out: &mut fmt::Formatter) -> fmt::Result {
            write!(out, "refused with {}", self.number)?;
            match self.record {
                None => Ok(()),
                Some(record) => write!(out, ", open record {record}"),
            }
        }
    }

    pub struct Contents {
        pub items: usize,
        pub parameters: Parameters,
    }

    #[derive(Default)]
    pub struct Thresholds {
        pub lower: i64,
        pub upper: i64,
    }

    pub enum Ending {
        Converged,
        Stuck,
        Spent,
    }

    pub struct Trained {
        pub ending: Ending,
        pub steps: u32,
        pub thresholds: Thresholds,
    }

    pub enum Class {
        LookedUp,
        PassedOver,
        Undecided,
    }

    fn unless_refused<T>(answer: LookaheadAnswer, found: T) -> Result<T, Refusal> {
        let LookaheadAnswer { number, record } = answer;
        if number == 0 {
            return Ok(found);
        }
        Err(Refusal {
            number,
            record: Some(record).filter(|&record| record != 0),
        })
    }

    /// Fills the first places of the table with record numbers, one for each
    /// item, as far as there are places.
    pub fn read(file: &[u8], order: &mut [u16]) -> Result<Contents, Refusal> {
        // SAFETY: every pointer is a reference's, and comes with its slice's length.
        let reading =
            unsafe { lookahead_read(file.as_ptr(), file.len(), order.as_mut_ptr(), order.len()) };
        unless_refused(
            reading.answer,
            Contents {
                items: reading.items,
                parameters: reading.parameters,
            },
        )
    }

    /// Fills the first places of both lists, one for each item.
    pub fn train(
        file: &[u8],
        multipliers: &mut [u32],
        gradient: &mut [i64],
    ) -> Result<Trained, Refusal> {
        let (mut ending, mut steps) = (0, 0);
        let mut thresholds = Thresholds::default();
        // SAFETY: as in `read`.
        let answer = unsafe {
            lookahead_train(
                file.as_ptr(),
                file.len(),
                multipliers.as_mut_ptr(),
                multipliers.len(),
                gradient.as_mut_ptr(),
                gradient.len(),
                &mut ending,
                &mut steps,
                &mut thresholds.lower,
                &mut thresholds.upper,
            )
        };
        let ending = match ending {
            LOOKAHEAD_CONVERGED => Ending::Converged,
            LOOKAHEAD_STUCK => Ending::Stuck,
            _ => Ending::Spent,
        };
        unless_refused(
            answer,
            Trained {
                ending,
                steps,
                thresholds,
            },
        )
    }

    pub fn certify(file: &[u8], multipliers: &[u32]) -> Result<Thresholds, Refusal> {
        let mut thresholds = Thresholds::default();
        // SAFETY: as in `read`.
        let answer = unsafe {
            lookahead_certify(
                file.as_ptr(),
                file.len(),
                multipliers.as_ptr(),
                multipliers.len(),
                &mut thresholds.lower,
                &mut thresholds.upper,
            )
        };
        unless_refused(answer, thresholds)
    }

    pub fn classify(file: &[u8], multipliers: &[u32], word: &[i8]) -> Result<Class, Refusal> {
        let mut class = 0;
        // SAFETY: as in `read`.
        let answer = unsafe {
            lookahead_classify(
                file.as_ptr(),
                file.len(),
                multipliers.as_ptr(),
                multipliers.len(),
                word.as_ptr(),
                word.len(),
                &mut class,
            )
        };
        let class = match class {
            LOOKAHEAD_LOOKED_UP => Class::LookedUp,
            LOOKAHEAD_PASSED_OVER => Class::PassedOver,
            _ => Class::Undecided,
        };
        unless_refused(answer, class)
    }

    /// The length of the file, which the output's first bytes hold.
    pub fn write(
        parameters: Parameters,
        items: &[Item],
        output: &mut [u8],
    ) -> Result<usize, Refusal> {
        let mut length = 0;
        // SAFETY: as in `read`.
        let answer = unsafe {
            lookahead_write(
                parameters,
                items.as_ptr(),
                items.len(),
                output.as_mut_ptr(),
                output.len(),
                &mut length,
            )
        };
        unless_refused(answer, length)
    }

    /// The length of the file, which the output's first bytes hold.
    pub fn import(
        parameters: Parameters,
        text: &[u8],
        output: &mut [u8],
    ) -> Result<usize, Refusal> {
        let mut length = 0;
        // SAFETY: as in `read`.
        let answer = unsafe {
            lookahead_import(
                parameters,
                text.as_ptr(),
                text.len(),
                output.as_mut_ptr(),
                output.len(),
                &mut length,
            )
        };
        unless_refused(answer, length)
    }
}

use declared::{LOOKAHEAD_LINEAR, LOOKAHEAD_LOOKED_UP, LOOKAHEAD_PASSED_OVER, LOOKAHEAD_SQUARE};
use lookahead::{Class, Contents, Ending, Item, Parameters, Refusal, Thresholds};

/// Two items of one feature: 1 was looked up, -1 was passed over. They stand in
/// records 3 and 1; record 2 is spare.
fn small_file() -> Vec<u8> {
    let mut file = Vec::new();
    file.extend(3u16.to_le_bytes()); // records
    file.extend(3u16.to_le_bytes()); // the first record of the chain
    file.extend([1, LOOKAHEAD_LINEAR, 0, 0]); // one feature in use, the kernel, spare
    file.extend(10u32.to_le_bytes()); // grid units per 1
    file.extend(100u32.to_le_bytes()); // ceiling of items looked up
    file.extend(0u64.to_le_bytes()); // tolerance
    file.extend(50u32.to_le_bytes()); // step budget
    file.extend(0u32.to_le_bytes()); // that of items passed over: 0, the same
    file.extend(record(0, LOOKAHEAD_PASSED_OVER, -1));
    file.extend([0; 20]); // the spare record
    file.extend(record(1, LOOKAHEAD_LOOKED_UP, 1));
    file
}

/// A record with one feature: the next record's number, the label and the feature.
fn record(next: u16, label: u8, feature: i8) -> [u8; 20] {
    let mut record = [0; 20];
    record[..2].copy_from_slice(&next.to_le_bytes());
    record[2] = label;
    record[4] = feature as u8;
    record
}

/// Where a record begins; records are numbered from 1.
fn start(record: u16) -> usize {
    32 + 20 * (usize::from(record) - 1)
}

/// An item with one feature.
fn item(label: u8, feature: i8) -> Item {
    let mut features = [0; lookahead::FEATURES];
    features[0] = feature;
    Item {
        features,
        label: label as i8,
    }
}

/// The item of a record: bytes 4 to 19 and byte 2.
fn item_of(file: &[u8], record: u16) -> Item {
    let record = &file[start(record)..][..20];
    let mut item = item(record[2], 0);
    for (feature, &byte) in item.features.iter_mut().zip(&record[4..]) {
        *feature = byte as i8;
    }
    item
}

fn was_looked_up(file: &[u8], record: u16) -> bool {
    item_of(file, record).label == LOOKAHEAD_LOOKED_UP as i8
}

fn kernel_name(kernel: u8) -> &'static str {
    match kernel {
        LOOKAHEAD_LINEAR => "linear",
        LOOKAHEAD_SQUARE => "square",
        _ => "overlap",
    }
}

fn ending_name(ending: Ending) -> &'static str {
    match ending {
        Ending::Converged => "converged",
        Ending::Stuck => "stuck",
        Ending::Spent => "spent",
    }
}

/// A file, its parameters, its items' records and their multipliers.
struct Model<'a> {
    file: &'a [u8],
    parameters: Parameters,
    order: Vec<u16>,
    multipliers: Vec<u32>,
}

fn read(file: &[u8]) -> Result<Model<'_>, Refusal> {
    let mut order = vec![0; lookahead::MOST_ITEMS];
    let read = lookahead::read(file, &mut order)?;
    print_contents("read", &read);
    order.truncate(read.items);
    Ok(Model {
        file,
        parameters: read.parameters,
        order,
        multipliers: vec![0; read.items],
    })
}

fn train(model: &mut Model) -> Result<(), Refusal> {
    let mut gradient = vec![0; model.order.len()];
    let trained = lookahead::train(model.file, &mut model.multipliers, &mut gradient)?;
    let (ending, steps) = (ending_name(trained.ending), trained.steps);
    let unit = if steps == 1 { "step" } else { "steps" };
    println!("train: {ending} after {steps} {unit}");
    for (record, multiplier) in model.order.iter().zip(&model.multipliers) {
        println!("record {record}: multiplier {multiplier}");
    }
    print_total(model);
    let found = trained.thresholds;
    println!("thresholds: lower {}, upper {}", found.lower, found.upper);
    Ok(())
}

/// The sum of the items' ceilings: that of an item passed over is the second
/// ceiling, or the first where the second is 0.
fn sum_of_ceilings(model: &Model) -> u64 {
    let looked_up = model.parameters.ceiling;
    let passed_over = match model.parameters.second_ceiling {
        0 => looked_up,
        second => second,
    };
    let ceiling = |&record: &u16| match was_looked_up(model.file, record) {
        true => u64::from(looked_up),
        false => u64::from(passed_over),
    };
    model.order.iter().map(ceiling).sum()
}

/// By how much the best objective can be lower: at most the gap between the
/// thresholds times the sum of the items' ceilings. That can pass 64 bits, and
/// is worked out in two parts, high times 2^32 and low, which do not.
fn print_distance(ceilings: u64, found: &Thresholds) {
    let gap = (found.lower - found.upper).max(0) as u64;
    let mask = u64::from(u32::MAX);
    let low = ceilings * (gap & mask);
    let high = ceilings * (gap >> 32) + (low >> 32);
    let bound = match high {
        0..=0xffff_ffff => (high << 32 | (low & mask)).to_string(),
        _ => format!("{high} * 2^32 + {}", low & mask),
    };
    println!("distance from the best: at most {bound}");
}

fn print_certified(call: &str, model: &Model, multipliers: &[u32]) {
    match lookahead::certify(model.file, multipliers) {
        Ok(found) => {
            println!("{call}: lower {}, upper {}", found.lower, found.upper);
            print_distance(sum_of_ceilings(model), &found);
        }
        Err(refusal) => println!("{call}: {refusal}"),
    }
}

fn print_class(model: &Model, feature: i8) {
    match lookahead::classify(model.file, &model.multipliers, &[feature]) {
        Ok(Class::LookedUp) => println!("classify {feature}: looked up"),
        Ok(Class::PassedOver) => println!("classify {feature}: passed over"),
        Ok(Class::Undecided) => println!("classify {feature}: undecided"),
        Err(refusal) => println!("classify {feature}: {refusal}"),
    }
}

/// The last line of the training program's listing: how many multipliers are
/// above 0, and their sums over the items looked up and over those passed over,
/// which are equal.
fn print_total(model: &Model) {
    let sum = |looked_up: bool| -> u64 {
        let items = model.order.iter().zip(&model.multipliers);
        let of_label = items.filter(|item| was_looked_up(model.file, *item.0) == looked_up);
        of_label.map(|item| u64::from(*item.1)).sum()
    };
    let above_zero = model.multipliers.iter().filter(|&&a| a > 0).count();
    println!("total {above_zero} {} {}", sum(true), sum(false));
}

fn print_contents(call: &str, read: &Contents) {
    let (items, used) = (read.items, read.parameters.used);
    let kernel = kernel_name(read.parameters.kernel);
    println!("{call}: items {items}, features {used}, kernel {kernel}");
}

/// Reads the file with another next number in one of its records.
fn print_damaged(file: &[u8], record: u16, next: u16) {
    let mut damaged = file.to_vec();
    damaged[start(record)..][..2].copy_from_slice(&next.to_le_bytes());
    let call = format!("record {record} leads to {next}");
    match lookahead::read(&damaged, &mut []) {
        Ok(read) => print_contents(&call, &read),
        Err(refusal) => println!("{call}: {refusal}"),
    }
}

/// What a call wrote into the output: the length of the file, which is read and
/// trained on, or the refusal.
fn print_written(
    call: &str,
    written: Result<usize, Refusal>,
    output: &[u8],
) -> Result<(), Refusal> {
    match written {
        Ok(length) => {
            println!("{call}: length {length}");
            train(&mut read(&output[..length])?)
        }
        Err(refusal) => {
            println!("{call}: {refusal}");
            Ok(())
        }
    }
}

/// Writes into so many bytes, and where that is not refused, trains on what was
/// written.
fn write_file(
    call: &str,
    parameters: Parameters,
    items: &[Item],
    bytes: usize,
) -> Result<(), Refusal> {
    let mut output = vec![0; bytes];
    let written = lookahead::write(parameters, items, &mut output);
    print_written(call, written, &output)
}

/// The same two items in memory, with the parameters of a file.
fn write_items(parameters: Parameters) -> Result<(), Refusal> {
    let items = [
        item(LOOKAHEAD_LOOKED_UP, 1),
        item(LOOKAHEAD_PASSED_OVER, -1),
    ];
    write_file("write", parameters, &items, lookahead::MOST_FILE)?;
    write_file("write into 71 bytes", parameters, &items, 71)
}

/// The items of a file that was read, with another budget.
fn write_with_no_budget(model: &Model) -> Result<(), Refusal> {
    let items: Vec<Item> = model
        .order
        .iter()
        .map(|&record| item_of(model.file, record))
        .collect();
    let parameters = Parameters {
        budget: 0,
        ..model.parameters
    };
    write_file(
        "write with budget 0",
        parameters,
        &items,
        lookahead::MOST_FILE,
    )
}

/// Imports a text, and where that is not refused, trains on what was written.
fn import_text(call: &str, parameters: Parameters, text: &str) -> Result<(), Refusal> {
    let mut output = [0; lookahead::MOST_FILE];
    let written = lookahead::import(parameters, text.as_bytes(), &mut output);
    print_written(call, written, &output)
}

/// Three items of three features: two were looked up, one was passed over. A
/// feature that a line leaves out is 0. The second text has a fraction, which
/// LIBSVM takes and importing does not.
fn import_texts() -> Result<(), Refusal> {
    let parameters = Parameters {
        used: 3,
        kernel: LOOKAHEAD_LINEAR,
        grid: 100,
        ceiling: 1000,
        second_ceiling: 0,
        tolerance: 0,
        budget: 50,
    };
    import_text("import", parameters, "+1 1:3 3:-4\n+1 2:5\n-1\n")?;
    import_text("import with a fraction", parameters, "+1 1:0.5\n-1\n")
}

fn main() -> Result<(), Refusal> {
    let file = small_file();
    let mut model = read(&file)?;
    train(&mut model)?;
    print_certified("certify", &model, &model.multipliers);
    print_certified("certify 0 0", &model, &[0, 0]);
    print_class(&model, 3);
    print_class(&model, 0);
    print_class(&model, 127);
    print_class(&model, -127);
    print_class(&model, -128);
    print_certified("certify 5 4", &model, &[5, 4]);
    print_damaged(&file, 1, 3);
    print_damaged(&file, 3, 4);
    write_items(model.parameters)?;
    write_with_no_budget(&model)?;
    import_texts()
}
