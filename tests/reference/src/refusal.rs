//! Refusals: document 01, "Refusals by the party who can cause them", and
//! document 02, request (k).

use std::fmt;

/// A number, and for the two chain faults, 3 and 16, "the number of the record
/// whose next field is at fault".
#[derive(Clone, Copy, PartialEq, Eq, Debug)]
pub struct Refusal {
    pub number: u8,
    pub record: Option<u16>,
}

impl Refusal {
    pub fn with_record(number: u8, record: usize) -> Refusal {
        let record = record.try_into().expect("m is at most 256");
        Refusal {
            number,
            record: Some(record),
        }
    }
}

/// "Other refusals carry none": they are made of their number alone.
impl From<u8> for Refusal {
    fn from(number: u8) -> Refusal {
        let record = None;
        Refusal { number, record }
    }
}

/// "The program prints a space and the record after the number."
impl fmt::Display for Refusal {
    fn fmt(&self, out: &mut fmt::Formatter) -> fmt::Result {
        match self.record {
            None => write!(out, "{}", self.number),
            Some(record) => write!(out, "{} {record}", self.number),
        }
    }
}
