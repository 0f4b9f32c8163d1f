//! A training file before it is laid out in bytes.

use super::random::Random;
use crate::file::{record_start, HIGHEST_FEATURE, LOWEST_FEATURE, RECORD_BYTES};
use crate::write::{header, record, Numbers, Row, LABEL};

/// Label bytes of the file.
pub const LOOKED_UP: u8 = 1;
pub const PASSED_OVER: u8 = 2;

/// Kernel bytes of the file.
pub const LINEAR: u8 = 0;
pub const SQUARE: u8 = 1;
pub const OVERLAP: u8 = 2;

/// The one signed byte that no feature may be.
pub const NO_FEATURE: i8 = -128;

pub fn any_feature(random: &mut Random) -> i8 {
    random.between(LOWEST_FEATURE.into(), HIGHEST_FEATURE.into()) as i8
}

#[derive(Clone, Debug)]
pub struct Draft {
    /// d.
    pub features: u8,
    pub kernel: u8,
    /// S.
    pub units: u32,
    /// c.
    pub ceiling: u32,
    /// t.
    pub tolerance: u64,
    pub budget: u32,
    /// The second ceiling, 0 for the same as c.
    pub second_ceiling: u32,
    /// Label byte and features, in chain order.
    pub items: Vec<(u8, Vec<i8>)>,
}

impl Draft {
    /// Items stored as records 1 to n in chain order, without spares.
    pub fn plain(&self) -> Vec<u8> {
        let places: Vec<usize> = (1..=self.items.len()).collect();
        self.stored(&places, vec![0; RECORD_BYTES * places.len()])
    }

    /// Items stored in the records that `places` names, in chain order; the
    /// other records keep the bytes of `records`.
    pub fn stored(&self, places: &[usize], records: Vec<u8>) -> Vec<u8> {
        let first = places.first().copied().unwrap_or(0);
        let stored = records.len() / RECORD_BYTES;
        let mut file = header(&self.numbers(), stored, first).to_vec();
        file.extend(records);
        for (position, (row, &place)) in self.rows().iter().zip(places).enumerate() {
            let next = places.get(position + 1).copied().unwrap_or(0);
            let start = record_start(place);
            file[start..start + RECORD_BYTES].copy_from_slice(&record(row, next));
        }
        file
    }

    /// The parameters as a caller hands them over.
    pub fn numbers(&self) -> Numbers {
        Numbers {
            used: self.features.into(),
            kernel: self.kernel,
            grid: self.units,
            ceiling: self.ceiling,
            second_ceiling: self.second_ceiling,
            tolerance: self.tolerance,
            budget: self.budget,
        }
    }

    /// The items as a caller hands them over.
    pub fn rows(&self) -> Vec<Row> {
        let row = |(label, features): &(u8, Vec<i8>)| {
            let mut row = [0; LABEL + 1];
            row[..features.len()].copy_from_slice(features);
            row[LABEL] = *label as i8;
            row
        };
        self.items.iter().map(row).collect()
    }
}
