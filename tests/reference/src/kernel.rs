//! The three kernels: document 01, "Grid definitions", and document 02, request
//! (i), the overlap.

use crate::file::Problem;

#[derive(Clone, Copy, PartialEq, Eq, Debug)]
pub enum Kernel {
    Linear,
    Square,
    Overlap,
}

/// What the overlap raises every feature by.
const RAISE: i32 = 127;

impl Kernel {
    pub const ALL: [Kernel; 3] = [Kernel::Linear, Kernel::Square, Kernel::Overlap];

    /// The kernel that a header's byte names: "0 linear, 1 square", and "the
    /// header's kernel byte now allows 2 as well".
    pub fn numbered(number: u64) -> Option<Kernel> {
        match number {
            0 => Some(Kernel::Linear),
            1 => Some(Kernel::Square),
            2 => Some(Kernel::Overlap),
            _ => None,
        }
    }

    /// K of two lists of d features. Linear: the sum of products. Square: that
    /// sum plus 1, squared. Overlap: "the sum over the first d features of the
    /// smaller of the two values, each first raised by 127".
    pub fn value(self, left: &[i8], right: &[i8]) -> i128 {
        match self {
            Kernel::Linear => products(left, right),
            Kernel::Square => (products(left, right) + 1).pow(2),
            Kernel::Overlap => sum(left, right, |l, r| (l + RAISE).min(r + RAISE)),
        }
    }

    /// η of two lists of features.
    pub fn eta(self, x: &[i8], z: &[i8]) -> i128 {
        self.value(x, x) + self.value(z, z) - 2 * self.value(x, z)
    }
}

fn products(left: &[i8], right: &[i8]) -> i128 {
    sum(left, right, |l, r| l * r)
}

/// The sum, over the places of two lists, of what the features there give.
fn sum(left: &[i8], right: &[i8], gives: impl Fn(i32, i32) -> i32) -> i128 {
    let places = left.iter().zip(right);
    places
        .map(|(&l, &r)| i128::from(gives(l.into(), r.into())))
        .sum()
}

/// K_ij for all items. The values never change during a training, so they are
/// worked out once; everything that depends on multipliers is worked out anew.
pub type Table = Vec<Vec<i128>>;

pub fn table(problem: &Problem) -> Table {
    let kernel = problem.parameters.kernel;
    let row = |i: usize| {
        problem
            .items
            .iter()
            .map(|other| kernel.value(&problem.items[i].features, &other.features))
            .collect()
    };
    (0..problem.items.len()).map(row).collect()
}

/// η = K_ii + K_jj − 2 × K_ij.
pub fn eta(kernels: &Table, i: usize, j: usize) -> i128 {
    kernels[i][i] + kernels[j][j] - 2 * kernels[i][j]
}
