//! G and the objective D from their definitions: document 01, "Grid definitions".

use crate::file::Problem;
use crate::kernel::Table;

/// G_i = sum over j of a_j × y_j × K_ij, minus S × y_i.
pub fn gradient(problem: &Problem, kernels: &Table, multipliers: &[i128]) -> Vec<i128> {
    (0..problem.items.len())
        .map(|i| component(problem, kernels, multipliers, i))
        .collect()
}

fn component(problem: &Problem, kernels: &Table, multipliers: &[i128], i: usize) -> i128 {
    let items = &problem.items;
    let sum: i128 = (0..items.len())
        .map(|j| multipliers[j] * items[j].label.sign() * kernels[i][j])
        .sum();
    sum - problem.parameters.units * items[i].label.sign()
}

/// D = sum over i, j of a_i × a_j × y_i × y_j × K_ij, minus 2 × S × the sum of a_i.
pub fn objective(problem: &Problem, kernels: &Table, multipliers: &[i128]) -> i128 {
    let signed: Vec<i128> = problem
        .items
        .iter()
        .zip(multipliers)
        .map(|(item, a)| item.label.sign() * a)
        .collect();
    let mut double_sum = 0;
    for i in 0..signed.len() {
        for j in 0..signed.len() {
            double_sum += signed[i] * signed[j] * kernels[i][j];
        }
    }
    double_sum - 2 * problem.parameters.units * multipliers.iter().sum::<i128>()
}
