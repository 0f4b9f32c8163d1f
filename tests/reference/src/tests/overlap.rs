//! Document 02, request (i): the overlap.

use crate::examples::largest_overlap;
use crate::file::read;
use crate::generate::draft::{any_feature, Draft};
use crate::generate::{any_file, multipliers, Random};
use crate::gradient::{gradient, objective};
use crate::kernel::{table, Kernel};
use crate::run;
use crate::settled::p1;
use crate::training::Ending;

/// "The header's kernel byte now allows 2 as well", and no other.
#[test]
fn every_kernel_byte() {
    for kernel in 0..=255 {
        let read = read(&Draft { kernel, ..p1() }.plain());
        let found = read.map(|problem| problem.parameters.kernel);
        let expected = Kernel::ALL.get(usize::from(kernel)).copied();
        assert_eq!(found, expected.ok_or_else(|| 2.into()));
    }
}

/// "the sum over the first d features of the smaller of the two values, each
/// first raised by 127"
#[test]
fn overlaps_by_hand() {
    for (x, z, value) in [
        (vec![127], vec![127], 254),
        (vec![127], vec![-127], 0),
        (vec![-127], vec![-127], 0),
        (vec![1], vec![-1], 126),
        (vec![0, 0, 0], vec![5, -5, 0], 127 + 122 + 127),
        (vec![-100, 100], vec![99, -126], 27 + 1),
        (vec![127; 16], vec![127; 16], 16 * 254),
    ] {
        assert_eq!(Kernel::Overlap.value(&x, &z), value);
        assert_eq!(Kernel::Overlap.value(&z, &x), value);
    }
}

/// η of the overlap is the sum of the distances, feature by feature.
#[test]
fn eta_of_the_overlap_is_a_sum_of_distances() {
    let random = &mut Random::new(5);
    for features in (1..=16).cycle().take(2_000) {
        let mut draw = || -> Vec<i8> { (0..features).map(|_| any_feature(random)).collect() };
        let (x, z) = (draw(), draw());
        let distance = |(&x, &z): (&i8, &i8)| i128::from((i32::from(x) - i32::from(z)).abs());
        let distances: i128 = x.iter().zip(&z).map(distance).sum();
        assert_eq!(Kernel::Overlap.eta(&x, &z), distances);
    }
}

/// So a comparison cannot tell a raise by 127 from another raise.
#[test]
fn a_number_added_to_all_kernel_values_changes_neither_g_nor_d() {
    let random = &mut Random::new(6);
    for _ in 0..300 {
        let problem = match read(&any_file(random)) {
            Ok(problem) => problem,
            Err(_) => continue,
        };
        let kernels = table(&problem);
        let mut raised = kernels.clone();
        raised.iter_mut().flatten().for_each(|value| *value += 127);
        let a = multipliers::feasible(&problem, random);
        let a: Vec<i128> = a.into_iter().map(i128::from).collect();
        let both = [&kernels, &raised];
        let [g, g_raised] = both.map(|table| gradient(&problem, table, &a));
        let [d, d_raised] = both.map(|table| objective(&problem, table, &a));
        assert_eq!((g, d), (g_raised, d_raised));
    }
}

#[test]
fn the_most_items_with_the_overlap() {
    let run = run(&read(&largest_overlap().plain()).expect("accepted"));
    let fallback = run.steps.iter().filter(|step| step.pair.fallback);
    assert_eq!((run.ending, run.steps.len()), (Ending::Stuck, 131));
    assert_eq!(fallback.count(), 3);
}
