//! The cases that are run only, every cause of a refusal, what is printed, and how
//! often words on the line are drawn.

mod ceilings;
mod chains;
mod import;
mod overlap;
mod pool;
mod pooling_samples;
mod samples;
mod settled;
mod settled_pools;
mod write;

use crate::cases::{Drawn, GROUPS};
use crate::examples::*;
use crate::file::{read, MOST_RECORDS};
use crate::generate::draft::{any_feature, Draft, LOOKED_UP, PASSED_OVER};
use crate::generate::mirror::Mirror;
use crate::generate::{any_file, causes, importing, multipliers, pooling, words, writing, Random};
use crate::kernel::Kernel;
use crate::settled::{f2, i1, p1, p3, p8, p9};
use crate::training::{Ending, Trained};
use crate::{certify, classify, contents, listing, train, Class, Contents, Refusal};

/// Calls of importing and of pooling beside each file, as many as the comparison draws.
const IMPORTS: u64 = 3;
const POOLS: u64 = 3;

/// Trains into lists of just n places.
fn trained(draft: &Draft) -> (Trained, Vec<u32>, Vec<i64>) {
    let mut multipliers = vec![9; draft.items.len()];
    let mut gradient = vec![9; draft.items.len()];
    let result = train(&draft.plain(), &mut multipliers, &mut gradient).expect("accepted");
    (result, multipliers, gradient)
}

/// A random file, with a list, a word, what is to be written, what is to be imported
/// and what is to be pooled as a caller hands them in.
fn drawn(number: u64) -> Drawn {
    let random = &mut Random::numbered(1, number);
    let mut drawn = Drawn::of(any_file(random));
    let multipliers = multipliers::handed_in(drawn.problem(), &drawn.trained(), random);
    let word = words::handed_in(drawn.problem(), &multipliers, random);
    drawn.certify(multipliers.clone());
    drawn.classify(multipliers, word);
    drawn.write(writing::handed_in(random));
    (0..IMPORTS).for_each(|_| drawn.import(importing::handed_in(random)));
    (0..POOLS).for_each(|_| drawn.pool(pooling::handed_in(random)));
    drawn
}

/// A comparison that hardly meets a case shows little of it.
#[test]
fn every_frequent_case_is_one_file_in_two_hundred() {
    const FILES: u64 = 2_000;
    let drawn: Vec<Drawn> = (0..FILES).map(drawn).collect();
    for group in GROUPS.iter().filter(|group| group.frequent) {
        for (name, shows) in group.cases {
            let count: usize = drawn.iter().map(|drawn| shows.count(drawn)).sum();
            let often = 200 * count as u64 >= FILES;
            assert!(often, "{}: {name}: {count} of {FILES}", group.name);
        }
    }
}

/// A comparison that hardly meets a score of exactly 0 shows little.
#[test]
fn one_word_in_fifty_is_on_a_line() {
    const WORDS: u64 = 1_000;
    let on_a_line = |drawn: &Drawn| drawn.words[0].on_a_line;
    let counted = (0..WORDS).map(drawn).filter(on_a_line).count() as u64;
    assert!(50 * counted >= WORDS, "{counted} of {WORDS}");
}

/// A mirror is its own inverse, keeps η of any two with every kernel, and gives
/// words that are their own image.
#[test]
fn mirrors_reflect() {
    let random = &mut Random::new(7);
    for features in 1..=16 {
        for _ in 0..20 {
            let mirror = Mirror::draw(random, features);
            let mut draw = || -> Vec<i8> { (0..features).map(|_| any_feature(random)).collect() };
            let (x, z) = (draw(), draw());
            assert_eq!(mirror.image(&mirror.image(&x)), x);
            for kernel in Kernel::ALL {
                let images = kernel.eta(&mirror.image(&x), &mirror.image(&z));
                assert_eq!(images, kernel.eta(&x, &z));
            }
            let own = mirror.own_image(&x);
            assert_eq!(mirror.image(&own), own);
        }
    }
}

#[test]
fn the_example_prints_as_settled() {
    assert_eq!(
        listing(&three_records()),
        "converged 1 0 0\n3 + 5\n1 - 5\ntotal 2 5 5\n"
    );
    assert_eq!(
        listing(&p3().plain()),
        "stuck 0 1 -1\n1 + 0\n2 - 0\ntotal 0 0 0\n"
    );
    let p6 = Draft { budget: 0, ..p1() };
    assert_eq!(
        listing(&p6.plain()),
        "spent 0 10 -10\n1 + 0\n2 - 0\ntotal 0 0 0\n"
    );
    assert_eq!(
        listing(&p9().plain()),
        "converged 1 1 1\n1 + 2\n2 - 0\n3 - 2\ntotal 2 2 2\n"
    );
    assert_eq!(listing(&[]), "refused 1\n");
}

#[test]
fn the_largest_totals() {
    let printed = listing(&largest_totals().plain());
    assert!(printed.starts_with("converged 128 -10 10\n1 + 65536\n2 - 65536\n"));
    assert!(printed.ends_with("\n256 - 65536\ntotal 256 8388608 8388608\n"));
}

/// "These are the sums of the printed lines, and the two sums are equal for any
/// ending": added up from what is printed alone.
fn assert_adds_up(printed: &str) {
    let lines: Vec<&str> = printed.lines().collect();
    let (total, rest) = lines.split_last().expect("a total");
    let items = rest[1..].iter().map(|line| line.split(' ').collect());
    let items: Vec<Vec<&str>> = items.collect();
    let multiplier = |line: &Vec<&str>| line[2].parse::<u64>().expect("a number");
    let sum = |label| -> u64 {
        let labelled = items.iter().filter(|line| line[1] == label);
        labelled.map(multiplier).sum()
    };
    let above_zero = items.iter().filter(|line| multiplier(line) > 0).count();
    let [plus, minus] = ["+", "-"].map(sum);
    assert_eq!(*total, format!("total {above_zero} {plus} {minus}"));
    assert_eq!(plus, minus);
}

#[test]
fn a_listing_adds_up_and_a_refusal_is_one_line() {
    for number in 0..300 {
        let file = any_file(&mut Random::numbered(1, number));
        let printed = listing(&file);
        match read(&file) {
            Ok(_) => assert_adds_up(&printed),
            Err(Refusal { number, record }) => {
                assert_eq!(record.is_some(), [3, 16].contains(&number));
                let after = record.map_or(String::new(), |record| format!(" {record}"));
                assert_eq!(printed, format!("refused {number}{after}\n"));
            }
        }
    }
}

#[test]
fn reading_gives_the_order_as_far_as_the_table_goes() {
    let both_items = Contents {
        items: 2,
        parameters: p1().numbers(),
    };
    for (places, left) in [
        (0, [9, 9, 9]),
        (1, [3, 9, 9]),
        (2, [3, 1, 9]),
        (3, [3, 1, 9]),
    ] {
        let mut order = [9; 3];
        let found = contents(&three_records(), &mut order[..places]);
        assert_eq!(found, Ok(both_items));
        assert_eq!(order, left);
    }
    for draft in [p8(), i1(), f2(), long_run()] {
        let read = contents(&draft.plain(), &mut []).expect("accepted");
        assert_eq!(read.parameters, draft.numbers());
    }
}

#[test]
fn reading_leaves_the_table_alone_where_it_refuses() {
    for (refusal, file) in causes(&mut Random::new(0)) {
        let mut order = [9; MOST_RECORDS];
        assert_eq!(contents(&file, &mut order), Err(refusal));
        assert_eq!(order, [9; MOST_RECORDS]);
    }
}

#[test]
fn files_of_31_and_32_bytes() {
    let empty = Draft {
        items: Vec::new(),
        ..p1()
    }
    .plain();
    assert_eq!(empty.len(), 32);
    assert_eq!(read(&empty).err(), Some(5.into()));
    assert_eq!(read(&empty[..31]).err(), Some(1.into()));
}

#[test]
fn records_256_and_257() {
    let alternating = |n| Draft {
        items: by_turns(n, |i| (i % 7) as i8 - 3),
        ..p1()
    };
    let most = alternating(MOST_RECORDS);
    assert_eq!(trained(&most).1.len(), MOST_RECORDS);
    assert_eq!(
        read(&alternating(MOST_RECORDS + 1).plain()).err(),
        Some(1.into())
    );
}

#[test]
fn features_at_the_ends() {
    let with = |feature| {
        Draft {
            items: vec![(LOOKED_UP, vec![feature]), (PASSED_OVER, vec![1])],
            ..p1()
        }
        .plain()
    };
    assert!(read(&with(127)).is_ok() && read(&with(-127)).is_ok());
    assert_eq!(read(&with(-128)).err(), Some(4.into()));
    let word = |feature| classify(&p1().plain(), &[5, 5], &[feature]);
    assert_eq!(
        [word(127), word(-127)],
        [Ok(Class::LookedUp), Ok(Class::PassedOver)]
    );
    assert_eq!(word(-128), Err(9.into()));
}

#[test]
fn a_long_run_counts_its_steps() {
    let (result, _, _) = trained(&long_run());
    assert_eq!((result.ending, result.steps), (Ending::Converged, 70_880));
}

#[test]
fn every_cause_draws_its_refusal() {
    for seed in 0..20 {
        for (refusal, file) in causes(&mut Random::new(seed)) {
            assert_eq!(read(&file).err(), Some(refusal), "{file:?}");
        }
    }
}

#[test]
fn a_refusal_changes_nothing_and_later_places_stay() {
    let file = p1().plain();
    let (mut multipliers, mut gradient) = ([7; 4], [8; 3]);
    assert_eq!(
        train(&file, &mut multipliers[..1], &mut gradient),
        Err(6.into())
    );
    assert_eq!(
        train(&file, &mut multipliers, &mut gradient[..1]),
        Err(6.into())
    );
    assert_eq!(
        train(&file[..40], &mut multipliers, &mut gradient),
        Err(1.into())
    );
    assert_eq!((multipliers, gradient), ([7; 4], [8; 3]));
    assert!(train(&file, &mut multipliers, &mut gradient).is_ok());
    assert_eq!((multipliers, gradient), ([5, 5, 7, 7], [0, 0, 8]));
}

/// "The first refusal met ends the call": the caller's by rising number, after the file's.
#[test]
fn refusals_of_the_caller_come_in_order() {
    let file = p1().plain();
    let one_sided = Draft {
        items: vec![(LOOKED_UP, vec![1])],
        ..p1()
    }
    .plain();
    assert_eq!(certify(&one_sided, &[]), Err(5.into()));
    assert_eq!(certify(&file, &[101]), Err(6.into()));
    assert_eq!(certify(&file, &[1, 101]), Err(7.into()));
    assert_eq!(certify(&file, &[u32::MAX, u32::MAX]), Err(7.into()));
    assert_eq!(classify(&file, &[101, 0], &[-128, -128]), Err(6.into()));
    assert_eq!(classify(&file, &[101, 0], &[]), Err(6.into()));
    assert_eq!(classify(&file, &[101, 0], &[-128]), Err(7.into()));
    assert_eq!(classify(&file, &[1, 0], &[-128]), Err(8.into()));
    assert_eq!(classify(&file, &[1, 1], &[-128]), Err(9.into()));
}
