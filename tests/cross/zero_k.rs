//! A K of 0, of each calendar month: alone, several at once, and with every other fault of a start and of a run. And zeros
//! elsewhere, which are values.

use crate::add::Add;
use crate::all_calls::all_calls;
use crate::card::Reading;
use crate::check::Check;
use crate::lists::{Fill, Lists};
use crate::runs::{any_good_run, good_constants, length_faults, run_faults, MOST};

/// Where the K of a calendar month, counted from 0, stands among the sixty.
fn place(month: usize) -> usize {
    5 * month + 4
}

pub fn zero_k(c: &mut Check) {
    starts(c);
    starts_with_faults(c);
    runs(c);
    zeros_elsewhere(c);
    put_right(c);
}

/// Every choice of the twelve.
fn starts(c: &mut Check) {
    c.kind("zero K, starts");
    let good = good_constants(&mut c.random);
    for zeros in 0..1u32 << 12 {
        let mut constants = good.clone();
        (0..12).filter(|month| zeros >> month & 1 == 1).for_each(|month| constants[place(month)] = 0);
        let number = c.start(&constants, [6_000, 500, 3_000, 7]).number;
        assert_eq!(number, if zeros == 0 { 0 } else { 21 });
    }
}

/// Each of the twelve with any of a start's other faults together, and with each constant out of its range.
fn starts_with_faults(c: &mut Check) {
    c.kind("zero K, starts with other faults");
    for month in 0..12 {
        let mut zero = good_constants(&mut c.random);
        zero[place(month)] = 0;
        for faults in 0..1u32 << 5 {
            let has = |fault: u32| faults >> fault & 1 == 1;
            let capacity = if has(0) { 99 } else { 100 };
            let surface = if has(1) { 101 } else { 100 };
            let underlying = if has(2) { 1 } else { 0 };
            let start_month = if has(3) { 13 } else { 12 };
            let soil = [capacity, surface, underlying, start_month];
            let lengths = if has(4) { vec![0, 1, 59, 61, 65] } else { vec![60] };
            for length in lengths {
                let list: Vec<i32> = zero.iter().cycle().take(length).copied().collect();
                let number = c.start(&list, soil).number;
                assert_eq!(number, if length == 60 { 21 } else { 2 });
            }
            for at in (0..60).filter(|&at| at != place(month)) {
                for value in [i32::MIN, -1, MOST[at % 5] + 1, i32::MAX] {
                    let mut constants = zero.clone();
                    constants[at] = value;
                    assert_eq!(c.start(&constants, soil).number, 3);
                }
            }
        }
    }
}

/// In a run, with columns of good and of other lengths, and with each of a run's other faults: every call.
fn runs(c: &mut Check) {
    c.kind("zero K, runs");
    let mut good = any_good_run(&mut c.random, 3);
    (good.months, good.opens, good.values.v) = (3, 1, 0);
    for lengths in length_faults() {
        let mut lists = Lists::new(&mut c.random, lengths, Fill::AnyBits);
        for run in run_faults(&good) {
            for month in 0..12 {
                let mut spoiled = run;
                spoiled.constants[place(month)] = 0;
                all_calls(c, &spoiled, &mut lists);
            }
        }
    }
}

/// "3 still allows it": each of the others at 0, one by one and all together beside a K of 1, at a start and in a month.
fn zeros_elsewhere(c: &mut Check) {
    c.kind("zeros that are no K");
    let mut lists = Lists::new(&mut c.random, [2; 7], Fill::AnyBits);
    let one: Vec<Vec<i32>> = (0..60)
        .filter(|at| at % 5 != 4)
        .map(|at| {
            let mut constants = good_constants(&mut c.random);
            constants[at] = 0;
            constants
        })
        .collect();
    for constants in one.into_iter().chain([[0, 0, 0, 0, 1].repeat(12)]) {
        for month in 1..=12 {
            let started = c.start(&constants, [6_000, 500, 3_000, month]);
            assert_eq!(started.number, 0);
            c.add(Add::Water(Reading::whole(2_500), Reading::whole(700)), &started.run, &mut lists);
        }
    }
}

/// What a holder does whose card has such a run: nothing is shown of it until a K is put in, and then all of it as before.
fn put_right(c: &mut Check) {
    c.kind("zero K, put right");
    for month in 0..12 {
        let mut lists = Lists::new(&mut c.random, [30; 7], Fill::AnyBits);
        let constants = good_constants(&mut c.random);
        let mut run = c.start(&constants, [6_000, 500, 3_000, 7]).run;
        for z in [-9_000, -50, 300, 10, 2_000] {
            run = c.add(Add::Z(z), &run, &mut lists).run;
        }
        let mut spoiled = run;
        spoiled.constants[place(month)] = 0;
        all_calls(c, &spoiled, &mut lists);
        spoiled.constants[place(month)] = constants[place(month)];
        assert_eq!(spoiled, run);
        all_calls(c, &spoiled, &mut lists);
    }
}
