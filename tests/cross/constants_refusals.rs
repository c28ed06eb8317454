//! What card_sum_month and card_work_out refuse: every fault beside every other, weights of every length and at their ends,
//! calendar months near and far, lengths of the columns, and runs spoiled in each field.

use crate::card::{Record, Run};
use crate::check::Check;
use crate::constants_exact::{full_years, list, with_departures};
use crate::constants_rows::{given, of_rows};
use crate::lists::{Fill, Lists, Seven};
use crate::random::Random;
use crate::reference::MOST_MONTHS;
use crate::runs::{any_good_run, length_faults, limits, set_field, FIELDS, NO_RUN};

pub fn refusals(c: &mut Check) {
    order(c);
    weights(c);
    months(c);
    lengths(c);
    spoiled_runs(c);
}

fn first_of(refused: &[u8]) -> u8 {
    refused.iter().copied().find(|number| *number != 0).unwrap_or(0)
}

// ---- The order ---------------------------------------------------------------------------------------------

/// Each fault of the columns' lengths, none first.
fn cut(seven: &mut Seven, fault: usize) -> u8 {
    match fault {
        0 => return 0,
        1 => drop(seven.numbers[0].pop()),
        2 => drop(seven.mark.pop()),
        3 => drop(seven.records.pop()),
        _ => drop(seven.v.pop()),
    }
    1
}

/// Each fault of the run or of a row, none first.
fn spoil(run: &mut Run, seven: &mut Seven, fault: usize) -> u8 {
    let k = seven.lend();
    match fault {
        0 => return 0,
        1 => run.calendar = 13,
        2 => run.months = 121,
        3 => run.constants[4] = 0,
        4 => run.soil.surface ^= 1,
        5 => k.records[1].et += 1,
        _ => k.records[run.months as usize - 2].p = -1,
    }
    7
}

/// Each fault of the years, none first: a month too few, and a row without water, in the first month or in the last.
fn shorten(run: &mut Run, seven: &mut Seven, fault: usize) -> u8 {
    let records = seven.lend().records;
    match fault {
        0 => return 0,
        1 => {
            run.months -= 1;
            run.calendar = 12;
        }
        2 => records[0].water = 0,
        _ => records[run.months as usize - 1].water = 2,
    }
    18
}

/// Months and weights with each fault of what they come to, none first, some with a second one, and the number of the first.
fn found(c: &mut Check, fault: usize) -> (Run, Lists, [i32; 12], u8) {
    let large = |year: usize, month: usize| match month {
        7 => 50_001,
        _ => 4_000 + [300, -300][year % 2],
    };
    let same = |_: usize, month: usize| if month == 7 { 50_001 } else { 4_000 };
    let ((run, lists), weights, number) = match fault {
        0 => (with_departures(c, &[300; 12]), [10_000; 12], 0),
        1 => (full_years(c, 10_000, large), [10_000; 12], 19),
        2 => (full_years(c, 10_000, same), [10_000; 12], 19),
        3 => (full_years(c, 10_000, large), list(10_000, &[(3, 0)]), 19),
        4 => (with_departures(c, &[0; 12]), [10_000; 12], 20),
        5 => (with_departures(c, &[100; 12]), [10_000; 12], 20),
        6 => (with_departures(c, &[100; 12]), list(10_000, &[(0, 0)]), 20),
        7 => (with_departures(c, &[100; 12]), list(10_000, &[(11, 0)]), 20),
        8 => (with_departures(c, &[300; 12]), list(10_000, &[(0, 0)]), 21),
        _ => (with_departures(c, &[3_000; 12]), list(100_000, &[(11, 1)]), 21),
    };
    (run, lists, weights, number)
}

/// Each fault of the weights, none first.
fn unweigh(weights: &[i32; 12], fault: usize) -> (Vec<i32>, u8) {
    let mut weights = weights.to_vec();
    match fault {
        1 => weights.truncate(11),
        2 => weights.push(-1),
        3 => weights[0] = -1,
        4 => weights[11] = 100_001,
        _ => {}
    }
    (weights, [0, 2, 2, 3, 3][fault])
}

/// "1, 7, 6, 18" and "1, 7, 2, 3, 18, 19, 20, 21": each with each of those after it.
fn order(c: &mut Check) {
    c.kind("several refusals, constants");
    for of_months in 0..10 {
        let (good, lists, weights, of_months) = found(c, of_months);
        for of_lists in 0..5 {
            for of_run in 0..7 {
                for of_years in 0..4 {
                    let (mut run, mut seven) = (good, lists.expected.clone());
                    let too_few = shorten(&mut run, &mut seven, of_years);
                    let no_run = spoil(&mut run, &mut seven, of_run);
                    let misfit = cut(&mut seven, of_lists);
                    let mut lists = Lists::of(seven);
                    for (month, of_month) in [(1, 0), (12, 0), (0, 6), (13, 6), (i32::MIN, 6)] {
                        let wanted = first_of(&[misfit, no_run, of_month, too_few]);
                        c.expect_sum(&run, month, &mut lists, wanted);
                    }
                    for fault in 0..5 {
                        let (weights, of_weights) = unweigh(&weights, fault);
                        let wanted = first_of(&[misfit, no_run, of_weights, too_few, of_months]);
                        c.expect_work(&run, &weights, &mut lists, wanted);
                    }
                }
            }
        }
    }
}

// ---- Weights and calendar months ---------------------------------------------------------------------------

/// Weights of every length to 14 and some longer, all equal; and each of twelve at its ends and past them.
fn weights(c: &mut Check) {
    c.kind("constants, weights");
    let (run, mut lists) = with_departures(c, &[300; 12]);
    for length in (0..15).chain([24, 59, 60, 61, 120, 12 + (1 << 8), 12 + (1 << 16)]) {
        for (weight, number) in [(0, 20), (1, 0), (10_000, 0), (100_000, 0), (100_001, 3), (-1, 3)] {
            let wanted = if length == 12 { number } else { 2 };
            c.expect_work(&run, &vec![weight; length], &mut lists, wanted);
        }
    }
    let out = [i32::MIN, i32::MIN + 1, -0x1_0000, -100_000, -1, 100_001, 0x1_0000 + 100_000, i32::MAX];
    for place in 0..12 {
        for weight in out {
            c.expect_work(&run, &list(10_000, &[(place, weight)]), &mut lists, 3);
            c.expect_work(&run, &list(-1, &[(place, weight.clamp(0, 100_000))]), &mut lists, 3);
        }
        for weight in [0, 1, 2, 99_999, 100_000] {
            c.work_out(&run, &list(10_000, &[(place, weight)]), &mut lists);
            c.work_out(&run, &list(100_000, &[(place, weight)]), &mut lists);
        }
    }
}

/// Calendar months near and far; some of these are good if they are cut to 8 or 16 binary digits.
fn months(c: &mut Check) {
    c.kind("constants, calendar months");
    let (run, mut lists) = with_departures(c, &[300; 12]);
    let bases = [0, 1 << 8, 1 << 16, 1 << 24, 1 << 30, -256, -12, i32::MIN, i32::MAX - 20];
    for month in bases.into_iter().flat_map(|base| (-1..=14).map(move |month: i32| month.saturating_add(base))) {
        c.expect_sum(&run, month, &mut lists, if (1..=12).contains(&month) { 0 } else { 6 });
    }
}

// ---- Lengths and runs --------------------------------------------------------------------------------------

/// A good row of water of any month.
fn any_row(random: &mut Random, _: usize) -> Record {
    let [p, pe, ss, su] = [3_000, 3_000, 1_000, 5_000].map(|most| random.within(0, most) as i32);
    given(random, 6_000, [p, pe, ss, su])
}

/// Ten years in columns of every fault of lengths, in columns of other lengths, and in the longest.
fn lengths(c: &mut Check) {
    c.kind("constants, lengths of columns");
    for columns in length_faults() {
        let mut lists = Lists::new(&mut c.random, columns, Fill::AnyBits);
        let run = any_good_run(&mut c.random, columns[0].clamp(1, 5));
        lists.meet(&run);
        c.both(&run, &mut lists);
    }
    for length in [131, 132, 2_399, 2_400, 2_401, MOST_MONTHS - 1, MOST_MONTHS, MOST_MONTHS + 1] {
        let (run, seven) = of_rows(&mut c.random, [131, length], 6_000, any_row);
        let good = u8::from(length > MOST_MONTHS);
        c.expect_sum(&run, 1, &mut Lists::of(seven.clone()), good);
        for column in 0..7 {
            for off in [-1, 1] {
                let mut lists = Lists::of(longer(&seven, column, off));
                c.expect_sum(&run, 1, &mut lists, 1);
                c.expect_work(&run, &[10_000; 12], &mut lists, 1);
                c.untouched(&run, &mut lists);
            }
        }
    }
}

/// With one column a place longer or shorter.
fn longer(seven: &Seven, column: usize, off: i64) -> Seven {
    fn change<T: Clone>(list: &mut Vec<T>, off: i64) {
        match (off, list.last().cloned()) {
            (1, Some(last)) => list.push(last),
            _ => drop(list.pop()),
        }
    }
    let mut seven = seven.clone();
    match column {
        0..=3 => change(&mut seven.numbers[column], off),
        4 => change(&mut seven.mark, off),
        5 => change(&mut seven.records, off),
        _ => change(&mut seven.v, off),
    }
    seven
}

/// Each field of a run at and past its limits, over ten whole years and part years at both ends. The last row has no water, so
/// that a run may stand anywhere; or it has, and the run stands where it ends.
fn spoiled_runs(c: &mut Check) {
    c.kind("constants, runs spoiled, one field");
    for (length, meets) in [(132, true), (140, true), (132, false)] {
        let (run, mut seven) = of_rows(&mut c.random, [132, length], 6_000, any_row);
        let run = Run { calendar: 4, opens: 0, ..run };
        if meets {
            seven.lend().records[131].water = 0;
        }
        for field in 0..FIELDS + 60 {
            for value in limits(&run, length) {
                let mut spoiled = run;
                set_field(&mut spoiled, field, value);
                let mut lists = Lists::of(seven.clone());
                if meets {
                    lists.meet(&spoiled);
                }
                c.both(&spoiled, &mut lists);
            }
        }
    }
    for length in [1, 132, 2_400] {
        let mut lists = Lists::new(&mut c.random, [length; 7], Fill::AnyBits);
        c.expect_sum(&NO_RUN, 1, &mut lists, 7);
        c.expect_work(&NO_RUN, &[10_000; 12], &mut lists, 7);
    }
}
