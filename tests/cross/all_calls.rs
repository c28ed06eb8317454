//! All the calls that take a run, with runs and columns of any content and with several faults at once.

use crate::add::{pick_add, Add, Way};
use crate::add_water::pick_reading;
use crate::add_z::STYLES;
use crate::card::{MonthInches, Reading, Run, Values};
use crate::check::Check;
use crate::lists::{Fill, Lists};
use crate::reference::{self, MOST_MONTHS, MOST_Z};
use crate::runs::{
    any_good_run, good_constants, good_soil, length_faults, limits, run_faults, set_field, FIELDS, NO_RUN,
};
use crate::season::Months;
use crate::whole_series::whole_refusals;

/// All the calls that take a run, with a last record that ends where it stands: what is refused is refused for the run's
/// own sake.
pub fn all_calls(c: &mut Check, run: &Run, lists: &mut Lists) {
    lists.meet(run);
    calls(c, run, lists);
}

/// All the calls that take a run, with the columns as they are.
pub fn calls(c: &mut Check, run: &Run, lists: &mut Lists) {
    let z = c.random.within(-3_000, 3_000) as i32;
    c.add(Add::Z(z), run, lists);
    let (p, pe) = (pick_reading(&mut c.random, 9_000), pick_reading(&mut c.random, 9_000));
    c.add(Add::Water(p, pe), run, lists);
    c.add(Add::Inches(MonthInches { p: 2.5, pe: 3.0625 }), run, lists);
    let season = if c.random.one_in(2) { vec![] } else { vec![700, 2_500] };
    c.season(&Months { p: season.clone(), pe: season }, run, lists);
    for row in [0, run.months.wrapping_sub(1) as usize, run.months as usize] {
        c.row(run, row, lists);
    }
    c.both(run, lists);
    c.lines(run, lists);
    c.untouched(run, lists);
}

pub fn spoiled_runs(c: &mut Check) {
    // A fresh run, a settled one, open months without a spell, a drought abating, a wet spell abating, a full one.
    let beginnings: [&[i32]; 6] = [
        &[],
        &[40, 3_000],
        &[900, -700, 30, -20],
        &[-9_000, -50, 300, 10],
        &[9_000, 50, -300, -10],
        &[-9_000, 700, 30, -20, 10, 5, 5, 5],
    ];
    let length = 8;
    for zs in beginnings {
        let mut lists = Lists::new(&mut c.random, [length; 7], Fill::AnyBits);
        let (constants, soil) = (good_constants(&mut c.random), good_soil(&mut c.random));
        c.kind("runs spoiled, one field");
        let mut run = c.start(&constants, soil).run;
        for &z in zs {
            run = c.add(Add::Z(z), &run, &mut lists).run;
        }
        for field in 0..FIELDS + 60 {
            for value in limits(&run, length) {
                let mut spoiled = run;
                set_field(&mut spoiled, field, value);
                all_calls(c, &spoiled, &mut lists);
            }
        }
        c.kind("runs spoiled, X and V");
        spoiled_values(c, &run, &mut lists);
    }
}

fn spoiled_values(c: &mut Check, run: &Run, lists: &mut Lists) {
    let most_v = 4_000_150 * i64::from(run.months);
    for v in [-most_v - 1, -most_v, -151, -1, 0, 1, 151, most_v, most_v + 1] {
        for x3 in [-13_000_001, -13_000_000, -1_000, -501, -500, -1, 0, 1, 500, 501, 1_000, 13_000_000, 13_000_001]
        {
            for x1 in [-1, 0, 1, 13_000_000, 13_000_001] {
                for x2 in [1, 0, -1, -13_000_000, -13_000_001] {
                    let mut spoiled = *run;
                    spoiled.values = Values { x1, x2, x3, v };
                    all_calls(c, &spoiled, lists);
                }
            }
        }
    }
}

pub fn any_runs(c: &mut Check, times: u64) {
    c.kind("any good run, any columns");
    for _ in 0..100_000 * times {
        let most = c.random.pick(&[1, 6, 30, 30, 200]);
        let length = c.random.within(1, most) as usize;
        let fill = c.random.pick(&[Fill::AnyBits, Fill::Small, Fill::Small]);
        let mut lists = Lists::new(&mut c.random, [length; 7], fill);
        let mut run = any_good_run(&mut c.random, length);
        lists.meet(&run);
        for _ in 0..c.random.below(8) {
            let style = c.random.pick(&STYLES);
            let what = pick_add(&mut c.random, Way::Mixed, style, &run.values);
            run = c.add(what, &run, &mut lists).run;
        }
        let row = c.random.below(length as u64 + 1) as usize;
        c.row(&run, row, &mut lists);
        c.lines(&run, &mut lists);
        c.untouched(&run, &mut lists);
    }
    c.kind("any numbers as a run");
    let mut lists = Lists::new(&mut c.random, [9; 7], Fill::AnyBits);
    for _ in 0..10_000 * times {
        let mut run = any_good_run(&mut c.random, 9);
        for _ in 0..c.random.within(1, 3) {
            let field = c.random.below(FIELDS as u64 + 6) as usize;
            let value = c.random.bits() as i64 >> c.random.below(64);
            set_field(&mut run, field, value);
        }
        all_calls(c, &run, &mut lists);
    }
}

pub fn refusals(c: &mut Check) {
    c.kind("several refusals, adds and rows");
    let mut small = Lists::new(&mut c.random, [5; 7], Fill::AnyBits);
    let (constants, soil) = (good_constants(&mut c.random), good_soil(&mut c.random));
    let mut run = c.start(&constants, soil).run;
    for z in [900, -700, 30] {
        run = c.add(Add::Z(z), &run, &mut small).run;
    }
    let readings = [
        Reading::whole(700),
        Reading::missing(),
        Reading::whole(-1),
        Reading::inches(f32::NAN),
        Reading::millimetres(2_541.0),
        Reading { kind: 4, whole: 0, measure: 0.0 },
    ];
    for lengths in length_faults() {
        let mut lists = Lists::new(&mut c.random, lengths, Fill::AnyBits);
        for run in run_faults(&run) {
            lists.meet(&run);
            for p in readings {
                for pe in readings {
                    c.add(Add::Water(p, pe), &run, &mut lists);
                }
            }
            for (p, pe) in [(1.0, 1.0), (-1.0, 1.0), (1.0, f32::INFINITY), (f32::NAN, 101.0), (-0.0, 100.0)] {
                c.add(Add::Inches(MonthInches { p, pe }), &run, &mut lists);
            }
            for z in [0, -MOST_Z, MOST_Z, -MOST_Z - 1, MOST_Z + 1, i32::MIN, i32::MAX] {
                c.add(Add::Z(z), &run, &mut lists);
            }
            for row in [0, 2, 3, 4, 5, 6, usize::MAX] {
                c.row(&run, row, &mut lists);
            }
            c.untouched(&run, &mut lists);
        }
    }
    whole_refusals(c);
}

// ---- What a run's fields and the columns' lengths are tried with besides ------------------------------------

/// Values of a run's field within its range and just past it.
fn ends(run: &Run, field: usize, length: i64) -> Vec<i64> {
    let most_v = 4_000_150 * i64::from(run.months);
    let [surface, underlying] = reference::layers(run.soil.capacity).map(i64::from);
    match field {
        0 => vec![0, 1, length - 1, length, length + 1],
        1 => vec![0, 1, i64::from(run.months), i64::from(run.months) + 1],
        2 => vec![0, 1, 12, 13],
        3 => vec![99, 100, 999, 1_000, 1_001, 30_000, 30_001],
        4 => vec![0, 1, surface, surface + 1, 1_000, 1_001],
        5 => vec![0, 1, underlying, underlying + 1, 29_000, 29_001],
        6 => vec![-1, 0, 1, 13_000_000, 13_000_001],
        7 => vec![1, 0, -1, -13_000_000, -13_000_001],
        8 => vec![-13_000_001, -13_000_000, -501, -500, -1, 0, 1, 500, 501, 13_000_000, 13_000_001],
        _ => vec![i64::MIN, -most_v - 1, -most_v, -1, 0, 1, most_v, most_v + 1, i64::MAX],
    }
}

/// Two fields at once, of which one may make the other good or bad; and a run of zeros, as a refused start hands back.
pub fn two_fields(c: &mut Check) {
    c.kind("runs spoiled, two fields");
    let length = 8;
    let mut lists = Lists::new(&mut c.random, [length; 7], Fill::AnyBits);
    for run in [0, 1, 4, 8].map(|months| Run { months, ..any_good_run(&mut c.random, 0) }) {
        for first in 0..FIELDS {
            for a in ends(&run, first, length as i64) {
                let mut once = run;
                set_field(&mut once, first, a);
                for second in first + 1..FIELDS {
                    for b in ends(&once, second, length as i64) {
                        let mut twice = once;
                        set_field(&mut twice, second, b);
                        all_calls(c, &twice, &mut lists);
                    }
                }
            }
        }
    }
    for length in [0, 1, 8, 2_400, MOST_MONTHS] {
        let mut lists = Lists::new(&mut c.random, [length; 7], Fill::AnyBits);
        all_calls(c, &NO_RUN, &mut lists);
    }
}

/// Each column of another length than the six, beside short columns, those about 2,400 and the longest; and seven of any
/// lengths.
pub fn lengths(c: &mut Check) {
    c.kind("columns of other lengths");
    let long = [2_399, 2_400, 2_401, MOST_MONTHS - 1, MOST_MONTHS, MOST_MONTHS + 1];
    for length in [1, 2, 30].into_iter().chain(long) {
        for column in 0..7 {
            for other in [0, length - 1, length, length + 1].into_iter().chain(long) {
                let mut lengths = [length; 7];
                lengths[column] = other;
                let mut lists = Lists::new(&mut c.random, lengths, Fill::AnyBits);
                for months in 0..2 {
                    let run = Run { months, opens: 0, ..any_good_run(&mut c.random, 0) };
                    all_calls(c, &run, &mut lists);
                }
            }
        }
    }
    for _ in 0..200 {
        let lengths = [(); 7].map(|()| c.random.below(MOST_MONTHS as u64 + 2) as usize);
        let run = any_good_run(&mut c.random, lengths[0].max(1));
        let mut lists = Lists::new(&mut c.random, lengths, Fill::Sparse);
        all_calls(c, &run, &mut lists);
    }
}

/// V at "4,000,150 x months in size" and beside it, of short runs, those about 2,400 and the longest, in full columns and
/// in the longest: past it 7. From its end the largest Z leads to the end of one month more.
pub fn most_v(c: &mut Check) {
    c.kind("V at its ends");
    for months in [1, 2, 2_399, 2_400, 2_401, MOST_MONTHS - 1, MOST_MONTHS] {
        for length in [months, MOST_MONTHS] {
            let mut lists = Lists::new(&mut c.random, [length; 7], Fill::Sparse);
            for (sign, past) in [(1, -1), (1, 0), (1, 1), (-1, -1), (-1, 0), (-1, 1)] {
                let most = 4_000_150 * months as i64;
                let values = Values { x1: 0, x2: 0, x3: -sign * 13_000_000, v: i64::from(sign) * (most + past) };
                let opens = c.random.pick(&[0, 1, months]) as u32;
                let run = Run { months: months as u32, opens, values, ..any_good_run(&mut c.random, 0) };
                all_calls(c, &run, &mut lists);
                let added = c.add(Add::Z(sign * MOST_Z), &run, &mut lists);
                let good = if months < length { 0 } else { 10 };
                assert_eq!(added.number, if past > 0 { 7 } else { good });
                if added.number == 0 {
                    assert_eq!(added.run.values.v, i64::from(sign) * (most + past + 4_000_150));
                    all_calls(c, &added.run, &mut lists);
                }
            }
        }
    }
}

/// Runs whose last months come near the end of long columns of any content, with few and with all months open.
pub fn long_columns(c: &mut Check, times: u64) {
    c.kind("any good run, long columns");
    for number in 0..1_050 * times {
        let length = c.random.pick(&[300, 2_399, 2_400, 2_401, MOST_MONTHS - 1, MOST_MONTHS, MOST_MONTHS]);
        let fill = c.random.pick(&[Fill::AnyBits, Fill::Small, Fill::Sparse, Fill::Sparse]);
        let mut lists = Lists::new(&mut c.random, [length; 7], fill);
        let mut run = any_good_run(&mut c.random, length);
        if number % 2 == 0 {
            run.months = c.random.within(length as i64 - 10, length as i64) as u32;
            (run.opens, run.values.v) = (c.random.pick(&[0, 3, run.months - 1, run.months]), 0);
        }
        lists.meet(&run);
        for _ in 0..4 {
            let style = c.random.pick(&STYLES);
            let what = pick_add(&mut c.random, Way::Mixed, style, &run.values);
            run = c.add(what, &run, &mut lists).run;
        }
        all_calls(c, &run, &mut lists);
    }
}
