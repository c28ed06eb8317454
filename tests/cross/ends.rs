//! "After any month, the last row's end storages equal the run's": the last record spoiled in each of its numbers, and those
//! beside it, in every call; runs and columns that do not belong together; and which refusals come before and after.

use crate::add::Add;
use crate::all_calls::calls;
use crate::card::{MonthInches, Reading, Record, Run};
use crate::check::{differ, Call, Check};
use crate::lists::{record, Fill, Lists, NUMBERS};
use crate::reference::{layers, MOST_MONTHS, MOST_Z};
use crate::runs::{any_good_run, good_constants, good_soil};
use crate::season::Months;

pub fn ends(c: &mut Check) {
    spoiled_ends(c);
    spoiled_numbers(c);
    records_beside(c);
    no_months(c);
    order(c);
    before_and_after(c);
    put_in(c);
}

/// A good run of so many months, and columns of any content in which it stands where the last record ends.
pub fn standing(c: &mut Check, months: usize, length: usize) -> (Run, Lists) {
    let mut run = any_good_run(&mut c.random, 0);
    (run.months, run.opens) = (months as u32, c.random.below(months as u64 + 1) as u32);
    let mut lists = Lists::new(&mut c.random, [length; 7], Fill::AnyBits);
    lists.meet(&run);
    (run, lists)
}

/// The months and the length of columns that are tried: the first, the second and the last place.
pub const PLACES: [(usize, usize); 9] = [
    (1, 1),
    (1, 2),
    (1, 9),
    (2, 9),
    (8, 9),
    (9, 9),
    (2_400, 2_401),
    (MOST_MONTHS - 1, MOST_MONTHS),
    (MOST_MONTHS, MOST_MONTHS),
];

/// Every call on a run that is good but for its last record, or altogether.
pub fn each_call(c: &mut Check, run: &Run, lists: &mut Lists, refused: bool) {
    let months = run.months as usize;
    let or_seven = |number| if refused { 7 } else { number };
    let added = or_seven(if months == lists.lengths()[0] { 10 } else { 0 });
    let water = Add::Water(Reading::whole(700), Reading::millimetres(30.5));
    for what in [water, Add::Inches(MonthInches { p: 0.7, pe: 0.1 }), Add::Z(-30)] {
        expect(what.call(), run, c.add(what, run, lists).number, added);
    }
    for (months, number) in [(0, or_seven(0)), (1, added)] {
        let season = c.season(&Months { p: vec![700; months], pe: vec![90; months] }, run, lists);
        expect(Call::AddSeason, run, season.number, number);
    }
    let shown = or_seven(if months > 0 { 0 } else { 11 });
    for (row, number) in [(0, shown), (months.wrapping_sub(1), shown), (months, or_seven(11))] {
        expect(Call::Row, run, c.row(run, row, lists).number, number);
    }
    c.untouched(run, lists);
}

fn expect(call: Call, run: &Run, number: u8, expected: u8) {
    if number != expected {
        differ(call, &(run, "by the record of its last month"), &number, &expected);
    }
}

/// Numbers that are not this storage: beside it, below 0, the same in the lower or in the upper binary digits, and large.
fn others(storage: u32) -> Vec<i32> {
    let own = storage as i32;
    let beside = [own - 1, own + 1, -own, !own, -1, i32::MIN, i32::MIN + 1, i32::MAX];
    let digits = [8, 16, 24, 30, 31].map(|digit| own ^ (1i32 << digit));
    let mut found: Vec<i32> = beside.into_iter().chain(digits).chain([0, 1, 1_000, 29_000]).collect();
    found.retain(|number| *number != own);
    found
}

/// Either storage of the last record, or both, not the run's; and both exchanged.
fn spoiled_ends(c: &mut Check) {
    c.kind("last record, other ends");
    for (months, length) in PLACES {
        for soil in 0..6 {
            let (mut run, mut lists) = standing(c, months, length);
            let [surface, underlying] = layers(run.soil.capacity);
            match soil {
                0 => (run.soil.surface, run.soil.underlying) = (0, 0),
                1 => (run.soil.surface, run.soil.underlying) = (surface, underlying),
                _ => {}
            }
            lists.meet(&run);
            each_call(c, &run, &mut lists, false);
            let (surface, underlying) = (run.soil.surface, run.soil.underlying);
            for other in others(surface) {
                lists.change(months - 1, |last| last.surface = other);
                each_call(c, &run, &mut lists, true);
            }
            lists.meet(&run);
            for other in others(underlying) {
                lists.change(months - 1, |last| last.underlying = other);
                each_call(c, &run, &mut lists, true);
            }
            let both =
                [(surface + 1, underlying + 1), (underlying, surface), (surface + 1, underlying.wrapping_sub(1))];
            for (upper, lower) in both {
                lists.change(months - 1, |last| (last.surface, last.underlying) = (upper as i32, lower as i32));
                each_call(c, &run, &mut lists, (upper, lower) != (surface, underlying));
            }
            lists.meet(&run);
            each_call(c, &run, &mut lists, false);
        }
    }
}

/// All numbers of the last record but its ends, and V: nothing is asked of them.
fn spoiled_numbers(c: &mut Check) {
    c.kind("last record, other numbers");
    for (months, length) in PLACES {
        let (run, mut lists) = standing(c, months, length);
        for place in 0..NUMBERS {
            for number in [i32::MIN, -1, 0, 1, 2, i32::MAX] {
                let mut numbers = [(); NUMBERS].map(|()| c.random.bits() as i32);
                numbers[place] = number;
                lists.change(months - 1, |last| *last = record(numbers));
                lists.meet(&run);
                each_call(c, &run, &mut lists, false);
            }
        }
    }
}

/// The record before the last and the one after it, where the last is right, and right themselves where it is not.
fn records_beside(c: &mut Check) {
    c.kind("records beside the last");
    for (months, length) in PLACES {
        let (run, mut lists) = standing(c, months, length);
        let (surface, underlying) = (run.soil.surface as i32, run.soil.underlying as i32);
        let right = |record: &mut Record| (record.surface, record.underlying) = (surface, underlying);
        let wrong = |record: &mut Record| (record.surface, record.underlying) = (surface + 1, underlying);
        for beside in [months.wrapping_sub(2), months, 0, length - 1] {
            if beside != months - 1 {
                lists.change(beside, wrong);
                each_call(c, &run, &mut lists, false);
                lists.change(beside, right);
                lists.change(months - 1, wrong);
                each_call(c, &run, &mut lists, true);
            }
            // the storages at its start are the run's, and those at its end are not
            lists.change(months - 1, |last| {
                wrong(last);
                (last.ss, last.su) = (surface, underlying);
            });
            each_call(c, &run, &mut lists, true);
            lists.meet(&run);
        }
    }
}

/// "After any month": of a run without one nothing is asked, whatever the records hold.
fn no_months(c: &mut Check) {
    c.kind("no months, any records");
    for length in [1, 2, 9, 2_400, MOST_MONTHS] {
        for _ in 0..40 {
            let fill = c.random.pick(&[Fill::AnyBits, Fill::Small, Fill::Sparse]);
            let mut lists = Lists::new(&mut c.random, [length; 7], fill);
            let run = any_good_run(&mut c.random, 0);
            for wrong in [[i32::MAX; NUMBERS], [-1; NUMBERS], [0; NUMBERS]] {
                for place in [0, length - 1] {
                    lists.change(place, |record_there| *record_there = record(wrong));
                }
                each_call(c, &run, &mut lists, false);
            }
        }
    }
}

/// 7 by the last record comes after 1 and before all the others.
fn order(c: &mut Check) {
    c.kind("last record, other faults too");
    let odd = [Reading::missing(), Reading::whole(-1), Reading::inches(f32::NAN), Reading::whole(700)];
    for length in [3, 5] {
        for column in 0..7 {
            for other in [length, 0, length - 1, length + 1, MOST_MONTHS + 1] {
                let (run, mut lists) = standing(c, 3, length);
                lists.change(2, |last| last.underlying += 1);
                let number = if other == length { 7 } else { 1 };
                if other != length {
                    let mut lengths = [length; 7];
                    lengths[column] = other;
                    lists = Lists::new(&mut c.random, lengths, Fill::AnyBits);
                }
                for p in odd {
                    for pe in odd {
                        expect(Call::AddWater, &run, c.add(Add::Water(p, pe), &run, &mut lists).number, number);
                    }
                }
                let inches = Add::Inches(MonthInches { p: f32::NAN, pe: 101.0 });
                expect(Call::AddInches, &run, c.add(inches, &run, &mut lists).number, number);
                for z in [i32::MIN, -MOST_Z - 1, MOST_Z + 1, i32::MAX, 0] {
                    expect(Call::AddZ, &run, c.add(Add::Z(z), &run, &mut lists).number, number);
                }
                for (p, pe) in [(0, 0), (1, 1), (4, 4), (0, 1), (2, 1)] {
                    for reading in [700, -1, 100_001] {
                        let months = Months { p: vec![reading; p], pe: vec![700; pe] };
                        let number = if p == pe { number } else { 1 };
                        expect(Call::AddSeason, &run, c.season(&months, &run, &mut lists).number, number);
                    }
                }
                for row in [0, 2, 3, 5, usize::MAX] {
                    expect(Call::Row, &run, c.row(&run, row, &mut lists).number, number);
                }
                c.untouched(&run, &mut lists);
            }
        }
    }
}

/// A run of before an add with the columns of after it, and one of after it with the columns of before.
fn before_and_after(c: &mut Check) {
    c.kind("run and columns of two times");
    for _ in 0..60 {
        let mut lists = Lists::new(&mut c.random, [12; 7], Fill::AnyBits);
        let (constants, soil) = (good_constants(&mut c.random), good_soil(&mut c.random));
        let mut runs = vec![c.start(&constants, soil).run];
        let mut held = vec![lists.library.clone()];
        for _ in 0..12 {
            let run = runs[runs.len() - 1];
            let (p, pe) = (c.random.within(0, 4_000) as i32, c.random.within(0, 4_000) as i32);
            let what = match c.random.below(4) {
                0 => Add::Z(p - pe),
                _ => Add::Water(Reading::whole(p), Reading::whole(pe)),
            };
            runs.push(c.add(what, &run, &mut lists).run);
            held.push(lists.library.clone());
        }
        for (at, run) in runs.iter().enumerate() {
            for seven in &held {
                let mut lists = Lists::of(seven.clone());
                let last = at.checked_sub(1).map(|last| lists.expected.lend().records[last]);
                let meets = |last: Record| {
                    (i64::from(last.surface), i64::from(last.underlying))
                        == (i64::from(run.soil.surface), i64::from(run.soil.underlying))
                };
                each_call(c, run, &mut lists, !last.is_none_or(meets));
            }
        }
    }
}

/// What a holder does whose columns have no records: with the run's storages in the last one, and zeros else, it goes on.
fn put_in(c: &mut Check) {
    c.kind("records put in");
    for (months, length) in PLACES {
        let (run, mut lists) = standing(c, months, length);
        for place in 0..length {
            lists.change(place, |none| *none = Record::default());
        }
        let stands = (run.soil.surface, run.soil.underlying) == (0, 0);
        each_call(c, &run, &mut lists, !stands);
        lists.meet(&run);
        each_call(c, &run, &mut lists, false);
        let shown = c.row(&run, months - 1, &mut lists).month;
        assert_eq!((shown.surface as u32, shown.underlying as u32), (run.soil.surface, run.soil.underlying));
        calls(c, &run, &mut lists);
    }
}
