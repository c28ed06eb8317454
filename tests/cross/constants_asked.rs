//! What card_sum_month and card_work_out ask of a row: each figure that is asked past its end or off by one, in the first row, a
//! middle one, the last, and in rows after the months; what is not asked, of any content; marks of water of every sort.

use crate::card::{self, Run};
use crate::check::{differ, Call, Check};
use crate::constants_rows::{any_given, given, of_rows, reckoned, standing, RECKONINGS};
use crate::lists::{in_order, record, Lists, Seven};
use crate::random::Random;
use crate::reference::{layers, MOST_MONTHS};
use crate::repair_rows::{set, FIGURES, RECORD, V};
use std::ops::Range;

pub fn asked(c: &mut Check) {
    past_their_ends(c);
    off_by_one(c);
    not_asked(c);
    marks_of_water(c);
    far_out(c);
}

// ---- What is asked -----------------------------------------------------------------------------------------

/// Ten whole years and two part ones, from April on: the rows of the years, and those that are tried, which are the first, one
/// of a part year, a middle one, the last of the years, the last, and two after the months.
const MONTHS: usize = 132;
const LENGTH: usize = 135;
const YEARS: Range<usize> = 9..129;
const ROWS: [usize; 7] = [0, 3, 60, 128, MONTHS - 1, MONTHS, LENGTH - 1];

fn book(c: &mut Check, capacity: u32) -> (Run, Seven) {
    let row = |random: &mut Random, _| any_given(random, capacity, [4_000, 4_000]);
    let (run, seven) = of_rows(&mut c.random, [MONTHS, LENGTH], capacity, row);
    (Run { calendar: 4, ..run }, seven)
}

/// The answer of columns in which one row is maybe not an add's.
fn expect(c: &mut Check, run: &Run, seven: &mut Seven, wanted: u8, tried: &dyn std::fmt::Debug) {
    let run = standing(run, seven);
    let mut lists = Lists::of(seven.clone());
    let number = c.sum_month(&run, 4, &mut lists).number;
    let worked = c.work_out(&run, &[15_000; 12], &mut lists).number;
    if number != wanted || (worked == 7) != (wanted == 7) || (worked == 18) != (wanted == 18) {
        differ(Call::WorkOut, &(run, tried), &(number, worked), &wanted);
    }
}

const CAPACITIES: [u32; 5] = [100, 999, 1_000, 1_001, 6_000];

/// Readings and start storages at both ends and past them, with all else as it follows from them, however it is reckoned.
fn past_their_ends(c: &mut Check) {
    c.kind("constants, rows past their ends");
    for capacity in CAPACITIES {
        let (run, seven) = book(c, capacity);
        let [surface, underlying] = layers(capacity).map(|most| most as i32);
        let ends = [100_000, 100_000, surface, underlying];
        for (place, most) in ends.into_iter().enumerate() {
            for value in [-1, 0, 1, most - 1, most, most + 1, i32::MIN, 1 << 16] {
                for [p, pe] in [[0, 0], [0, 700], [700, 0], [1, 100_000], [100_000, 1]] {
                    let mut starts = [p, pe, 0, 0];
                    starts[place] = value;
                    let fits = starts.iter().zip(&ends).all(|(start, most)| (0..=*most).contains(start));
                    for (row, reckoning) in ROWS.into_iter().flat_map(|row| RECKONINGS.map(|how| (row, how))) {
                        let mut seven = seven.clone();
                        seven.lend().records[row] = reckoned(&mut c.random, capacity, starts, reckoning);
                        expect(c, &run, &mut seven, if fits || row >= MONTHS { 0 } else { 7 }, &(row, starts));
                    }
                }
            }
        }
    }
}

/// Each figure that is asked off by one and by more, all else as it was. Of six figures nothing else is an add's.
fn off_by_one(c: &mut Check) {
    c.kind("constants, figures off by one");
    for capacity in CAPACITIES {
        let (run, seven) = book(c, capacity);
        for row in ROWS {
            for figure in 1..=10 {
                for off in [-1, 1, -256, 256, 0x1_0000, -0x1_0000, i32::MIN] {
                    one_figure(c, &run, &seven, [row, figure], off);
                }
            }
        }
    }
}

fn one_figure(c: &mut Check, run: &Run, seven: &Seven, [row, figure]: [usize; 2], off: i32) {
    let mut seven = seven.clone();
    if row >= MONTHS {
        let starts = [700, 90, 10, 0];
        seven.lend().records[row] = given(&mut c.random, run.soil.capacity, starts);
    }
    let held = in_order(&seven.lend().records[row])[figure];
    set(&mut seven.lend(), row, RECORD + figure, i64::from(held.wrapping_add(off)));
    if row >= MONTHS {
        expect(c, run, &mut seven, 0, &(row, figure, off));
    } else if matches!(figure, 3..=6 | 9 | 10) {
        expect(c, run, &mut seven, 7, &(row, figure, off));
    } else {
        let run = standing(run, &mut seven);
        c.both(&run, &mut Lists::of(seven));
    }
}

// ---- What is not asked -------------------------------------------------------------------------------------

/// Z, modified index and kind of any row, its X1, X2, X3, index, mark and V, and all of a row after the months or, but for where
/// the last one ends, of a row without water: the answer stays as it was.
fn not_asked(c: &mut Check) {
    c.kind("constants, what is not asked");
    let (run, mut seven) = book(c, 6_000);
    seven.lend().records[3].water = card::HAD_NO_WATER;
    seven.lend().records[MONTHS - 1].water = card::HAD_NO_WATER;
    let weights = [15_000; 12];
    let first = c.expect_work(&run, &weights, &mut Lists::of(seven.clone()), 0);
    for row in ROWS {
        for figure in 0..FIGURES {
            let stays = match figure.checked_sub(RECORD) {
                None | Some(0 | 12 | 13) => true,
                Some(11) => row >= MONTHS,
                Some(9 | 10) => row == 3 || row >= MONTHS,
                Some(_) => row == 3 || row >= MONTHS - 1,
            };
            let values = [i32::MIN, -100_001, -1, 0, 1, 2, 3, 100_001, 13_000_001, i32::MAX].map(i64::from);
            for value in values.into_iter().chain([i64::MIN, i64::MAX].into_iter().filter(|_| figure == V)) {
                let mut seven = seven.clone();
                set(&mut seven.lend(), row, figure, value);
                let worked = c.work_out(&run, &weights, &mut Lists::of(seven));
                if stays && worked != first {
                    differ(Call::WorkOut, &(run, row, figure, value), &worked, &first);
                }
            }
        }
    }
}

/// "A row had water exactly where its record's `water` is 1": any other number is none, in a part year asked nothing, and in
/// one of the years 18.
fn marks_of_water(c: &mut Check) {
    c.kind("constants, marks of water");
    let (run, seven) = book(c, 6_000);
    let marks = [i32::MIN, -256, -255, -2, -1, 0, 1, 2, 3, 255, 256, 257, 0x1_0001, 0x0100_0001, i32::MAX];
    for row in [0, 3, 8, 9, 60, 128, 129, MONTHS - 1, MONTHS] {
        for mark in marks {
            for any in [false, true] {
                let mut seven = seven.clone();
                let k = seven.lend();
                if any {
                    k.records[row] = record([(); 14].map(|()| c.random.bits() as i32));
                    (k.records[row].surface, k.records[row].underlying) = (0, 0);
                }
                k.records[row].water = mark;
                let wanted = match (row < MONTHS, mark) {
                    (true, 1) if any => 7,
                    (true, 1) | (false, _) => 0,
                    _ if YEARS.contains(&row) => 18,
                    _ => 0,
                };
                expect(c, &run, &mut seven, wanted, &(row, mark, any));
            }
        }
    }
}

/// A row that no add gives, and one without water, anywhere in long runs, which start in April.
fn far_out(c: &mut Check) {
    c.kind("constants, rows of long runs");
    for months in [2_400, 2_412, MOST_MONTHS] {
        let row = |random: &mut Random, _| any_given(random, 6_000, [4_000, 4_000]);
        let (run, seven) = of_rows(&mut c.random, [months, months], 6_000, row);
        let (run, years) = (Run { calendar: 4, ..run }, 9..months - 3);
        for row in [0, 9, 2_396, 2_397, 2_399, 2_400, 2_401, months / 2, months - 4, months - 3, months - 1] {
            let mut spoiled = seven.clone();
            spoiled.lend().records.get_mut(row).into_iter().for_each(|record| record.et += 1);
            expect(c, &run, &mut spoiled, if row < months { 7 } else { 0 }, &(row, "ET"));
            let mut without = seven.clone();
            without.lend().records.get_mut(row).into_iter().for_each(|record| record.water = card::HAD_NO_WATER);
            expect(c, &run, &mut without, if years.contains(&row) { 18 } else { 0 }, &(row, "water"));
        }
    }
}
