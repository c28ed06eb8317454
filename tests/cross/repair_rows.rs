//! card_repair over columns that no run led to: rows of any figures within their ranges, and "any recorded figure outside its
//! range" (7): each figure of a row at its ends and past them, in rows of the run's months and in rows after them.

use crate::add_water::pick_reading;
use crate::card::{Columns, Reading, Record, Run, Soil};
use crate::check::{differ, Call, Check};
use crate::lists::{in_order, record, Fill, Lists, Seven, NUMBERS};
use crate::random::Random;
use crate::reference::{layers, MOST_MONTHS, MOST_Z};
use crate::repair::Repair;
use crate::runs::{any_good_run, any_values};

pub const MOST_X: i64 = 13_000_000;
const MOST_WATER: i64 = 100_000;

pub fn rows(c: &mut Check, times: u64) {
    any_columns(c, times);
    figures_at_ends(c);
    v_by_its_row(c);
}

// ---- Rows of any figures -----------------------------------------------------------------------------------

fn amount(random: &mut Random, most: i64) -> i32 {
    let some = random.within(0, most);
    random.pick(&[0, some, some.min(3_000), most]) as i32
}

fn index(random: &mut Random) -> i32 {
    let size = random.pick(&[3, 600, 5_000, MOST_X]);
    random.within(-size, size) as i32
}

/// A record of any figures within their ranges. One in `dry` has no water.
fn any_record(random: &mut Random, capacity: u32, dry: u64) -> Record {
    let [surface, underlying] = layers(capacity).map(i64::from);
    let mut water = || amount(random, MOST_WATER);
    let [p, pe, et, r, l, ro] = [(); 6].map(|()| water());
    let layers = [surface, underlying, surface, underlying];
    let [ss, su, surface, underlying] = layers.map(|most| amount(random, most));
    let size = random.pick(&[60, 3_000, i64::from(MOST_Z)]);
    let z = random.within(-size, size) as i32;
    let water = i32::from(!random.one_in(dry));
    let (modified, kind) = (index(random), random.below(3) as i32);
    record([z, p, pe, et, r, l, ro, ss, su, surface, underlying, water, modified, kind])
}

/// Columns with rows of any figures within their ranges, as many as the run's months, and any content after them. The last
/// record ends where the run stands, and else no row's end storages are those of the next row's start.
pub fn any_rows(random: &mut Random, run: &Run, length: usize) -> Seven {
    let mut seven = Lists::new(random, [length; 7], Fill::AnyBits).expected;
    let dry = random.pick(&[2, 6, 1_000_000]);
    let k = seven.lend();
    for month in 0..run.months as usize {
        let values = any_values(random, month as i64 + 1);
        (k.x1[month], k.x2[month], k.x3[month], k.v[month]) = (values.x1, values.x2, values.x3, values.v);
        (k.index[month], k.mark[month]) = (index(random), random.pick(&[1, 2]));
        k.records[month] = any_record(random, run.soil.capacity, dry);
    }
    if let Some(last) = k.records[..run.months as usize].last_mut() {
        (last.surface, last.underlying) = (run.soil.surface as i32, run.soil.underlying as i32);
    }
    seven
}

/// A good run of so many months.
pub fn run_of(random: &mut Random, months: usize) -> Run {
    let opens = random.below(months as u64 + 1) as u32;
    let values = any_values(random, months as i64);
    Run { months: months as u32, opens, values, ..any_good_run(random, 0) }
}

pub fn any_readings(random: &mut Random, row: usize) -> Repair {
    let most = random.pick(&[300, 4_000, 9_000, MOST_WATER]);
    Repair { row, p: pick_reading(random, most), pe: pick_reading(random, most) }
}

fn any_columns(c: &mut Check, times: u64) {
    for (name, spoiled) in [("repairs, rows in range", false), ("repairs, rows maybe out of range", true)] {
        c.kind(name);
        for _ in 0..12_000 * times {
            let most = c.random.pick(&[1, 6, 30, 30, 100]);
            let length = c.random.within(1, most) as usize;
            let months = c.random.within(1, length as i64) as usize;
            let run = run_of(&mut c.random, months);
            let mut seven = any_rows(&mut c.random, &run, length);
            if spoiled {
                let row = c.random.below(length as u64) as usize;
                let (figure, bits) = (c.random.below(FIGURES as u64) as usize, c.random.bits() as i64);
                let value = bits >> c.random.below(64);
                set(&mut seven.lend(), row, figure, value);
            }
            in_turn(c, run, Lists::of(seven), spoiled);
        }
    }
    c.kind("repairs, rows in range, long columns");
    for length in [2_400, 2_401, MOST_MONTHS, MOST_MONTHS] {
        for months in [length - 1, length] {
            let run = run_of(&mut c.random, months);
            let seven = any_rows(&mut c.random, &run, length);
            in_turn(c, run, Lists::of(seven), false);
        }
    }
}

/// Some repairs, of any rows; where the rows are in range the number is known.
fn in_turn(c: &mut Check, mut run: Run, mut lists: Lists, spoiled: bool) {
    for _ in 0..3 {
        let row = c.random.below(u64::from(run.months)) as usize;
        let water = lists.expected.lend().records[row].water;
        let what = any_readings(&mut c.random, row);
        let repaired = c.repair(&what, &run, &mut lists);
        if !spoiled && repaired.number != if water == 1 { 0 } else { 17 } {
            differ(Call::Repair, &(what, run, "rows in range"), &repaired, &water);
        }
        run = repaired.run;
        if repaired.number == 0 {
            c.repair_again(&what, &run, &mut lists);
        }
    }
}

// ---- Figures at their ends ---------------------------------------------------------------------------------

/// The figures of a row: X1, X2, X3, index, mark, V and the numbers of the record.
pub const FIGURES: usize = 6 + NUMBERS;
pub const V: usize = 5;
pub const RECORD: usize = 6;

/// Sets a figure of a row to as much of the value as it takes.
pub fn set(k: &mut Columns, row: usize, figure: usize, value: i64) {
    let number = value as i32;
    match figure {
        0 => k.x1[row] = number,
        1 => k.x2[row] = number,
        2 => k.x3[row] = number,
        3 => k.index[row] = number,
        4 => k.mark[row] = value as u8,
        V => k.v[row] = value,
        _ => {
            let mut all = in_order(&k.records[row]);
            all[figure - RECORD] = number;
            k.records[row] = record(all);
        }
    }
}

/// The least and the most that a figure may be; of V see `v_by_its_row`.
fn range(figure: usize, capacity: u32) -> (i64, i64) {
    let [surface, underlying] = layers(capacity).map(i64::from);
    match figure {
        0 => (0, MOST_X),
        1 => (-MOST_X, 0),
        2 | 3 => (-MOST_X, MOST_X),
        4 => (1, 2),
        V => (0, 0),
        _ => match figure - RECORD {
            0 => (-i64::from(MOST_Z), i64::from(MOST_Z)),
            1..=6 => (0, MOST_WATER),
            7 | 9 => (0, surface),
            8 | 10 => (0, underlying),
            11 => (0, 1),
            12 => (-MOST_X, MOST_X),
            _ => (0, 2),
        },
    }
}

/// What a figure is tried with: both ends and one past them, and numbers that are within once they are cut to 8, 16 or 32
/// binary digits or lose their sign.
fn tried(figure: usize, capacity: u32) -> Vec<i64> {
    let (least, most) = range(figure, capacity);
    let bytes = [0, 1, 2, 3, 4, 127, 128, 254, 255];
    if figure == 4 {
        return bytes.to_vec();
    }
    let ends = [least - 1, least, least + 1, most - 1, most, most + 1, -1, 0, 1];
    let cut = [256, 258, 0x1_0000, 0x1_0001, 0x7fff_ff00, 0x0100_0000];
    let large = [i64::from(i32::MIN), i64::from(i32::MIN) + 1, i64::from(i32::MAX)];
    let mut found: Vec<i64> = ends.into_iter().chain(cut).chain(large).flat_map(|x| [x, -x]).collect();
    found.retain(|x| i32::try_from(*x).is_ok());
    found.sort_unstable();
    found.dedup();
    found
}

/// The months, the length, and the rows that are tried: the first, a middle one, the last, and those after it.
const PLACES: [(usize, usize); 6] = [(1, 1), (1, 3), (2, 2), (3, 6), (6, 9), (9, 9)];

/// A good run and good rows, all of water and with no V, in a soil of this capacity.
fn good(c: &mut Check, months: usize, length: usize, capacity: u32) -> (Run, Seven) {
    let mut run = run_of(&mut c.random, months);
    let [surface, underlying] = layers(capacity);
    run.soil = Soil { capacity, surface: surface / 2, underlying: underlying / 2 };
    let mut seven = any_rows(&mut c.random, &run, length);
    let k = seven.lend();
    k.v.fill(0);
    k.records[..months].iter_mut().for_each(|record| record.water = 1);
    (run, seven)
}

/// A repair of a row, of columns in which one row is maybe not in range.
fn expect(c: &mut Check, run: &Run, seven: &Seven, row: usize, fits: bool, tried: &dyn std::fmt::Debug) {
    let mut lists = Lists::of(seven.clone());
    let water = lists.expected.lend().records[row].water;
    let what = Repair { row, p: Reading::whole(700), pe: Reading::whole(90) };
    let number = c.repair(&what, run, &mut lists).number;
    let wanted = match (fits, water) {
        (false, _) => 7,
        (true, 1) => 0,
        (true, _) => 17,
    };
    if number != wanted {
        differ(Call::Repair, &(run, row, tried), &number, &wanted);
    }
}

/// Each figure of each row at its ends and past them; the row itself is repaired and another one. What stands after the
/// months is not asked.
fn figures_at_ends(c: &mut Check) {
    c.kind("repairs, each figure at its ends");
    for capacity in [100, 999, 1_000, 1_001, 6_000, 30_000] {
        for (months, length) in PLACES {
            let (run, seven) = good(c, months, length, capacity);
            for row in 0..length {
                for figure in (0..FIGURES).filter(|figure| *figure != V) {
                    for value in tried(figure, capacity) {
                        one_figure(c, &run, &seven, [row, figure], value);
                    }
                }
            }
        }
    }
}

fn one_figure(c: &mut Check, run: &Run, seven: &Seven, [row, figure]: [usize; 2], value: i64) {
    let (mut run, mut seven, months) = (*run, seven.clone(), run.months as usize);
    set(&mut seven.lend(), row, figure, value);
    let (least, most) = range(figure, run.soil.capacity);
    let fits = row >= months || (least..=most).contains(&value);
    // the run stands where its last month ends
    let last = seven.lend().records[months - 1];
    (run.soil.surface, run.soil.underlying) = (last.surface as u32, last.underlying as u32);
    let other = c.random.below(months as u64) as usize;
    for repaired in [row.min(months - 1), other] {
        expect(c, &run, &seven, repaired, fits, &(row, figure, value));
    }
}

/// V of each row at "4,000,150 x" its months and past it, with an X3 of each sign and none; also far back in long columns.
fn v_by_its_row(c: &mut Check) {
    c.kind("repairs, V by its row");
    for (months, length) in PLACES.into_iter().chain([(2_400, 2_401), (MOST_MONTHS, MOST_MONTHS)]) {
        let (run, seven) = good(c, months, length, 6_000);
        for row in [0, 1, months / 2, months - 1, months, length - 1].into_iter().filter(|row| *row < length) {
            let most = 4_000_150 * (row as i64 + 1);
            let most_vs = [0, 1, most - 1, most, most + 1, most + 4_000_150, 1 << 32, 1 << 40, 1 << 62, i64::MAX];
            for v in most_vs.into_iter().flat_map(|v| [v, -v]).chain([i64::MIN]) {
                for x3 in [-MOST_X, -1, 0, 1, MOST_X] {
                    let mut seven = seven.clone();
                    set(&mut seven.lend(), row, V, v);
                    set(&mut seven.lend(), row, 2, x3);
                    let against = v == 0 || v.signum() == -x3.signum();
                    let fits = v.unsigned_abs() <= most as u64 && against;
                    let repaired = c.random.below(months as u64) as usize;
                    expect(c, &run, &seven, repaired, fits || row >= months, &(row, v, x3));
                }
            }
        }
    }
}
