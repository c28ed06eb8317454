//! Constants worked out of columns that no run led to: rows that an add gives, each by itself, in no order, with shares, CAFEC
//! and D at exact halves, and columns of any content.

use crate::card::{self, Record, Run, Soil};
use crate::check::Check;
use crate::constants::{exactly, good_weights};
use crate::lists::{record, Fill, Lists, Seven};
use crate::random::Random;
use crate::reference::layers;
use crate::repair_rows::run_of;
use crate::runs::good_soil;

/// How numbers that are out of range are read and taken off: as they are; as if none were below 0; and in 32 binary digits.
pub type Reckoning = (fn(i32) -> i128, fn(i128, i128) -> i128);
const PLAIN: Reckoning = (|number| number as i128, |a, b| a - b);
pub const RECKONINGS: [Reckoning; 3] = [
    PLAIN,
    (|number| number as u32 as i128, |a, b| a - b),
    (|number| number as u32 as i128, |a, b| (a - b) & 0xffff_ffff),
];

/// ET, R, L, RO and both storages at the end, by the balance, of readings and start storages that need not be in range.
fn balance(capacity: u32, starts: [i32; 4], (read, less): Reckoning) -> [i128; 6] {
    let ([p, pe, ss, su], capacity) = (starts.map(read), i128::from(capacity));
    if p < pe {
        let lack = less(pe, p);
        let ls = ss.min(lack);
        let lu = exactly(less(lack, ls) * su, capacity).0.min(su);
        return [p + ls + lu, 0, ls + lu, 0, less(ss, ls), less(su, lu)];
    }
    let (excess, layer) = (less(p, pe), capacity.min(1_000));
    let upper = excess.min(less(layer, ss));
    let lower = less(excess, upper).min(less(capacity - layer, su));
    [pe, upper + lower, 0, less(less(excess, upper), lower), ss + upper, su + lower]
}

pub fn reckoned(random: &mut Random, capacity: u32, starts: [i32; 4], reckoning: Reckoning) -> Record {
    let gives = balance(capacity, starts, reckoning).map(|amount| amount as i32);
    let ([p, pe, ss, su], [et, r, l, ro, surface, underlying]) = (starts, gives);
    let [z, modified, kind] = [(); 3].map(|()| random.bits() as i32);
    record([z, p, pe, et, r, l, ro, ss, su, surface, underlying, card::HAD_WATER, modified, kind])
}

/// The record of a month of water. What is not asked is of any content.
pub fn given(random: &mut Random, capacity: u32, starts: [i32; 4]) -> Record {
    reckoned(random, capacity, starts, PLAIN)
}

/// Readings up to these, and storages that are empty, full or any.
pub fn any_given(random: &mut Random, capacity: u32, most: [i64; 2]) -> Record {
    let mut amount = |most: i64| {
        let some = random.within(0, most);
        random.pick(&[0, some, some, some, most]) as i32
    };
    let [p, pe] = most.map(&mut amount);
    let [ss, su] = layers(capacity).map(i64::from).map(amount);
    given(random, capacity, [p, pe, ss, su])
}

/// A good run of so many months and its columns of this length, with such rows and any content after them. It stands where its
/// last row ends.
pub fn of_rows(
    random: &mut Random,
    [months, length]: [usize; 2],
    capacity: u32,
    mut row: impl FnMut(&mut Random, usize) -> Record,
) -> (Run, Seven) {
    let mut run = run_of(random, months);
    run.soil = Soil { capacity, surface: 0, underlying: 0 };
    let mut seven = Lists::new(random, [length; 7], Fill::AnyBits).library;
    for (month, place) in seven.lend().records[..months].iter_mut().enumerate() {
        *place = row(random, month);
    }
    (standing(&run, &mut seven), seven)
}

/// The run as it stands where its last row ends.
pub fn standing(run: &Run, seven: &mut Seven) -> Run {
    let mut run = *run;
    if let Some(last) = seven.lend().records[..run.months as usize].last() {
        (run.soil.surface, run.soil.underlying) = (last.surface as u32, last.underlying as u32);
    }
    run
}

pub fn rows(c: &mut Check, times: u64) {
    any_rows(c, times);
    halves(c, times);
    any_content(c, times);
}

// ---- Rows that an add gives --------------------------------------------------------------------------------

fn any_rows(c: &mut Check, times: u64) {
    c.kind("constants, any rows of adds");
    for _ in 0..4_000 * times {
        let [capacity, ..] = good_soil(&mut c.random);
        let most = c.random.pick(&[[900, 900], [4_000, 4_000], [4_000, 4_000], [100_000, 100_000], [9_000, 500]]);
        let (years, more) = (c.random.pick(&[9, 10, 10, 10, 16, 40]), c.random.within(0, 23) as usize);
        let months = 12 * years + more;
        let length = months + c.random.below(4) as usize;
        let row = |random: &mut Random, _| any_given(random, capacity as u32, most);
        let (run, seven) = of_rows(&mut c.random, [months, length], capacity as u32, row);
        let mut lists = Lists::of(seven);
        for _ in 0..3 {
            c.both(&run, &mut lists);
        }
    }
}

/// The start storages and PE of a calendar month are the same every year, so that each divisor is 6,400 or 0: many shares are
/// exact halves. Or a full soil gives all of PE in some years, and in others an empty one nothing of a larger PE: CAFEC is
/// below 0 then, and may be an exact half.
fn halves(c: &mut Check, times: u64) {
    c.kind("constants, exact halves");
    for number in 0..2_000 * times {
        let capacity = if number % 2 == 0 { 640 } else { 1_000 };
        let begin = c.random.below(12) as usize;
        let full = [(); 12].map(|()| c.random.one_in(2));
        let large = [(); 12].map(|()| c.random.within(1_000, 20_000) as i32);
        let row = |random: &mut Random, month: usize| {
            let calendar = (begin + month) % 12;
            let p = random.within(0, 1_400) as i32;
            let starts = match capacity {
                640 => [p, 640, if full[calendar] { 640 } else { 0 }, 0],
                _ if random.one_in(3) => [0, 1_000, 1_000, 0],
                _ => [0, large[calendar], 0, 0],
            };
            given(random, capacity, starts)
        };
        let (run, seven) = of_rows(&mut c.random, [131, 131], capacity, row);
        let run = Run { calendar: ((begin + 131) % 12) as u32 + 1, ..run };
        let mut lists = Lists::of(seven);
        let weights = good_weights(&mut c.random);
        c.work_out(&run, &weights, &mut lists);
        c.sum_month(&run, begin as i32 + 1, &mut lists);
    }
}

/// Columns of any content, whose rows have water or not by marks of every sort.
fn any_content(c: &mut Check, times: u64) {
    c.kind("constants, columns of any content");
    for _ in 0..1_500 * times {
        let length = c.random.within(1, 300) as usize;
        let fill = c.random.pick(&[Fill::AnyBits, Fill::Small, Fill::Sparse]);
        let mut lists = Lists::new(&mut c.random, [length; 7], fill);
        let months = c.random.within(0, length as i64) as usize;
        let run = run_of(&mut c.random, months);
        let marks = c.random.pick(&[[0, 0, 0, 0], [0, 2, -1, 257], [0, 2, -1, 1], [1, 1, 1, 1]]);
        for row in 0..length {
            let mark = c.random.pick(&marks);
            lists.change(row, |record| record.water = mark);
        }
        lists.meet(&run);
        c.both(&run, &mut lists);
    }
}
