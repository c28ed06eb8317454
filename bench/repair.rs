//! The repair of bench/peer.rs: no list besides those that are lent. The report holds what index and mark were while the
//! months are worked once more.

/// The reference again, for this file alone: with one caller its month is compiled in place, and without the figures that a
/// repair does not answer with.
#[path = "../tests/cross/reference.rs"]
mod reference;

use crate::card::{self, Change, Columns, Reading, Record, Run, Soil, Values, Water, OPEN, SETTLED};
use reference::{add, check, layers, read, record_of, water_month, Amount, Refusal, MOST_Z, WATER};

/// Answers, refuses and writes as the reference's repair does.
pub fn repair(
    run: &mut Run,
    row: usize,
    p: &Reading,
    pe: &Reading,
    k: &mut Columns,
    report: &mut [Change],
) -> Result<u32, Refusal> {
    if report.len() != k.x1.len() {
        return Err(Refusal::Lengths);
    }
    check(run, k)?;
    let months = run.months as usize;
    if !rows_in_range(months, run.soil.capacity, k) {
        return Err(Refusal::NotARun);
    }
    if row >= months {
        return Err(Refusal::NoRow);
    }
    if k.records[row].water != WATER {
        return Err(Refusal::Waterless);
    }
    let p = read(p)?;
    let pe = read(pe)?;
    let first = first_open(row, k);
    hold(first, months, k, report);
    reopen(first, row, k);
    go_back(run, first, row, k);
    let record = &mut k.records[row];
    (record.p, record.pe, record.kind) = (p.water as i32, pe.water as i32, i32::from(p.kind));
    while (run.months as usize) < months {
        add_again(run, k);
    }
    Ok(tell(first, months, k, report))
}

// ---- Ranges ------------------------------------------------------------------------------------------------

const MOST_X: i32 = 13_000_000;
const MOST_WATER: i32 = 100_000;

/// All rows, even behind one that is not in range: so several figures are compared at a time.
fn rows_in_range(months: usize, capacity: u32, k: &Columns) -> bool {
    within(&k.x1[..months], 0, MOST_X)
        & within(&k.x2[..months], -MOST_X, 0)
        & within(&k.x3[..months], -MOST_X, MOST_X)
        & within(&k.index[..months], -MOST_X, MOST_X)
        & k.mark[..months].iter().fold(true, |fit, mark| fit & (OPEN..=SETTLED).contains(mark))
        & v_in_range(&k.v[..months], &k.x3[..months])
        & records_in_range(&k.records[..months], capacity)
}

fn within(list: &[i32], least: i32, most: i32) -> bool {
    list.iter().fold(true, |fit, x| fit & (least..=most).contains(x))
}

/// V by its row, and its sign against that of X3.
fn v_in_range(v: &[i64], x3: &[i32]) -> bool {
    let mut most = 0;
    v.iter().zip(x3).fold(true, |fit, (&v, &x3)| {
        most += 4_000_150;
        fit & (v.unsigned_abs() <= most) & ((v <= 0) | (x3 < 0)) & ((v >= 0) | (x3 > 0))
    })
}

/// The numbers of a record in their order.
fn numbers(record: &Record) -> [i32; 14] {
    let Record { z, p, pe, et, r, l, ro, ss, su, surface, underlying, water, modified, kind } = *record;
    [z, p, pe, et, r, l, ro, ss, su, surface, underlying, water, modified, kind]
}

fn records_in_range(records: &[Record], capacity: u32) -> bool {
    let least = numbers(&Record { z: -MOST_Z, modified: -MOST_X, ..Record::default() });
    let [surface, underlying] = layers(capacity).map(|most| most as i32);
    let [p, pe, et, r, l, ro] = [MOST_WATER; 6];
    let (ss, su, kind) = (surface, underlying, i32::from(card::MEASURED));
    let (z, water, modified) = (MOST_Z, WATER, MOST_X);
    let most = [z, p, pe, et, r, l, ro, ss, su, surface, underlying, water, modified, kind];
    records.iter().fold(true, |fit, record| {
        let ranges = least.iter().zip(&most);
        numbers(record).iter().zip(ranges).fold(fit, |fit, (x, (least, most))| fit & (least <= x) & (x <= most))
    })
}

// ---- The run before a month --------------------------------------------------------------------------------

/// The first of the months that were open before this one.
fn first_open(row: usize, k: &Columns) -> usize {
    let values = k.x1[..row].iter().zip(&k.x2[..row]).zip(&k.v[..row]);
    let decided = |((x1, x2), v): ((&i32, &i32), &i64)| *v == 0 && (*x1 == 0 || *x2 == 0);
    values.rev().position(decided).map_or(0, |back| row - back)
}

/// Has them show again what they showed when they were added.
fn reopen(first: usize, row: usize, k: &mut Columns) {
    let values = k.x1[first..row].iter().zip(&k.x2[first..row]).zip(&k.x3[first..row]);
    for (index, ((&x1, &x2), &x3)) in k.index[first..row].iter_mut().zip(values) {
        *index = match x3 {
            0 if x1 > -x2 => x1,
            0 => x2,
            _ => x3,
        };
    }
    k.mark[first..row].fill(OPEN);
}

/// Takes the run back to where it stood before this month.
fn go_back(run: &mut Run, first: usize, row: usize, k: &Columns) {
    let start = &k.records[row];
    let since = (run.months - row as u32) % 12;
    run.months = row as u32;
    run.opens = (row - first) as u32;
    run.calendar = (run.calendar + 11 - since) % 12 + 1;
    run.soil = Soil { surface: start.ss as u32, underlying: start.su as u32, ..run.soil };
    run.values = match row.checked_sub(1) {
        None => Values { x1: 0, x2: 0, x3: 0, v: 0 },
        Some(last) => Values { x1: k.x1[last], x2: k.x2[last], x3: k.x3[last], v: k.v[last] },
    };
}

// ---- The months once more ----------------------------------------------------------------------------------

/// Adds the run's next month from what its record has.
#[inline]
fn add_again(run: &mut Run, k: &mut Columns) {
    let month = run.months as usize;
    let Record { z, p, pe, water: had, kind, .. } = k.records[month];
    let start = [run.soil.surface, run.soil.underlying];
    let (water, z) = if had == WATER {
        let first = 5 * (run.calendar as usize - 1);
        let p = Amount { water: p as u32, kind: kind as u8 };
        let pe = Amount { water: pe as u32, kind: card::NONE };
        water_month(&mut run.soil, &run.constants[first..first + 5], p, pe)
    } else {
        (Water::default(), z)
    };
    k.records[month] = record_of(&water, z, start, &run.soil, had);
    add(run, water, z, k);
}

// ---- The report --------------------------------------------------------------------------------------------

/// Index and mark of these months, each at its place.
fn hold(first: usize, months: usize, k: &Columns, report: &mut [Change]) {
    let shown = k.index[first..months].iter().zip(&k.mark[first..months]);
    for (place, (index, mark)) in report[first..months].iter_mut().zip(shown) {
        (place.index_before, place.mark_before) = (*index, i32::from(*mark));
    }
}

/// Puts those of them that changed to the beginning of the report, which is no later place than the one that held it, and
/// clears what is left. How many changed.
fn tell(first: usize, months: usize, k: &Columns, report: &mut [Change]) -> u32 {
    let mut count = 0;
    for row in first..months {
        let Change { index_before, mark_before, .. } = report[row];
        let (index_after, mark_after) = (k.index[row], i32::from(k.mark[row]));
        if index_before != index_after || mark_before != mark_after {
            report[count] = Change { row: row as i32, index_before, index_after, mark_before, mark_after };
            count += 1;
        }
    }
    report[count..].fill(Change::default());
    count as u32
}
