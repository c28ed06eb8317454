//! The reference's repair of a wrong month, document 02's E8: a part of reference.rs. The sentences quoted in the comments are
//! that document's. What it leaves open, as which months were open before one and where the run stood, is written from the
//! call's description, after the library's own definitions were seen; what does not hang on them is that a repair comes to what
//! a fresh run does (repair_runs.rs).

use super::*;
use crate::card::Change;

/// "Takes a run with E6's rows, a month and its new readings, and reworks from there." It hands back how many months it
/// reports. "17 no water in that month, after 11 and before 8": 1, 7, 11, 17, precipitation 8 or 9, PE 8 or 9.
pub fn repair(
    run: &mut Run,
    row: usize,
    p: &Reading,
    pe: &Reading,
    k: &mut Columns,
    report: &mut [Change],
) -> Result<u32, Refusal> {
    // "1 covers the report lists."
    if report.len() != k.x1.len() {
        return Err(Refusal::Lengths);
    }
    check(run, k)?;
    let months = run.months as usize;
    if !(0..months).all(|month| row_in_range(month, run.soil.capacity, k)) {
        return Err(Refusal::NotARun);
    }
    if row >= months {
        return Err(Refusal::NoRow);
    }
    if k.records[row].water != WATER {
        return Err(Refusal::Waterless);
    }
    let new_p = read(p)?;
    let new_pe = read(pe)?;
    let shown: Vec<(i32, u8)> = k.index.iter().copied().zip(k.mark.iter().copied()).take(months).collect();
    *run = run_before(run, row, k);
    reopen(run, k);
    let _ = add_amounts(run, new_p, new_pe, k);
    while (run.months as usize) < months {
        add_again(run, k);
    }
    Ok(tell(&shown, k, report))
}

// ---- What is recorded of a month ---------------------------------------------------------------------------

/// X1, X2, X3 and V after a month.
fn values_at(month: usize, k: &Columns) -> Values {
    Values { x1: k.x1[month], x2: k.x2[month], x3: k.x3[month], v: k.v[month] }
}

/// "7 here also covers any recorded figure outside its range (ET, R, L, RO 0 to 100,000; index as X; V by its row)." X1, X2,
/// X3 and V of the month are as those of a run that ends with it.
fn row_in_range(month: usize, capacity: u32, k: &Columns) -> bool {
    let Values { x1, x2, x3, v } = values_at(month, k);
    let most_v = 4_000_150 * (month as u64 + 1);
    let values = x1 >= 0
        && x1 <= MOST_X
        && x2 <= 0
        && x2 >= -MOST_X
        && x3.unsigned_abs() <= MOST_X as u32
        && v.unsigned_abs() <= most_v
        && (v == 0 || v > 0 && x3 < 0 || v < 0 && x3 > 0);
    values
        && index_in_range(k.index[month])
        && (k.mark[month] == OPEN || k.mark[month] == SETTLED)
        && record_in_range(&k.records[month], capacity)
}

/// "An X beyond 13,000,000 in size" is none.
const MOST_X: i32 = 13_000_000;

fn index_in_range(x: i32) -> bool {
    x.unsigned_abs() <= MOST_X as u32
}

fn record_in_range(record: &Record, capacity: u32) -> bool {
    let Record { z, p, pe, et, r, l, ro, ss, su, surface, underlying, water, modified, kind } = *record;
    let [most_surface, most_underlying] = layers(capacity).map(|most| most as i32);
    z.unsigned_abs() <= MOST_Z as u32
        && [p, pe, et, r, l, ro].iter().all(|amount| (0..=100_000).contains(amount))
        && (0..=most_surface).contains(&ss)
        && (0..=most_underlying).contains(&su)
        && (0..=most_surface).contains(&surface)
        && (0..=most_underlying).contains(&underlying)
        && (water == WATER || water == NO_WATER)
        && index_in_range(modified)
        && (0..=i32::from(card::MEASURED)).contains(&kind)
}

// ---- The run before a month --------------------------------------------------------------------------------

/// Where the run stood before the month of this row, from the rows alone.
fn run_before(run: &Run, row: usize, k: &Columns) -> Run {
    let since = (run.months - row as u32) % 12;
    let start = &k.records[row];
    Run {
        months: row as u32,
        opens: (0..row).rev().take_while(|&month| !decided(month, k)).count() as u32,
        calendar: (run.calendar + 11 - since) % 12 + 1,
        soil: Soil { surface: start.ss as u32, underlying: start.su as u32, ..run.soil },
        values: if row == 0 { Values { x1: 0, x2: 0, x3: 0, v: 0 } } else { values_at(row - 1, k) },
        constants: run.constants,
    }
}

/// Whether a month decided. Its mark does not say: a later month may have settled it.
fn decided(month: usize, k: &Columns) -> bool {
    k.v[month] == 0 && (k.x1[month] == 0 || k.x2[month] == 0)
}

/// The run's open months, which later ones may have settled, show their provisional index again.
fn reopen(run: &Run, k: &mut Columns) {
    let end = run.months as usize;
    for month in end - run.opens as usize..end {
        let (x1, x2, x3) = (k.x1[month], k.x2[month], k.x3[month]);
        let larger = if x1.abs() > x2.abs() { x1 } else { x2 };
        k.index[month] = if x3 != 0 { x3 } else { larger };
        k.mark[month] = OPEN;
    }
}

// ---- Reworking and telling ---------------------------------------------------------------------------------

/// Adds a month once more, from what its record has: its water, or its Z where it had none.
fn add_again(run: &mut Run, k: &mut Columns) {
    let Record { z, p, pe, water, kind, .. } = k.records[run.months as usize];
    if water == WATER {
        let kept_p = Amount { water: p as u32, kind: kind as u8 };
        let _ = add_amounts(run, kept_p, whole(pe), k);
    } else {
        add_known_z(run, z, k);
    }
}

/// "It reports each month whose index or mark changed, oldest first, with both values"; what is left of the report is 0. How
/// many it reports.
fn tell(shown: &[(i32, u8)], k: &Columns, report: &mut [Change]) -> u32 {
    report.fill(Change::default());
    let now = k.index.iter().zip(&*k.mark);
    let changed = shown.iter().zip(now).enumerate().filter(|(_, (was, (index, mark)))| **was != (**index, **mark));
    let mut count = 0;
    for ((row, (was, (index, mark))), place) in changed.zip(report) {
        *place = Change {
            row: row as i32,
            index_before: was.0,
            index_after: *index,
            mark_before: i32::from(was.1),
            mark_after: i32::from(*mark),
        };
        count += 1;
    }
    count
}
