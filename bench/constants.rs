//! The two calls of bench/peer.rs that work constants out: no list besides those that are lent, and linear in the months. Every
//! row is asked first; then the years are gone through once for the sums and once for the departures.

/// The reference again, for this file alone, so that what it has compiled in place elsewhere stays as it is.
#[path = "../tests/cross/reference.rs"]
mod reference;

use crate::card::{Columns, Record, Run, Summed, Sums, WorkedOut, CONSTANTS, WEIGHTS};
use reference::{check, layers, Refusal, WATER};

const MOST_READING: u32 = 100_000;
const MOST_WEIGHT: u32 = 100_000;
const MOST_GAMMA: u32 = 50_000;
const MOST_K: u64 = 100_000;
const LEAST_YEARS: usize = 10;
const ALL_DEPARTURES: u64 = 176_700_000;

/// Answers and refuses as the reference's does.
pub fn sum_month(run: &Run, month: i32, k: &Columns) -> Result<Summed, Refusal> {
    let rows = rows_of_adds(run, k)?;
    let month = match month {
        1..=12 => month as usize - 1,
        _ => return Err(Refusal::StartMonth),
    };
    let years = whole_years(run, rows)?;
    let (count, capacity) = (years.len() / 12, run.soil.capacity);
    Ok(Summed { number: 0, years: count as u32, sums: sums(&years[month..], count, capacity) })
}

/// Answers and refuses as the reference's does.
pub fn work_out(run: &Run, weights: &[i32], k: &Columns) -> Result<WorkedOut, Refusal> {
    let rows = rows_of_adds(run, k)?;
    let weights: &[i32; WEIGHTS] = weights.try_into().map_err(|_| Refusal::NotSixty)?;
    if weights.iter().any(|weight| *weight as u32 > MOST_WEIGHT) {
        return Err(Refusal::Constant);
    }
    let years = whole_years(run, rows)?;
    let (count, capacity) = (years.len() / 12, run.soil.capacity);
    let mut worked = WorkedOut { number: 0, constants: [0; CONSTANTS], departures: [0; WEIGHTS] };
    let mut weighed = 0;
    for month in 0..12 {
        let own = &years[month..];
        let shares = shares(&sums(own, count, capacity));
        if shares[2] > MOST_GAMMA {
            return Err(Refusal::Gamma);
        }
        let d = departure(own, count, capacity, &shares);
        let places = worked.constants[5 * month..].iter_mut().zip(shares);
        places.for_each(|(place, share)| *place = share as i32);
        worked.departures[month] = d;
        weighed += u64::from(d) * weights[month] as u64;
    }
    if weighed == 0 {
        return Err(Refusal::K);
    }
    let mut none = false;
    for (month, weight) in worked.constants.chunks_exact_mut(5).zip(weights) {
        let k = (ALL_DEPARTURES * *weight as u64 + weighed / 2) / weighed;
        if k > MOST_K {
            return Err(Refusal::K);
        }
        none |= k == 0;
        month[4] = k as i32;
    }
    if none {
        return Err(Refusal::ZeroK);
    }
    Ok(worked)
}

// ---- Rows --------------------------------------------------------------------------------------------------

/// The rows of the run, where all is as 1 and 7 ask.
#[inline(always)]
fn rows_of_adds<'a>(run: &Run, k: &'a Columns) -> Result<&'a [Record], Refusal> {
    check(run, k)?;
    let rows = &k.records[..run.months as usize];
    match are_of_adds(rows, run.soil.capacity) {
        true => Ok(rows),
        false => Err(Refusal::NotARun),
    }
}

/// Whether an add gives every row of water.
fn are_of_adds(rows: &[Record], capacity: u32) -> bool {
    let most = layers(capacity);
    for row in rows {
        if row.water == WATER && !is_of_an_add(row, capacity, most) {
            return false;
        }
    }
    true
}

/// A number below 0 comes out above every range.
#[inline(always)]
fn is_of_an_add(row: &Record, capacity: u32, [most_ss, most_su]: [u32; 2]) -> bool {
    let (p, pe, ss, su) = (row.p as u32, row.pe as u32, row.ss as u32, row.su as u32);
    if p > MOST_READING || pe > MOST_READING || ss > most_ss || su > most_su {
        return false;
    }
    let is = |amount: i32, gives: u32| amount as u32 == gives;
    if p < pe {
        let ls = ss.min(pe - p);
        let lu = underlying_loss(pe - p - ls, su, capacity);
        let lost = ls + lu;
        let ends = is(row.surface, ss - ls) && is(row.underlying, su - lu);
        ends && is(row.l, lost) && is(row.et, p + lost) && row.r == 0 && row.ro == 0
    } else {
        let upper = (p - pe).min(most_ss - ss);
        let lower = (p - pe - upper).min(most_su - su);
        let ends = is(row.surface, ss + upper) && is(row.underlying, su + lower);
        ends && is(row.et, pe) && is(row.r, upper + lower) && is(row.ro, p - pe - upper - lower) && row.l == 0
    }
}

/// Nearest to the amount x Su / C, at most Su.
#[inline(always)]
fn underlying_loss(amount: u32, su: u32, capacity: u32) -> u32 {
    ((amount * su + capacity / 2) / capacity).min(su)
}

/// The rows from the first January to the last December, ten years of them or more, all with water.
#[inline(always)]
fn whole_years<'a>(run: &Run, rows: &'a [Record]) -> Result<&'a [Record], Refusal> {
    let january = (rows.len() + 13 - run.calendar as usize) % 12;
    let years = rows.len().saturating_sub(january) / 12;
    if years < LEAST_YEARS {
        return Err(Refusal::FewYears);
    }
    let years = &rows[january..january + 12 * years];
    match years.iter().all(|row| row.water == WATER) {
        true => Ok(years),
        false => Err(Refusal::FewYears),
    }
}

// ---- Sums, shares and departures ---------------------------------------------------------------------------

/// PRO and PL of a row.
#[inline(always)]
fn potentials(row: &Record, capacity: u32) -> (u32, u32) {
    let (pe, ss, su) = (row.pe as u32, row.ss as u32, row.su as u32);
    let pls = pe.min(ss);
    (ss + su, pls + underlying_loss(pe - pls, su, capacity))
}

/// Of every twelfth row.
fn sums(rows: &[Record], years: usize, capacity: u32) -> Sums {
    let mut sums = Sums::default();
    for row in rows.iter().step_by(12) {
        let (pro, pl) = potentials(row, capacity);
        sums.et += row.et as u32;
        sums.pe += row.pe as u32;
        sums.r += row.r as u32;
        sums.ro += row.ro as u32;
        sums.pro += pro;
        sums.l += row.l as u32;
        sums.pl += pl;
    }
    sums.pr = years as u32 * capacity - sums.pro;
    sums
}

#[inline(always)]
fn shares(sums: &Sums) -> [u32; 4] {
    let Sums { et, pe, r, pr, ro, pro, l, pl } = *sums;
    [(et, pe), (r, pr), (ro, pro), (l, pl)].map(|(part, of)| match u64::from(of) {
        0 => 0,
        of => ((10_000 * u64::from(part) + of / 2) / of) as u32,
    })
}

/// D of every twelfth row. PR is C - PRO.
fn departure(rows: &[Record], years: usize, capacity: u32, shares: &[u32; 4]) -> u32 {
    let [alpha, beta, gamma, delta] = shares.map(i64::from);
    let (fixed, of_pro) = (beta * i64::from(capacity), gamma - beta);
    let mut sizes = 0;
    for row in rows.iter().step_by(12) {
        let (pro, pl) = potentials(row, capacity);
        let n = fixed + alpha * i64::from(row.pe) + of_pro * i64::from(pro) - delta * i64::from(pl);
        let cafec = (if n < 0 { n - 5_000 } else { n + 5_000 }) / 10_000;
        sizes += (i64::from(row.p) - cafec).unsigned_abs();
    }
    ((sizes + years as u64 / 2) / years as u64) as u32
}
