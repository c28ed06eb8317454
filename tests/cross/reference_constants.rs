//! The reference's station constants, document 02's E10 with E11's zero K: a part of reference.rs, written from that document
//! and the two calls' description alone. The sentences quoted in the comments are the document's. A row's month of water is
//! worked out once more, as an add does it.

use super::*;
use crate::card::{Summed, Sums, WorkedOut};

/// "18 fewer than ten such years".
const LEAST_YEARS: usize = 10;
/// "Twelve first weights K' are lent in ten-thousandths, 0 to 100,000."
const WEIGHT: RangeInclusive<i32> = 0..=100_000;
/// "K = nearest to 176,700,000 K' / sum of D K'."
const ALL_DEPARTURES: i64 = 176_700_000;
/// A month's gamma and its K among its five constants.
const GAMMA: usize = 2;
const K: usize = 4;

/// The eight sums of one calendar month: 1, 7, 6, 18.
pub fn sum_month(run: &Run, month: i32, k: &Columns) -> Result<Summed, Refusal> {
    let rows = rows_of_adds(run, k)?;
    if !(1..=12).contains(&month) {
        return Err(Refusal::StartMonth);
    }
    let years = whole_years(run, &rows)?;
    let sums = sums_of(&years[month as usize - 1]);
    Ok(Summed { number: 0, years: years[0].len() as u32, sums })
}

/// "Station constants from the station's own record": 1, 7, 2, 3, 18, 19, 20, and "in E10 after 20" 21.
pub fn work_out(run: &Run, weights: &[i32], k: &Columns) -> Result<WorkedOut, Refusal> {
    let rows = rows_of_adds(run, k)?;
    // "2 or 3 (weights not twelve or out of range)".
    let weights: &[i32; 12] = weights.try_into().map_err(|_| Refusal::NotSixty)?;
    if !weights.iter().all(|weight| WEIGHT.contains(weight)) {
        return Err(Refusal::Constant);
    }
    let years = whole_years(run, &rows)?;
    let mut months: [[i64; 5]; 12] = [[0; 5]; 12];
    for (month, rows) in months.iter_mut().zip(&years) {
        month[..K].copy_from_slice(&shares(&sums_of(rows)));
    }
    // "19 gamma out of range".
    if months.iter().any(|month| month[GAMMA] > i64::from(MOST_CONSTANT[GAMMA])) {
        return Err(Refusal::Gamma);
    }
    let mut departures = [0; 12];
    for (d, (month, rows)) in departures.iter_mut().zip(months.iter().zip(&years)) {
        *d = departure(month, rows);
    }
    // "20 the sum of D K' is 0 or a K out of range".
    let sum: i64 = departures.iter().zip(weights).map(|(d, weight)| d * i64::from(*weight)).sum();
    if sum == 0 {
        return Err(Refusal::K);
    }
    for (month, weight) in months.iter_mut().zip(weights) {
        month[K] = nearest(ALL_DEPARTURES * i64::from(*weight), sum);
    }
    if months.iter().any(|month| month[K] > i64::from(MOST_CONSTANT[K])) {
        return Err(Refusal::K);
    }
    // "Constants from E10 with a zero K are refused there too."
    if months.iter().any(|month| month[K] == 0) {
        return Err(Refusal::ZeroK);
    }
    let mut constants = [0; 60];
    for (place, constant) in constants.iter_mut().zip(months.iter().flatten()) {
        *place = *constant as i32;
    }
    Ok(WorkedOut { number: 0, constants, departures: departures.map(|d| d as u32) })
}

// ---- Rows --------------------------------------------------------------------------------------------------

/// The water of each of the run's rows, none of a row that had none. "7 (here also any water row whose six figures and end
/// storages no add gives from its start storages)".
fn rows_of_adds(run: &Run, k: &Columns) -> Result<Vec<Option<Water>>, Refusal> {
    check(run, k)?;
    let water = |record: &Record| match record.water {
        WATER => of_an_add(record, run.soil.capacity).map(Some),
        _ => Some(None),
    };
    let rows: Option<Vec<Option<Water>>> = k.records[..run.months as usize].iter().map(water).collect();
    rows.ok_or(Refusal::NotARun)
}

/// The water of a record where an add gives it from its start storages.
fn of_an_add(record: &Record, capacity: u32) -> Option<Water> {
    let Record { p, pe, et, r, l, ro, ss, su, surface, underlying, .. } = *record;
    let [most_surface, most_underlying] = layers(capacity).map(|most| most as i32);
    let starts = (0..=most_surface).contains(&ss) && (0..=most_underlying).contains(&su);
    if !starts || ![p, pe].iter().all(|reading| (0..=100_000).contains(reading)) {
        return None;
    }
    let mut soil = Soil { capacity, surface: ss as u32, underlying: su as u32 };
    let (water, _) = water_month(&mut soil, &[0; 5], whole(p), whole(pe));
    let gives = [water.et, water.r, water.ls + water.lu, water.ro, soil.surface, soil.underlying];
    (gives.map(|amount| amount as i32) == [et, r, l, ro, surface, underlying]).then_some(water)
}

/// The rows of each calendar month, January first, in "every January to December inside the run". "18 fewer than ten such
/// years or one with a Z-only month".
fn whole_years(run: &Run, rows: &[Option<Water>]) -> Result<[Vec<Water>; 12], Refusal> {
    // The run's calendar month is that of the month after the last row.
    let first_row = (i64::from(run.calendar) - 1 - i64::from(run.months)).rem_euclid(12);
    let january = (12 - first_row as usize) % 12;
    let years: Vec<&[Option<Water>]> = rows.get(january..).unwrap_or(&[]).chunks_exact(12).collect();
    if years.len() < LEAST_YEARS {
        return Err(Refusal::FewYears);
    }
    let mut months = [(); 12].map(|()| Vec::with_capacity(years.len()));
    for year in years {
        for (month, row) in months.iter_mut().zip(year) {
            month.push(row.ok_or(Refusal::FewYears)?);
        }
    }
    Ok(months)
}

// ---- Sums, shares and departures ---------------------------------------------------------------------------

fn sums_of(rows: &[Water]) -> Sums {
    rows.iter().fold(Sums::default(), |sums, row| Sums {
        et: sums.et + row.et,
        pe: sums.pe + row.pe,
        r: sums.r + row.r,
        pr: sums.pr + row.pr,
        ro: sums.ro + row.ro,
        pro: sums.pro + row.pro,
        l: sums.l + row.ls + row.lu,
        pl: sums.pl + row.pl,
    })
}

/// "Alpha = sum ET / sum PE, beta = sum R / sum PR, gamma = sum RO / sum PRO, delta = sum L / sum PL, nearest, 0 where the
/// divisor is 0", in ten-thousandths.
fn shares(sums: &Sums) -> [i64; 4] {
    let share = |part: u32, of: u32| match of {
        0 => 0,
        _ => nearest(10_000 * i64::from(part), i64::from(of)),
    };
    [share(sums.et, sums.pe), share(sums.r, sums.pr), share(sums.ro, sums.pro), share(sums.l, sums.pl)]
}

/// "D the calendar month's mean size of P - CAFEC by the new constants in thousandths, nearest".
fn departure(constants: &[i64; 5], rows: &[Water]) -> i64 {
    let sizes = rows.iter().map(|row| (i64::from(row.p) - cafec(constants, row)).abs());
    nearest(sizes.sum(), rows.len() as i64)
}

/// "N = alpha PE + beta PR + gamma PRO - delta PL. CAFEC precipitation is nearest to N/10,000."
fn cafec([alpha, beta, gamma, delta, _]: &[i64; 5], row: &Water) -> i64 {
    let [pe, pr, pro, pl] = [row.pe, row.pr, row.pro, row.pl].map(i64::from);
    nearest(alpha * pe + beta * pr + gamma * pro - delta * pl, 10_000)
}
