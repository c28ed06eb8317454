//! Constants worked out of runs that are made for it: K, gamma, D and CAFEC at their ends, at exact halves and beside them, and
//! the longest runs with the largest readings. Over a soil that is full from the start and loses nothing all precipitation runs
//! off: with a capacity of 10,000 gamma is the mean of a calendar month's P, and so is its CAFEC.

use crate::card::{self, Run};
use crate::check::{differ, Call, Check};
use crate::constants::LOST;
use crate::constants_rows::{given, of_rows};
use crate::lists::{Fill, Lists};
use crate::random::Random;
use crate::reference::{layers, MOST_MONTHS};

/// A run of these months of water, from storages that are full or empty, and its columns.
pub fn made(c: &mut Check, capacity: i32, full: bool, start: i32, months: &[[i32; 2]]) -> (Run, Lists) {
    let mut seven = Lists::new(&mut c.random, [months.len(); 7], Fill::AnyBits).library;
    let [surface, underlying] = layers(capacity as u32).map(|most| if full { most as i32 } else { 0 });
    let run = card::start(&LOST, capacity, surface, underlying, start).run;
    let (p, pe): (Vec<i32>, Vec<i32>) = months.iter().map(|[p, pe]| (p, pe)).unzip();
    let season = card::add_season(run, &p, &pe, &mut seven.lend());
    assert_eq!((season.number, season.added as usize), (0, months.len()));
    (season.run, Lists::of(seven))
}

/// Ten years over a full soil, without PE, whose P is this in each month of each year.
pub fn full_years(c: &mut Check, capacity: i32, p: impl Fn(usize, usize) -> i32) -> (Run, Lists) {
    let months: Vec<[i32; 2]> = (0..120).map(|row| [p(row / 12, row % 12), 0]).collect();
    made(c, capacity, true, 1, &months)
}

/// Ten years whose departures are these.
pub fn with_departures(c: &mut Check, departures: &[i32; 12]) -> (Run, Lists) {
    full_years(c, 10_000, |year, month| {
        let d = departures[month];
        4_000 + if year % 2 == 0 { d } else { -d }
    })
}

/// Twelve of this number, but for these places.
pub fn list(others: i32, places: &[(usize, i32)]) -> [i32; 12] {
    let mut list = [others; 12];
    places.iter().for_each(|(place, number)| list[*place] = *number);
    list
}

pub fn exact(c: &mut Check) {
    most_k(c);
    least_k(c);
    most_gamma(c);
    departures(c);
    divisors(c);
    longest(c);
    largest(c);
}

/// K and D of an answer of 0 are these at a place.
fn expect_at(c: &mut Check, run: &Run, weights: &[i32], lists: &mut Lists, place: usize, [k, d]: [i32; 2]) {
    let worked = c.expect_work(run, weights, lists, 0);
    let held = [worked.constants[5 * place + 4], worked.departures[place] as i32];
    if held != [k, d] {
        differ(Call::WorkOut, &(run, weights, place), &held, &[k, d]);
    }
}

// ---- K -----------------------------------------------------------------------------------------------------

/// A K of 100,000 and beside it: equal weights, for which it goes by the sum of D alone; and a K of exactly 100,000.5, where the
/// weight is 66,667 and the sum of D K' 117,800,000, and of a little less. In each month, with each other one.
fn most_k(c: &mut Check) {
    c.kind("constants, K at its end");
    for (sum, number) in [(1_766, 20), (1_767, 0), (1_768, 0)] {
        for place in 0..12 {
            let (run, mut lists) = with_departures(c, &list(1, &[(place, sum - 11)]));
            for weight in [1, 2, 3, 10_000, 99_999, 100_000] {
                c.expect_work(&run, &[weight; 12], &mut lists, number);
                if sum == 1_767 {
                    expect_at(c, &run, &[weight; 12], &mut lists, place, [100_000, 1_756]);
                }
            }
        }
    }
    for (large, other) in pairs_of_places() {
        let third = (0..12).find(|place| ![large, other].contains(place)).unwrap_or(0);
        let weights = list(60_000, &[(large, 66_667), (other, 62_000), (third, 1)]);
        let (run, mut lists) = with_departures(c, &list(0, &[(other, 1_900)]));
        c.expect_work(&run, &weights, &mut lists, card::BAD_K);
        let (run, mut lists) = with_departures(c, &list(0, &[(other, 1_900), (third, 1)]));
        expect_at(c, &run, &weights, &mut lists, large, [100_000, 0]);
        // 1.4999..
        expect_at(c, &run, &weights, &mut lists, third, [1, 1]);
        // one K above its range, and one that is 0, before it or after it
        let zero = list(60_000, &[(large, 100_000), (other, 62_000), (third, 0)]);
        c.expect_work(&run, &zero, &mut lists, card::BAD_K);
    }
}

fn pairs_of_places() -> impl Iterator<Item = (usize, usize)> {
    (0..144).map(|pair| (pair / 12, pair % 12)).filter(|(one, other)| one != other)
}

/// A K of exactly 0.5, where the weight is 1 and the sum of D K' 353,400,000, and of a little less; of 1.5; and weights of 0.
fn least_k(c: &mut Check) {
    c.kind("constants, K of 0");
    for (tiny, other) in pairs_of_places() {
        let weights = list(50_000, &[(tiny, 1), (other, 100_000)]);
        let (run, mut lists) = with_departures(c, &list(0, &[(other, 3_534)]));
        expect_at(c, &run, &weights, &mut lists, tiny, [1, 0]);
        let (run, mut lists) = with_departures(c, &list(0, &[(other, 3_534), (tiny, 1)]));
        c.expect_work(&run, &weights, &mut lists, card::ZERO_K);
        let none = list(50_000, &[(tiny, 0), (other, 100_000)]);
        c.expect_work(&run, &none, &mut lists, card::ZERO_K);
        let alone = list(0, &[(other, 100_000)]);
        c.expect_work(&run, &alone, &mut lists, card::ZERO_K);
        let nowhere = list(0, &[((0..12).find(|place| ![tiny, other].contains(place)).unwrap_or(0), 100_000)]);
        c.expect_work(&run, &nowhere, &mut lists, card::BAD_K);
        let (run, mut lists) = with_departures(c, &list(0, &[(other, 1_900)]));
        let half = list(60_000, &[(tiny, 1), (other, 62_000)]);
        expect_at(c, &run, &half, &mut lists, tiny, [2, 0]);
        c.expect_work(&run, &[0; 12], &mut lists, card::BAD_K);
    }
    let (run, mut lists) = with_departures(c, &[0; 12]);
    c.expect_work(&run, &[100_000; 12], &mut lists, card::BAD_K);
}

// ---- Gamma, D and CAFEC ------------------------------------------------------------------------------------

/// A gamma of 50,000 and beside it: over 10,000 its tenth is P's sum of ten years, over 100 a thousandth of an inch is 10 of it
/// in one of ten years.
fn most_gamma(c: &mut Check) {
    c.kind("constants, gamma at its end");
    for place in 0..12 {
        for sum in [499_994, 499_995, 499_999, 500_000, 500_004, 500_005, 500_006, 500_015, 1_000_000] {
            let p = |year: usize, month: usize| match (month == place, year) {
                (true, 0) => sum / 10 + sum % 10,
                (true, _) => sum / 10,
                _ => [3_000, 3_400][year % 2],
            };
            let (run, mut lists) = full_years(c, 10_000, p);
            c.expect_work(&run, &[10_000; 12], &mut lists, if sum < 500_005 { 0 } else { card::BAD_GAMMA });
            c.expect_sum(&run, place as i32 + 1, &mut lists, 0);
        }
        for sum in [4_999, 5_000, 5_001] {
            let p = |year: usize, month: usize| match (month == place, year) {
                (true, 9) => sum / 10 + sum % 10,
                (true, _) => sum / 10,
                _ => [0, 500][year % 2],
            };
            let (run, mut lists) = full_years(c, 100, p);
            c.expect_work(&run, &[10_000; 12], &mut lists, if sum <= 5_000 { 0 } else { card::BAD_GAMMA });
        }
    }
}

/// D at exact halves and beside them: the sizes of ten years come to 10 d + 4, 5 and 6; and CAFEC at exact halves, over 15,000
/// and 5,000, where gamma is odd.
fn departures(c: &mut Check) {
    c.kind("constants, D and CAFEC at halves");
    for place in 0..12 {
        for (off, d) in [([2, -2], 300), ([3, -2], 301), ([3, -3], 301), ([0, 0], 300), ([4, -3], 301)] {
            let p = |year: usize, month: usize| match (month == place, year) {
                (true, 0 | 1) => 4_000 + off[year] + if year == 0 { 300 } else { -300 },
                _ => 4_000 + if year % 2 == 0 { 300 } else { -300 },
            };
            let (run, mut lists) = full_years(c, 10_000, p);
            let k = if d == 300 { 49_083 } else { 49_070 };
            expect_at(c, &run, &[10_000; 12], &mut lists, place, [k, d]);
        }
    }
    for capacity in [15_000, 5_000, 25_000, 29_000] {
        for mean in [1_501, 4_503, 3_000] {
            for more in 0..12 {
                let p = |year, month| mean + [300, -300][year % 2] + if year == month { more } else { 0 };
                let (run, mut lists) = full_years(c, capacity, p);
                c.expect_work(&run, &[10_000; 12], &mut lists, 0);
            }
        }
    }
}

/// Each divisor 0, in all years: no PE, and with it no PL, over a full soil no PR, over an empty one no PRO and no PL.
fn divisors(c: &mut Check) {
    c.kind("constants, divisors of 0");
    for capacity in [100, 999, 1_000, 1_001, 30_000] {
        for (full, [p, pe]) in [(true, [500, 0]), (true, [0, 0]), (false, [500, 900]), (false, [0, 0])] {
            for years in [10, 11, 40] {
                let off = |row: usize| if row / 12 % 2 == 0 { p * 3 / 5 } else { 0 };
                let months: Vec<[i32; 2]> = (0..12 * years).map(|row| [p + off(row), pe]).collect();
                let (run, mut lists) = made(c, capacity, full, 1, &months);
                let worked = c.work_out(&run, &[10_000; 12], &mut lists);
                for month in 1..=12 {
                    let sums = c.expect_sum(&run, month, &mut lists, 0).sums;
                    let none = if full { sums.pr } else { sums.pro };
                    assert!(none == 0 && sums.pl == 0 && (pe > 0) == (sums.pe > 0), "{sums:?} {worked:?}");
                }
            }
        }
    }
}

// ---- The longest runs --------------------------------------------------------------------------------------

/// Readings at their ends in all months of 12,000, from every calendar month on, the same in all years or in turn.
fn longest(c: &mut Check) {
    c.kind("constants, 12,000 months");
    const MOST: i32 = 100_000;
    let years = [[MOST, 0], [0, MOST], [MOST, MOST], [0, 0]];
    for start in 1..=12 {
        for [even, odd] in [[2, 2], [0, 0], [0, 1], [1, 2], [0, 2], [0, 3]] {
            let capacity = c.random.pick(&[100, 1_000, 20_000, 30_000, 30_000]);
            let reading = |row: usize| years[if (row + start as usize - 1) / 12 % 2 == 0 { even } else { odd }];
            let months: Vec<[i32; 2]> = (0..MOST_MONTHS).map(reading).collect();
            let (run, mut lists) = made(c, capacity, start % 2 == 0, start, &months);
            c.work_out(&run, &[MOST; 12], &mut lists);
            for month in [1, start, 12] {
                let sums = c.expect_sum(&run, month, &mut lists, 0);
                assert_eq!(sums.years, if start == 1 { 1_000 } else { 999 });
                assert!([even, odd] != [2, 2] || sums.sums.et == sums.years * MOST as u32);
            }
            c.untouched(&run, &mut lists);
        }
    }
}

/// A gamma of 50,000 of the largest PRO, so that N passes 32 binary digits and CAFEC is 250,000: in 7 of 22 years all of 100,000
/// evaporates over a full soil, in the others it fills an empty one and the rest runs off.
fn largest(c: &mut Check) {
    c.kind("constants, the largest CAFEC");
    for years in [22, 990] {
        let row = |random: &mut Random, month: usize| match month / 12 % 22 {
            0..=6 => given(random, 30_000, [100_000, 100_000, 1_000, 29_000]),
            _ => given(random, 30_000, [100_000, 0, 0, 0]),
        };
        let (run, seven) = of_rows(&mut c.random, [12 * years, 12 * years], 30_000, row);
        let (run, mut lists) = (Run { calendar: 1, ..run }, Lists::of(seven));
        for weight in [1, 100_000] {
            expect_at(c, &run, &[weight; 12], &mut lists, 7, [154, 95_455]);
        }
        c.untouched(&run, &mut lists);
    }
}
