//! Constants worked out of runs from their start on, each held to what its own adds answered and to no reference: the years by
//! walking the calendar, the sums by the adds' figures, D by the CAFEC of the same months added anew with the new constants.

use crate::add::Add;
use crate::card::{self, Columns, Reading, Run, Summed, Sums, Water, WorkedOut};
use crate::check::{differ, Call, Check};
use crate::constants::{exactly, good_weights, pairs, LOST, REFUSED};
use crate::lists::{Fill, Lists};
use crate::random::Random;
use crate::repair::Repair;
use crate::runs::{good_constants, good_soil};
use crate::trace::no_water;

/// A run from its start on: capacity, storages and calendar month there, what its months were added with, and the water that
/// each add answered with.
struct Station {
    soil: [i32; 4],
    months: Vec<Add>,
    told: Vec<Water>,
    run: Run,
    lists: Lists,
}

/// Adds months to a fresh run.
fn add_all(constants: &[i32], soil: [i32; 4], months: &[Add], k: &mut Columns) -> (Run, Vec<Water>) {
    let [capacity, surface, underlying, month] = soil;
    let started = card::start(constants, capacity, surface, underlying, month);
    if started.number != 0 {
        differ(Call::WorkOut, &(constants, soil), &started.number, &"constants that a start takes");
    }
    let mut run = started.run;
    let add = |what: &Add| {
        let added = what.library(&run, k);
        run = added.run;
        added.figures.water
    };
    let told = months.iter().map(add).collect();
    (run, told)
}

/// Sixty constants of these shares, each month with this K.
fn with_k(shares: &[[i128; 4]; 12], k: [i128; 12]) -> [i32; 60] {
    let mut constants = [0; 60];
    for (month, (shares, k)) in constants.chunks_exact_mut(5).zip(shares.iter().zip(k)) {
        let five = shares.iter().copied().chain([k]);
        month.iter_mut().zip(five).for_each(|(place, constant)| *place = constant as i32);
    }
    constants
}

impl Station {
    fn new(c: &mut Check, constants: &[i32], soil: [i32; 4], months: Vec<Add>, room: usize) -> Station {
        let mut seven = Lists::new(&mut c.random, [months.len() + room; 7], Fill::AnyBits).library;
        let (run, told) = add_all(constants, soil, &months, &mut seven.lend());
        Station { soil, months, told, run, lists: Lists::of(seven) }
    }

    /// The rows of every January to December inside the run.
    fn years(&self) -> Vec<Vec<usize>> {
        let (mut years, mut year, mut calendar) = (Vec::new(), Vec::new(), self.soil[3]);
        for row in 0..self.months.len() {
            year.push(row);
            if calendar == 12 {
                years.push(std::mem::take(&mut year));
            }
            calendar = calendar % 12 + 1;
        }
        years.retain(|year| year.len() == 12);
        years
    }

    /// Repairs one of the months, where it had water: all of them are then as if they had been added so.
    fn repair(&mut self, c: &mut Check, constants: &[i32]) {
        let row = c.random.below(self.months.len().max(1) as u64) as usize;
        let [p, pe] = [(); 2].map(|()| Reading::whole(c.random.within(0, 3_000) as i32));
        let repaired = c.repair(&Repair { row, p, pe }, &self.run, &mut self.lists);
        if repaired.number == 0 {
            (self.run, self.months[row]) = (repaired.run, Add::Water(p, pe));
            let mut seven = self.lists.library.clone();
            self.told = add_all(constants, self.soil, &self.months, &mut seven.lend()).1;
        }
    }

    fn sums(&self, years: &[Vec<usize>], month: usize) -> Sums {
        let rows = || years.iter().map(|year| &self.told[year[month]]);
        let sum = |figure: fn(&Water) -> u32| rows().map(figure).sum();
        Sums {
            et: sum(|row| row.et),
            pe: sum(|row| row.pe),
            r: sum(|row| row.r),
            pr: sum(|row| row.pr),
            ro: sum(|row| row.ro),
            pro: sum(|row| row.pro),
            l: sum(|row| row.ls + row.lu),
            pl: sum(|row| row.pl),
        }
    }

    /// The same months added anew, by other constants: the run, its columns, and D of each calendar month by their CAFEC.
    fn anew(&self, c: &mut Check, constants: &[i32], years: &[Vec<usize>]) -> (Run, Lists, [i128; 12]) {
        let mut seven = Lists::new(&mut c.random, [self.months.len(); 7], Fill::AnyBits).library;
        let (run, told) = add_all(constants, self.soil, &self.months, &mut seven.lend());
        let mut departures = [0; 12];
        for (month, d) in departures.iter_mut().enumerate() {
            let off = |row: &Water| (i128::from(row.p) - i128::from(row.cafec)).abs();
            let sizes = years.iter().map(|year| off(&told[year[month]])).sum();
            *d = exactly(sizes, years.len() as i128).0;
        }
        (run, Lists::of(seven), departures)
    }

    /// Holds both calls to what the adds answered.
    fn hold(&mut self, c: &mut Check) {
        c.worked.held += 1;
        let years = self.years();
        let without = years.iter().flatten().any(|row| matches!(self.months[*row], Add::Z(_)));
        if years.len() < 10 || without {
            let (month, weights) = (c.random.within(1, 12) as i32, good_weights(&mut c.random));
            c.expect_sum(&self.run, month, &mut self.lists, card::FEW_YEARS);
            c.expect_work(&self.run, &weights, &mut self.lists, card::FEW_YEARS);
            return;
        }
        let mut shares = [[0; 4]; 12];
        for (month, shares) in shares.iter_mut().enumerate() {
            let sums = self.sums(&years, month);
            let wanted = Summed { number: 0, years: years.len() as u32, sums };
            let summed = c.sum_month(&self.run, month as i32 + 1, &mut self.lists);
            if summed != wanted {
                differ(Call::SumMonth, &(month + 1, self.soil, &self.months), &summed, &wanted);
            }
            *shares = pairs(&sums).map(|[part, of]| if of == 0 { 0 } else { exactly(10_000 * part, of).0 });
        }
        self.hold_work(c, &years, &shares);
    }

    fn hold_work(&mut self, c: &mut Check, years: &[Vec<usize>], shares: &[[i128; 4]; 12]) {
        let fits = shares.iter().all(|month| month[2] <= 50_000);
        // a start says whether alpha, beta and delta are in their ranges
        let departures = if fits { self.anew(c, &with_k(shares, [1; 12]), years).2 } else { [0; 12] };
        for number in 0..3 {
            let weights = good_weights(&mut c.random);
            let wanted = if fits { weighed(shares, &departures, &weights) } else { refused(card::BAD_GAMMA) };
            let worked = c.work_out(&self.run, &weights, &mut self.lists);
            if worked != wanted {
                differ(Call::WorkOut, &(&weights, self.soil, &self.months), &worked, &wanted);
            }
            if number == 0 && worked.number == 0 {
                let (run, mut lists, again) = self.anew(c, &worked.constants, years);
                let once_more = c.work_out(&run, &weights, &mut lists);
                if again.map(|d| d as u32) != worked.departures || once_more != worked {
                    let inputs = (&weights, self.soil, &self.months, "anew");
                    differ(Call::WorkOut, &inputs, &(again, once_more), &worked);
                }
            }
        }
    }
}

fn refused(number: u8) -> WorkedOut {
    WorkedOut { number, ..REFUSED }
}

/// The answer with these shares and departures.
fn weighed(shares: &[[i128; 4]; 12], departures: &[i128; 12], weights: &[i32]) -> WorkedOut {
    let sum: i128 = departures.iter().zip(weights).map(|(d, weight)| d * i128::from(*weight)).sum();
    if sum == 0 {
        return refused(card::BAD_K);
    }
    let mut k = [0; 12];
    k.iter_mut().zip(weights).for_each(|(k, weight)| *k = exactly(176_700_000 * i128::from(*weight), sum).0);
    match (k.iter().any(|k| *k > 100_000), k.contains(&0)) {
        (true, _) => refused(card::BAD_K),
        (false, true) => refused(card::ZERO_K),
        _ => WorkedOut { number: 0, constants: with_k(shares, k), departures: departures.map(|d| d as u32) },
    }
}

// ---- What is tried -----------------------------------------------------------------------------------------

/// Precipitation and PE that each calendar month has about, and how far a year may be off, in hundredths.
struct Climate {
    about: [[i64; 2]; 12],
    off: i64,
}

fn any_climate(random: &mut Random) -> Climate {
    let ordinary = [3_000, 3_000];
    let most = random.pick(&[
        ordinary,
        ordinary,
        ordinary,
        [500, 4_000],
        [6_000, 1_000],
        [300, 300],
        [9_000, 0],
        [0, 5_000],
        [100_000, 100_000],
    ]);
    Climate {
        about: [(); 12].map(|()| most.map(|most| random.within(most / 4, most))),
        off: random.pick(&[0, 1, 10, 60, 100, 100]),
    }
}

impl Climate {
    /// A month of water; where it is dry, maybe a trace.
    fn month(&self, random: &mut Random, calendar: usize) -> Add {
        let mut reading = |about: i64| {
            let off = random.within(-self.off, self.off);
            (about + about * off / 100).min(100_000) as i32
        };
        let [p, pe] = self.about[calendar].map(&mut reading);
        let p = if p == 0 { no_water(random) } else { Reading::whole(p) };
        Add::Water(p, Reading::whole(pe))
    }

    fn months(&self, random: &mut Random, start: i32, count: usize) -> Vec<Add> {
        let calendar = (start as usize - 1..).map(|month| month % 12);
        calendar.take(count).map(|month| self.month(random, month)).collect()
    }
}

/// The row of the first January of a run that starts in this calendar month.
fn january(start: i32) -> usize {
    (13 - start as usize) % 12
}

fn any_z(random: &mut Random) -> Add {
    Add::Z(random.within(-4_000, 4_000) as i32)
}

pub fn runs(c: &mut Check, times: u64) {
    c.kind("constants of runs");
    for _ in 0..2_600 * times {
        let (soil, climate) = (good_soil(&mut c.random), any_climate(&mut c.random));
        let years = c.random.pick(&[9, 10, 10, 11, 12, 20, 40]);
        let near = january(soil[3]) + 12 * years + c.random.below(15) as usize - 2;
        let any = c.random.within(0, 480) as usize;
        let count = c.random.pick(&[near, near, near, any]);
        let mut months = climate.months(&mut c.random, soil[3], count);
        without_water(&mut c.random, &mut months, january(soil[3]));
        let any = good_constants(&mut c.random);
        let constants = if c.random.one_in(2) { LOST.to_vec() } else { any };
        let room = c.random.within(0, 5).max(i64::from(count == 0)) as usize;
        let mut station = Station::new(c, &constants, soil, months, room);
        station.hold(c);
        if c.random.one_in(4) {
            station.repair(c, &constants);
            station.hold(c);
        }
    }
    edges(c);
}

/// Of half of them no month is without water; or those of the part years are, or one of any, or several.
fn without_water(random: &mut Random, months: &mut [Add], january: usize) {
    let (count, way) = (months.len(), random.below(8));
    let end = january + count.saturating_sub(january) / 12 * 12;
    let one = random.below(count.max(1) as u64) as usize;
    for (row, month) in months.iter_mut().enumerate() {
        let without = match way {
            0 | 1 => row < january || row >= end,
            2 => row == one,
            3 => random.one_in(60),
            _ => false,
        };
        if without {
            *month = any_z(random);
        }
    }
}

/// Runs from every calendar month on, of every count of months about nine and ten whole years; with all months of water, and
/// with one without it, at the ends of the part years and of the years.
fn edges(c: &mut Check) {
    c.kind("constants, ten years or fewer");
    let ordinary = Climate { about: [[2_000, 2_000]; 12], off: 100 };
    for start in 1..=12 {
        for count in (0..12).chain(105..=146) {
            let months = ordinary.months(&mut c.random, start, count);
            let january = january(start);
            let end = january + count.saturating_sub(january) / 12 * 12;
            let rows = [0, january.wrapping_sub(1), january, end.wrapping_sub(1), end, count.wrapping_sub(1)];
            for row in rows.into_iter().chain([usize::MAX]) {
                let mut months = months.clone();
                months.get_mut(row).into_iter().for_each(|month| *month = any_z(&mut c.random));
                Station::new(c, &LOST, [900, 500, 0, start], months, 1).hold(c);
            }
        }
    }
}
