//! card_sum_month and card_work_out: how they are compared; and constants once more in 128 bits, which counts what they came
//! to.

use crate::card::{self, Columns, Record, Run, Summed, Sums, WorkedOut, WEIGHTS};
use crate::check::{differ, Call, Check};
use crate::lists::{edged, inner, unchanged, Lists};
use crate::random::Random;
use crate::reference;

/// "Refused: number, all else 0."
pub const REFUSED: WorkedOut = WorkedOut { number: 0, constants: [0; 60], departures: [0; 12] };

/// Constants for a run whose own are lost: any will do. No share, and a K of 1.
pub const LOST: [i32; 60] = {
    let mut constants = [0; 60];
    let mut place = 4;
    while place < 60 {
        constants[place] = 1;
        place += 5;
    }
    constants
};

/// What stands before and after the weights. It is none, so that whoever reads too far refuses.
const BESIDE: i32 = i32::MIN;

/// What working constants out came to.
#[derive(Default)]
pub struct Worked {
    done: u64,
    years: u64,
    most_years: u64,
    most_weighed: i128,
    /// Exact halves of each of the four shares, of CAFEC above 0 and below it, of D and of K.
    halves: [u64; 4],
    half_cafec: [u64; 2],
    half_d: u64,
    half_k: u64,
    /// Shares whose divisor was 0.
    undivided: [u64; 4],
    /// Rows whose CAFEC was below 0, and the largest.
    below: u64,
    most_cafec: i128,
    /// A gamma of 50,000, a K of 100,000, and one of 1.
    most_gamma: u64,
    most_k: u64,
    least_k: u64,
    /// Runs that were held to their adds' own figures.
    pub held: u64,
}

// ---- The comparison ----------------------------------------------------------------------------------------

impl Check {
    pub fn sum_month(&mut self, run: &Run, month: i32, lists: &mut Lists) -> Summed {
        let library = card::sum_month(*run, month, &lists.library.lend());
        let reference = match reference::constants::sum_month(run, month, &lists.reference.lend()) {
            Ok(summed) => summed,
            Err(refusal) => Summed { number: refusal as u8, ..Summed::default() },
        };
        if library != reference || !lists.agree_after(run) {
            let inputs = (month, run, lists.lengths());
            differ(Call::SumMonth, &inputs, &(library, lists.differences()), &reference);
        }
        self.count(Call::SumMonth, reference.number);
        reference
    }

    pub fn work_out(&mut self, run: &Run, weights: &[i32], lists: &mut Lists) -> WorkedOut {
        let mut lent = edged(weights, BESIDE);
        let library = card::work_out(*run, inner(&mut lent), &lists.library.lend());
        let reference = match reference::constants::work_out(run, weights, &lists.reference.lend()) {
            Ok(worked) => worked,
            Err(refusal) => WorkedOut { number: refusal as u8, ..REFUSED },
        };
        if library != reference || !unchanged(&lent, weights, BESIDE) || !lists.agree_after(run) {
            let inputs = (weights, run, lists.lengths());
            differ(Call::WorkOut, &inputs, &(library, lent, lists.differences()), &reference);
        }
        self.count(Call::WorkOut, reference.number);
        if reference.number == 0 {
            self.worked.count(run, weights, &lists.expected.lend(), &reference);
        }
        reference
    }

    /// A call whose number is known.
    pub fn expect_sum(&mut self, run: &Run, month: i32, lists: &mut Lists, wanted: u8) -> Summed {
        let summed = self.sum_month(run, month, lists);
        if summed.number != wanted {
            differ(Call::SumMonth, &(month, run, lists.lengths()), &summed, &wanted);
        }
        summed
    }

    pub fn expect_work(&mut self, run: &Run, weights: &[i32], lists: &mut Lists, wanted: u8) -> WorkedOut {
        let worked = self.work_out(run, weights, lists);
        if worked.number != wanted {
            differ(Call::WorkOut, &(weights, run, lists.lengths()), &worked, &wanted);
        }
        worked
    }

    /// Both calls, with a month and weights that are mostly good. They are drawn apart, so that what other calls are tried with
    /// does not hang on them.
    pub fn both(&mut self, run: &Run, lists: &mut Lists) {
        let month = self.apart.within(0, 13) as i32;
        self.sum_month(run, month, lists);
        let weights = any_weights(&mut self.apart);
        self.work_out(run, &weights, lists);
    }
}

// ---- Weights -----------------------------------------------------------------------------------------------

/// Twelve good weights: like a real station's, equal, any, at their ends, or one tiny or none beside large ones.
pub fn good_weights(random: &mut Random) -> Vec<i32> {
    let way = random.below(8);
    let same = random.within(1, 100_000);
    let mut weights: Vec<i32> = (0..WEIGHTS)
        .map(|_| match way {
            0..=2 => random.within(8_000, 25_000),
            3 => same,
            4 => random.within(0, 100_000),
            5 => random.pick(&[0, 1, 99_999, 100_000]),
            _ => random.within(50_000, 100_000),
        } as i32)
        .collect();
    if way == 6 {
        let (place, tiny) = (random.below(12) as usize, random.within(0, 60) as i32);
        weights[place] = tiny;
    }
    weights
}

/// The same, but that about one in eight are not twelve or out of range.
pub fn any_weights(random: &mut Random) -> Vec<i32> {
    let mut weights = good_weights(random);
    match random.below(16) {
        0 => weights.resize(random.below(15) as usize, 1),
        1 => weights[random.below(12) as usize] = random.pick(&[i32::MIN, -1, 100_001, i32::MAX]),
        _ => {}
    }
    weights
}

// ---- In 128 bits -------------------------------------------------------------------------------------------

/// Nearest to n / d, and whether that is an exact half.
pub fn exactly(n: i128, d: i128) -> (i128, bool) {
    ((2 * n.abs() + d) / (2 * d) * n.signum(), 2 * (n.abs() % d) == d)
}

/// The potentials of a record's start: PE, PR, PRO and PL.
fn potentials(record: &Record, capacity: u32) -> [i128; 4] {
    let [pe, ss, su] = [record.pe, record.ss, record.su].map(i128::from);
    let capacity = i128::from(capacity);
    let surface = pe.min(ss);
    let underlying = exactly((pe - surface) * su, capacity).0.min(su);
    [pe, capacity - ss - su, ss + su, surface + underlying]
}

/// Each sum with its divisor.
pub fn pairs(sums: &Sums) -> [[i128; 2]; 4] {
    let Sums { et, pe, r, pr, ro, pro, l, pl } = *sums;
    [[et, pe], [r, pr], [ro, pro], [l, pl]].map(|pair| pair.map(i128::from))
}

impl Worked {
    /// Counts constants that were worked out, and holds them to the definition.
    fn count(&mut self, run: &Run, weights: &[i32], k: &Columns, worked: &WorkedOut) {
        let months = worked.constants.chunks_exact(5);
        let (mut years, mut weighed) = (0, 0);
        for (month, (constants, weight)) in (1..).zip(months.clone().zip(weights)) {
            let summed = reference::constants::sum_month(run, month, k).unwrap_or_default();
            years = u64::from(summed.years);
            self.shares(constants, &summed.sums);
            let d = self.departure(run, month, constants, k);
            weighed += d * i128::from(*weight);
            hold("D", d, worked.departures[month as usize - 1].into(), run);
        }
        for (constants, weight) in months.zip(weights) {
            let (k, half) = exactly(176_700_000 * i128::from(*weight), weighed);
            hold("K", k, constants[4].into(), run);
            self.half_k += u64::from(half);
            self.most_k += u64::from(k == 100_000);
            self.least_k += u64::from(k == 1);
        }
        (self.done, self.years, self.most_years) = (self.done + 1, self.years + years, self.most_years.max(years));
        self.most_weighed = self.most_weighed.max(weighed);
    }

    fn shares(&mut self, constants: &[i32], sums: &Sums) {
        for (place, [part, of]) in pairs(sums).into_iter().enumerate() {
            let (share, half) = if of == 0 { (0, false) } else { exactly(10_000 * part, of) };
            hold("a share", share, constants[place].into(), sums);
            self.halves[place] += u64::from(half);
            self.undivided[place] += u64::from(of == 0);
        }
        self.most_gamma += u64::from(constants[2] == 50_000);
    }

    /// D of a calendar month, by the rows that are its own in the years.
    fn departure(&mut self, run: &Run, month: i32, constants: &[i32], k: &Columns) -> i128 {
        let months = run.months as i32;
        // the row of the first January
        let january = (months + 1 - run.calendar as i32).rem_euclid(12);
        let years = (months - january) / 12;
        let rows = (0..years).map(|year| &k.records[(january + 12 * year + month - 1) as usize]);
        let mut sizes = 0;
        for record in rows {
            let [pe, pr, pro, pl] = potentials(record, run.soil.capacity);
            let [alpha, beta, gamma, delta] = [0, 1, 2, 3].map(|place| i128::from(constants[place]));
            let (cafec, half) = exactly(alpha * pe + beta * pr + gamma * pro - delta * pl, 10_000);
            sizes += (i128::from(record.p) - cafec).abs();
            self.half_cafec[usize::from(cafec < 0)] += u64::from(half);
            (self.below, self.most_cafec) = (self.below + u64::from(cafec < 0), self.most_cafec.max(cafec));
        }
        let (d, half) = exactly(sizes, years.into());
        self.half_d += u64::from(half);
        d
    }

    /// That enough of each sort came about.
    pub fn assert_many(&self) {
        let Worked { halves, undivided, half_cafec, half_d, half_k, below, held, .. } = *self;
        let counts = halves.iter().chain(&undivided).chain(&half_cafec);
        assert!(counts.into_iter().all(|count| *count > 200) && half_d > 1_000 && half_k > 200 && below > 1_000);
        assert!(held > 5_000 && self.most_gamma > 20 && self.most_k > 20 && self.least_k > 20);
        assert!(self.most_years == 1_000);
    }

    pub fn print(&self) {
        println!(
            "constants worked out {} times of {} years, at most {}, sum of D K' up to {}; runs held to their adds {}",
            self.done, self.years, self.most_years, self.most_weighed, self.held
        );
        let ([alpha, beta, gamma, delta], [no_pe, no_pr, no_pro, no_pl]) = (self.halves, self.undivided);
        let [above, below] = self.half_cafec;
        println!(
            "exact halves of alpha {alpha}, beta {beta}, gamma {gamma}, delta {delta}, CAFEC {above} and below 0 {below}, D {}, K {}; CAFEC below 0 {}, up to {}",
            self.half_d, self.half_k, self.below, self.most_cafec
        );
        println!(
            "no PE {no_pe}, no PR {no_pr}, no PRO {no_pro}, no PL {no_pl}; a gamma of 50,000 {}, a K of 100,000 {}, a K of 1 {}",
            self.most_gamma, self.most_k, self.least_k
        );
    }
}

fn hold(what: &str, exact: i128, held: i128, of: &dyn std::fmt::Debug) {
    if exact != held {
        differ(Call::WorkOut, &(what, of), &held, &exact);
    }
}
