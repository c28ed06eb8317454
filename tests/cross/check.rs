//! The comparison: what was tried, how often each answer was given, and what is printed of a difference.

use crate::add::Add;
use crate::card::{Added, Run, Values};
use crate::constants::Worked;
use crate::lines::Lines;
use crate::mirror::Turned;
use crate::modified::{self, Mixed};
use crate::random::Random;
use crate::reference::{self, Decides};
use crate::repair::Repairs;
use crate::trace::{self, Told};
use crate::water::Kept;
use std::fmt::Debug;

#[derive(Clone, Copy, Debug)]
pub enum Call {
    Read,
    Start,
    AddWater,
    AddInches,
    AddZ,
    AddSeason,
    Repair,
    Row,
    SumMonth,
    WorkOut,
    WholeSeries,
    WriteIndex,
    WriteZ,
    WriteModified,
    ReadIndex,
    ReadZ,
    ReadModified,
    LineYear,
    LineFault,
}

const CALLS: [&str; 19] = [
    "read",
    "start",
    "add water",
    "add inches",
    "add Z",
    "add season",
    "repair",
    "row",
    "sum month",
    "work out",
    "whole series",
    "write index",
    "write Z",
    "write modified",
    "read index",
    "read Z",
    "read modified",
    "line year",
    "line fault",
];

/// The numbers that a call may answer with.
const NUMBERS: [usize; 23] = [0, 1, 2, 3, 4, 5, 6, 7, 8, 9, 10, 11, 12, 14, 15, 16, 17, 18, 19, 20, 21, 24, 25];

pub fn differ(call: Call, inputs: &dyn Debug, library: &dyn Debug, reference: &dyn Debug) -> ! {
    println!("difference at {}", CALLS[call as usize]);
    println!("inputs: {inputs:?}");
    println!("library: {library:?}");
    println!("reference: {reference:?}");
    std::process::exit(1);
}

/// How often each branch was reached, by the reference's account.
#[derive(Default)]
struct Branches {
    courses: [u64; 4],
    decides: [u64; 4],
    founded: [u64; 2],
    /// Months met exactly: V = 0; 1000 U = E; X1 = 1,000; X2 = -1,000.
    exact: [u64; 4],
    settled: u64,
    most_settled: u32,
}

/// What the seasons came to.
#[derive(Default)]
pub struct Seasons {
    pub months: u64,
    pub most_months: u32,
    /// Refused after some months were added.
    pub stopped: u64,
}

pub struct Check {
    pub random: Random,
    /// A second one, from the same seed.
    pub apart: Random,
    kinds: Vec<(&'static str, u64)>,
    kind: usize,
    refused: [[u64; 26]; CALLS.len()],
    branches: Branches,
    pub seasons: Seasons,
    pub turned: Turned,
    pub kept: Kept,
    pub mixed: Mixed,
    pub told: Told,
    pub repairs: Repairs,
    pub worked: Worked,
    pub lines: Lines,
}

impl Check {
    pub fn new(seed: u64) -> Check {
        Check {
            random: Random(seed),
            apart: Random(seed),
            kinds: Vec::new(),
            kind: 0,
            refused: [[0; 26]; CALLS.len()],
            branches: Branches::default(),
            seasons: Seasons::default(),
            turned: Turned::default(),
            kept: Kept::default(),
            mixed: Mixed::default(),
            told: Told::default(),
            repairs: Repairs::default(),
            worked: Worked::default(),
            lines: Lines::default(),
        }
    }

    /// The cases to come are of this kind.
    pub fn kind(&mut self, name: &'static str) {
        self.kind = self.kinds.iter().position(|kind| kind.0 == name).unwrap_or(self.kinds.len());
        if self.kind == self.kinds.len() {
            self.kinds.push((name, 0));
        }
    }

    pub fn count(&mut self, call: Call, number: u8) {
        self.refused[call as usize][number as usize] += 1;
        self.kinds[self.kind].1 += 1;
    }

    pub fn account(&mut self, what: &Add, run: &Run, added: &Added) {
        modified::hold(&mut self.mixed, what.call(), run, added);
        trace::hold(&mut self.told, what, run, added);
        let step = reference::spell_month(&run.values, added.figures.z);
        let b = &mut self.branches;
        b.courses[step.course as usize] += 1;
        b.decides[step.decides as usize] += 1;
        if step.decides != Decides::WithX3 && step.decides != Decides::Nothing && step.values.x3 != 0 {
            b.founded[usize::from(step.values.x3 < 0)] += 1;
        }
        let Values { x3, v, .. } = run.values;
        let sign = if x3 < 0 { 1 } else { -1 };
        if x3.abs() > 500 {
            let u = i64::from(added.figures.z) + 150 * sign;
            b.exact[0] += u64::from(u + v == 0);
            b.exact[1] += u64::from(1000 * u == -2691 * i64::from(x3) - 1_500_000 * sign && (u + v) * sign > 0);
        }
        b.exact[2] += u64::from(step.decides == Decides::WithX1 && step.values.x3 == 1_000);
        b.exact[3] += u64::from(step.decides == Decides::WithX2 && step.values.x3 == -1_000);
        b.settled += u64::from(added.settled);
        b.most_settled = b.most_settled.max(added.settled);
    }

    pub fn print(&self) {
        println!("{:<34}{:>12}", "kind", "cases");
        for (name, cases) in &self.kinds {
            println!("{name:<34}{cases:>12}");
        }
        println!();
        println!("{:<16}{}", "answered", NUMBERS.map(|number| format!("{number:>10}")).concat());
        for (name, row) in CALLS.iter().zip(&self.refused) {
            println!("{name:<16}{}", NUMBERS.map(|number| format!("{:>10}", row[number])).concat());
        }
        println!();
        let b = &self.branches;
        let [none, steady, abating, ended] = b.courses;
        let [nothing, x1, x2, x3] = b.decides;
        println!("months with no spell {none}, steady {steady}, abating {abating}, ended {ended}");
        println!("founded wet {}, dry {}", b.founded[0], b.founded[1]);
        println!("decided with X1 {x1}, X2 {x2}, X3 {x3}, nothing {nothing}");
        let [steady, ended, wet, dry] = b.exact;
        println!("exactly at V = 0 {steady}, at 1000 U = E {ended}, at X1 = 1,000 {wet}, at X2 = -1,000 {dry}");
        println!("months settled {}, most by one add {}", b.settled, b.most_settled);
        let s = &self.seasons;
        println!(
            "seasons added {} months, at most {}; stopped in the middle {}",
            s.months, s.most_months, s.stopped
        );
        let t = &self.turned;
        println!(
            "turned series of {} months, open and tied {}; spells ended {}, with their own side at most {} from 0",
            t.months, t.tied, t.ended, t.furthest
        );
        let k = &self.kept;
        println!(
            "records of {} months of water, drying {}, filling {}, running off {}, of a trace {}, and of {} Z; with a V {}",
            k.water, k.dried, k.filled, k.ran_off, k.traces, k.z, k.v
        );
        self.mixed.print();
        self.told.print();
        self.repairs.print();
        self.worked.print();
        self.lines.print();
        println!();
        let cases: u64 = self.kinds.iter().map(|kind| kind.1).sum();
        println!("cross-check: {cases} cases, no difference");
    }
}
