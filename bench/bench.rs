//! The card's library and the hand-written reference over the same inputs in one program. The library is the one that is
//! linked: libcard.a, or bench/peer.rs in its place.
//!
//!   bench list                  the kinds of work: name, operations in a round, sides, what an operation is
//!   bench check                 that all sides of each kind come to the same; it prints what
//!   bench KIND SIDE ROUNDS      works so many rounds and prints a sum of what they came to
//!   bench time KIND SIDE        nanoseconds per operation
//!   bench stack                 the deepest stack of each of the library's calls, in bytes

#[path = "../host/card.rs"]
mod card;
#[path = "../tests/cross/reference.rs"]
mod reference;
mod repaired;
mod stack;
mod worked;

use card::{Change, Columns, MonthInches, Reading, Record, Run, MOST_MONTHS};
use reference::{Added, Amount, Refusal, Season};
use std::hint::black_box;
use std::time::{Duration, Instant};

const MONTHS: usize = 2_400;
const FEW_MONTHS: usize = 240;
const READINGS: usize = 2_000;
const YEARS: usize = MONTHS / 12;

fn main() {
    let arguments: Vec<String> = std::env::args().skip(1).collect();
    let words: Vec<&str> = arguments.iter().map(String::as_str).collect();
    match words[..] {
        ["list"] => list(),
        ["check"] => check(),
        ["stack"] => stack::print(),
        ["time", kind, side] => time(find(kind, side)),
        [kind, side, rounds] => {
            let rounds = rounds.parse().unwrap_or_else(|_| usage());
            let (mut inputs, _, round) = find(kind, side);
            println!("{}", work(round, &mut inputs, rounds));
        }
        _ => usage(),
    }
}

fn usage() -> ! {
    eprintln!("usage: bench list | check | stack | time KIND SIDE | KIND SIDE ROUNDS");
    std::process::exit(2);
}

// ---- The kinds of work -------------------------------------------------------------------------------------

/// A round of work. What it comes to is in the lists or handed back.
type Round = fn(&mut Inputs) -> u32;

/// The library that is linked; the reference in place; a reading by way of a double; a call that only hands over.
type Sides = &'static [(&'static str, Round)];

/// A kind's name, the months of its columns, the operations in a round, its sides, and what an operation is.
type Kind = (&'static str, usize, usize, Sides, &'static str);

const fn both(library: Round, rust: Round) -> [(&'static str, Round); 2] {
    [("library", library), ("rust", rust)]
}

const fn with_double(library: Round, rust: Round, double: Round) -> [(&'static str, Round); 3] {
    [("library", library), ("rust", rust), ("double", double)]
}

#[rustfmt::skip]
const KINDS: [Kind; 26] = [
    ("add-water", MONTHS, MONTHS, &both(add::water_library, add::water_rust), "add water, two readings"),
    ("add-inches", MONTHS, MONTHS, &both(add::inches_library, add::inches_rust), "add water, two binary32 inches"),
    ("add-z", MONTHS, MONTHS, &both(add::z_library, add::z_rust), "add a Z"),
    ("handed", MONTHS, MONTHS, &[("handed", handed::over)], "a run handed in and back, no more"),
    ("season-6", MONTHS, MONTHS, &both(season::six_library, season::six_rust), "a month of a season of 6"),
    ("season-2400", MONTHS, MONTHS, &both(season::all_library, season::all_rust), "a month of a season of 2,400"),
    ("season-12000", MOST_MONTHS, MOST_MONTHS, &both(season::most_library, season::most_rust), "a month of a season of 12,000"),
    ("repair-2400", MONTHS, MONTHS, &both(repaired::library, repaired::rust), "a month of a repair of 2,400"),
    ("repair-12000", MOST_MONTHS, MOST_MONTHS, &both(repaired::library, repaired::rust), "a month of a repair of 12,000"),
    ("work-out-2400", MONTHS, MONTHS, &both(worked::library, worked::rust), "work constants out, a month of 2,400"),
    ("work-out-12000", MOST_MONTHS, MOST_MONTHS, &both(worked::library, worked::rust), "work constants out, a month of 12,000"),
    ("sum-month-2400", MONTHS, MONTHS, &both(worked::month_library, worked::month_rust), "sum a calendar month, each of 2,400"),
    ("sum-month-12000", MOST_MONTHS, MOST_MONTHS, &both(worked::month_library, worked::month_rust), "sum a calendar month, each of 12,000"),
    ("write-line", MONTHS, YEARS, &both(line::write_library, line::write_rust), "write a line"),
    ("read-line", MONTHS, YEARS, &both(line::read_library, line::read_rust), "read a line"),
    ("row", MONTHS, MONTHS, &both(row::library, row::rust), "show a row"),
    ("start", MONTHS, MONTHS, &both(start::library, start::rust), "start a run"),
    ("series-240", FEW_MONTHS, 1, &both(series::library, series::rust), "whole series, 240 ordinary months"),
    ("series-240-open", FEW_MONTHS, 1, &both(series::open_library, series::open_rust), "whole series, 240 months left open"),
    ("series-2400", MONTHS, 1, &both(series::library, series::rust), "whole series, 2,400 ordinary months"),
    ("series-2400-open", MONTHS, 1, &both(series::open_library, series::open_rust), "whole series, 2,400 months left open"),
    ("series-12000", MOST_MONTHS, 1, &both(series::library, series::rust), "whole series, 12,000 ordinary months"),
    ("series-12000-open", MOST_MONTHS, 1, &both(series::open_library, series::open_rust), "whole series, 12,000 months left open"),
    ("read-inches", MONTHS, READINGS, &with_double(read::inches_library, read::inches_rust, read::inches_double), "read inches"),
    ("read-mm", MONTHS, READINGS, &with_double(read::mm_library, read::mm_rust, read::mm_double), "read millimetres"),
    ("read-whole", MONTHS, READINGS, &both(read::whole_library, read::whole_rust), "read whole thousandths"),
];

/// Kinds that add the same months.
const SAME_MONTHS: [&str; 4] = ["add-water", "add-inches", "season-6", "season-2400"];

/// How the names of those kinds begin that find the columns full.
const FILLED: [&str; 5] = ["repair", "work-out", "sum-month", "write-line", "read-line"];

/// The inputs of this kind, the operations in a round, and the round of this side.
fn find(kind: &str, side: &str) -> (Inputs, usize, Round) {
    let (_, months, operations, sides, _) = KINDS.iter().find(|found| found.0 == kind).unwrap_or_else(|| usage());
    let (_, round) = sides.iter().find(|found| found.0 == side).unwrap_or_else(|| usage());
    (inputs(kind, *months), *operations, *round)
}

/// The inputs of a kind whose columns have so many months. Some find them full, and one their lines written.
fn inputs(kind: &str, months: usize) -> Inputs {
    let mut inputs = match FILLED.iter().any(|begin| kind.starts_with(begin)) {
        true => repaired::filled(Inputs::new(months)),
        false => Inputs::new(months),
    };
    if kind == "read-line" {
        line::write_rust(&mut inputs);
    }
    inputs
}

fn work(round: Round, inputs: &mut Inputs, rounds: u64) -> u64 {
    let sum: u64 = (0..rounds).map(|_| u64::from(round(black_box(inputs)))).sum();
    inputs.sum().wrapping_add(sum)
}

fn list() {
    for (name, _, operations, sides, what) in KINDS {
        let sides: Vec<&str> = sides.iter().map(|side| side.0).collect();
        println!("{name} {operations} {} {what}", sides.join(","));
    }
}

fn check() {
    let mut months = Vec::new();
    for (name, columns, _, sides, _) in KINDS {
        let sums: Vec<u64> = sides.iter().map(|side| work(side.1, &mut inputs(name, columns), 1)).collect();
        agree(name, &sums);
        if SAME_MONTHS.contains(&name) {
            months.push(sums[0]);
        }
        println!("{name} {}", sums[0]);
    }
    agree(&SAME_MONTHS.join(", "), &months);
    read::check(&Inputs::new(MONTHS));
}

fn agree(what: &str, sums: &[u64]) {
    if sums.iter().any(|sum| *sum != sums[0]) {
        eprintln!("bench: {what}: the sides come to {sums:?}");
        std::process::exit(1);
    }
}

/// The least of three measurements, each at least a twentieth of a second long.
fn time((mut inputs, operations, round): (Inputs, usize, Round)) {
    let (mut rounds, mut measured, mut least) = (1, 0, f64::INFINITY);
    while measured < 3 {
        let start = Instant::now();
        black_box(work(round, &mut inputs, rounds));
        let taken = start.elapsed();
        if taken < Duration::from_millis(50) {
            rounds *= 2;
        } else {
            least = least.min(taken.as_nanos() as f64 / (rounds * operations as u64) as f64);
            measured += 1;
        }
    }
    println!("{least:.1}");
}

// ---- Inputs ------------------------------------------------------------------------------------------------

struct Inputs {
    run: Run,
    /// Precipitation and PE of each month, in thousandths.
    water: Vec<(i32, i32)>,
    /// The same months as the two lists of a season.
    season: (Vec<i32>, Vec<i32>),
    /// Ordinary Z, as many as the columns have months.
    z: Vec<i32>,
    /// As many Z that leave every month after the first open.
    open: Vec<i32>,
    inches: Vec<f32>,
    mm: Vec<f32>,
    lists: Lists,
    /// The report of a repair, as long as the columns.
    report: Vec<Change>,
    /// A line for each year of the columns, one after another.
    lines: Vec<u8>,
}

/// The upper half of a linear congruential generator, from `low` to `high`.
fn random(state: &mut u64, low: i32, high: i32) -> i32 {
    *state = state.wrapping_mul(6_364_136_223_846_793_005).wrapping_add(1_442_695_040_888_963_407);
    low + (((*state >> 32) * (high - low + 1) as u64) >> 32) as i32
}

/// Half of them decimals up to `ordinary`, half of any bits up to `most`.
fn measures(state: &mut u64, ordinary: i32, most: f32) -> Vec<f32> {
    let measure = |place| match place % 2 {
        0 => random(state, 0, 100 * ordinary) as f32 / 100.0,
        _ => f32::from_bits(random(state, 0x3980_0000, most.to_bits() as i32) as u32),
    };
    (0..READINGS).map(measure).collect()
}

impl Inputs {
    /// Inputs for columns of so many months. Readings are the same for all, and so are the water and the Z that two of them
    /// both have: those above MONTHS are drawn last.
    fn new(months: usize) -> Inputs {
        let state = &mut 1;
        let mut water: Vec<(i32, i32)> = (0..MONTHS).map(|month| month_of_water(state, month)).collect();
        let ordinary = |state: &mut u64| random(state, -3_000, 3_000);
        let mut z: Vec<i32> = (0..MONTHS).map(|_| ordinary(state)).collect();
        let (inches, mm) = (measures(state, 12, 100.0), measures(state, 300, 2_540.0));
        z.resize_with(months, || ordinary(state));
        water.extend((MONTHS..months).map(|month| month_of_water(state, month)));
        let season = water.iter().copied().unzip();
        let mut open = vec![0; months];
        open[..2].copy_from_slice(&[12, -3]);
        let (run, lists, report) = (fresh_run(), Lists::new(months), vec![Change::default(); months]);
        let lines = vec![0; card::LINE * (months / 12)];
        Inputs { run, water, season, z, open, inches, mm, lists, report, lines }
    }

    /// Of all that is lent.
    fn sum(&self) -> u64 {
        let numbers = self.report.iter().flat_map(|change| {
            let Change { row, index_before, index_after, mark_before, mark_after } = *change;
            [row, index_before, index_after, mark_before, mark_after]
        });
        let bytes = self.lines.iter().map(|byte| i32::from(*byte));
        numbers.chain(bytes).fold(self.lists.sum(), |sum, x| sum.wrapping_mul(31).wrapping_add(x as u64))
    }
}

/// Precipitation and PE of a month.
fn month_of_water(state: &mut u64, month: usize) -> (i32, i32) {
    // About what the months of a year would evaporate.
    let pe = [100, 200, 800, 1_800, 3_400, 4_800, 5_700, 5_000, 3_400, 1_800, 700, 200];
    let p = random(state, 0, 2_700) + random(state, 0, 2_700);
    (p, pe[month % 12] * random(state, 80, 120) / 100)
}

fn fresh_run() -> Run {
    card::start(&CONSTANTS, 6_000, SURFACE, UNDERLYING, 1).run
}

const SURFACE: i32 = 1_000;
const UNDERLYING: i32 = 5_000;

const CONSTANTS: [i32; card::CONSTANTS] = {
    let mut constants = [0; card::CONSTANTS];
    let mut place = 0;
    while place < card::CONSTANTS {
        constants[place] = [8_000, 1_200, 600, 2_500, 16_000][place % 5];
        place += 1;
    }
    constants
};

/// The columns: X1, X2, X3 and index, mark, records and V. No two places of one hold the same at first, but for the marks;
/// every record ends where a fresh run stands.
struct Lists {
    numbers: [Vec<i32>; 4],
    mark: Vec<u8>,
    records: Vec<Record>,
    v: Vec<i64>,
}

impl Lists {
    fn new(length: usize) -> Lists {
        let numbers = [0, 1, 2, 3].map(|column| (0..length as i32).map(|place| 4 * place + column).collect());
        let record = |z| Record { z, surface: SURFACE, underlying: UNDERLYING, ..Record::default() };
        let records = (0..length as i32).map(record).collect();
        Lists { numbers, mark: vec![card::SETTLED; length], records, v: (0..length as i64).collect() }
    }

    fn lend(&mut self) -> Columns<'_> {
        let [x1, x2, x3, index] = &mut self.numbers;
        Columns { x1, x2, x3, index, mark: &mut self.mark, records: &mut self.records, v: &mut self.v }
    }

    fn sum(&self) -> u64 {
        let numbers = self.numbers.iter().flatten().copied().chain(self.records.iter().flat_map(all_of));
        let wide = self.v.iter().map(|x| *x as u64);
        let all = numbers.map(|x| x as u64).chain(self.mark.iter().map(|x| u64::from(*x))).chain(wide);
        all.fold(0, |sum, x| sum.wrapping_mul(31).wrapping_add(x))
    }
}

fn all_of(record: &Record) -> [i32; 14] {
    let Record { z, p, pe, et, r, l, ro, ss, su, surface, underlying, water, modified, kind } = *record;
    [z, p, pe, et, r, l, ro, ss, su, surface, underlying, water, modified, kind]
}

// ---- The rounds --------------------------------------------------------------------------------------------
//
// The reference is called through pointers that the compiler cannot see through, so that its calls are calls as
// the library's are.

mod add {
    use super::*;

    type Answer = Result<Added, Refusal>;

    pub fn water_library(inputs: &mut Inputs) -> u32 {
        let (mut run, mut k) = (inputs.run, inputs.lists.lend());
        for &(p, pe) in &inputs.water {
            run = card::add_water(run, Reading::whole(p), Reading::whole(pe), &mut k).run;
        }
        run.months
    }

    pub fn water_rust(inputs: &mut Inputs) -> u32 {
        let add: fn(&mut Run, &Reading, &Reading, &mut Columns) -> Answer = black_box(reference::add_water);
        let (mut run, mut k) = (inputs.run, inputs.lists.lend());
        for &(p, pe) in &inputs.water {
            let _ = black_box(add(&mut run, &Reading::whole(p), &Reading::whole(pe), &mut k));
        }
        run.months
    }

    fn month(&(p, pe): &(i32, i32)) -> MonthInches {
        MonthInches { p: p as f32 / 1000.0, pe: pe as f32 / 1000.0 }
    }

    pub fn inches_library(inputs: &mut Inputs) -> u32 {
        let (mut run, mut k) = (inputs.run, inputs.lists.lend());
        for water in &inputs.water {
            run = card::add_inches(run, month(water), &mut k).run;
        }
        run.months
    }

    pub fn inches_rust(inputs: &mut Inputs) -> u32 {
        let add: fn(&mut Run, MonthInches, &mut Columns) -> Answer = black_box(reference::add_inches);
        let (mut run, mut k) = (inputs.run, inputs.lists.lend());
        for water in &inputs.water {
            let _ = black_box(add(&mut run, month(water), &mut k));
        }
        run.months
    }

    pub fn z_library(inputs: &mut Inputs) -> u32 {
        let (mut run, mut k) = (inputs.run, inputs.lists.lend());
        for &z in &inputs.z {
            run = card::add_z(run, z, &mut k).run;
        }
        run.months
    }

    pub fn z_rust(inputs: &mut Inputs) -> u32 {
        let add: fn(&mut Run, i32, &mut Columns) -> Answer = black_box(reference::add_z);
        let (mut run, mut k) = (inputs.run, inputs.lists.lend());
        for &z in &inputs.z {
            let _ = black_box(add(&mut run, z, &mut k));
        }
        run.months
    }
}

/// What the interface of an add costs by itself: a call with the arguments of an add of water that hands the run back
/// beside figures of 0, and does nothing else.
mod handed {
    use super::*;

    #[rustfmt::skip]
    type Add = extern "C" fn(Run, Reading, Reading, *mut i32, usize, *mut i32, usize, *mut i32, usize, *mut i32, usize, *mut u8, usize, *mut Record, usize, *mut i64, usize) -> card::Added;

    #[rustfmt::skip]
    extern "C" fn back(run: Run, _: Reading, _: Reading, _: *mut i32, _: usize, _: *mut i32, _: usize, _: *mut i32, _: usize, _: *mut i32, _: usize, _: *mut u8, _: usize, _: *mut Record, _: usize, _: *mut i64, _: usize) -> card::Added {
        card::Added { number: card::DONE, settled: 0, figures: card::Figures::default(), run }
    }

    #[rustfmt::skip]
    pub fn over(inputs: &mut Inputs) -> u32 {
        let add: Add = black_box(back);
        let (mut run, k) = (inputs.run, inputs.lists.lend());
        for &(p, pe) in &inputs.water {
            run = add(run, Reading::whole(p), Reading::whole(pe), k.x1.as_mut_ptr(), k.x1.len(), k.x2.as_mut_ptr(), k.x2.len(), k.x3.as_mut_ptr(), k.x3.len(), k.index.as_mut_ptr(), k.index.len(), k.mark.as_mut_ptr(), k.mark.len(), k.records.as_mut_ptr(), k.records.len(), k.v.as_mut_ptr(), k.v.len()).run;
        }
        run.months
    }
}

/// The months of a round in seasons, one after another.
mod season {
    use super::*;

    fn by_library(inputs: &mut Inputs, months: usize) -> u32 {
        let (mut run, mut k) = (inputs.run, inputs.lists.lend());
        let (p, pe) = &inputs.season;
        for (p, pe) in p.chunks(months).zip(pe.chunks(months)) {
            run = card::add_season(run, p, pe, &mut k).run;
        }
        run.months
    }

    fn by_rust(inputs: &mut Inputs, months: usize) -> u32 {
        let add: fn(&mut Run, &[i32], &[i32], &mut Columns) -> Season = black_box(reference::add_season);
        let (mut run, mut k) = (inputs.run, inputs.lists.lend());
        let (p, pe) = &inputs.season;
        for (p, pe) in p.chunks(months).zip(pe.chunks(months)) {
            black_box(add(&mut run, p, pe, &mut k));
        }
        run.months
    }

    pub fn six_library(inputs: &mut Inputs) -> u32 {
        by_library(inputs, 6)
    }

    pub fn six_rust(inputs: &mut Inputs) -> u32 {
        by_rust(inputs, 6)
    }

    pub fn all_library(inputs: &mut Inputs) -> u32 {
        by_library(inputs, MONTHS)
    }

    pub fn all_rust(inputs: &mut Inputs) -> u32 {
        by_rust(inputs, MONTHS)
    }

    pub fn most_library(inputs: &mut Inputs) -> u32 {
        by_library(inputs, MOST_MONTHS)
    }

    pub fn most_rust(inputs: &mut Inputs) -> u32 {
        by_rust(inputs, MOST_MONTHS)
    }
}

/// Every row of a run that holds as many months as the columns.
mod row {
    use super::*;
    use card::Shown;

    fn full(run: Run) -> Run {
        Run { months: MONTHS as u32, ..run }
    }

    fn sum(shown: &Shown) -> u32 {
        let last = shown.month.water + shown.month.modified + shown.month.kind + shown.v as i32;
        (shown.x1 + shown.x2 + shown.x3 + shown.index + shown.month.z + last) as u32 + u32::from(shown.mark)
    }

    pub fn library(inputs: &mut Inputs) -> u32 {
        let (run, k) = (full(inputs.run), inputs.lists.lend());
        (0..MONTHS).map(|row| sum(&card::row(run, row, &k))).fold(0, u32::wrapping_add)
    }

    pub fn rust(inputs: &mut Inputs) -> u32 {
        let show: fn(&Run, usize, &Columns) -> Result<Shown, Refusal> = black_box(reference::row);
        let (run, k) = (full(inputs.run), inputs.lists.lend());
        (0..MONTHS).map(|row| show(&run, row, &k).map_or(0, |shown| sum(&shown))).fold(0, u32::wrapping_add)
    }
}

/// The index of a full run, a line for each of its years.
mod line {
    use super::*;
    use card::{LineFigures, LINE};
    use reference::lines::{self, Element, Sent};

    const STATE: u32 = 14;
    const DIVISION: u32 = 7;
    const FIRST: u32 = 1_801;

    /// Nothing is measured that was refused.
    fn done(refused: u32) -> u32 {
        if refused != 0 {
            eprintln!("bench: a line was refused");
            std::process::exit(1);
        }
        0
    }

    pub fn write_library(inputs: &mut Inputs) -> u32 {
        let (run, k) = (inputs.run, inputs.lists.lend());
        let write =
            |(line, which)| u32::from(card::write_index_line(run, STATE, DIVISION, FIRST, which, &k, line));
        done(inputs.lines.chunks_exact_mut(LINE).zip(0..).map(write).sum())
    }

    pub fn write_rust(inputs: &mut Inputs) -> u32 {
        let by_rust: fn(&Sent, &Run, &Columns, &mut [u8]) -> Result<(), Refusal> = black_box(lines::write);
        let (run, k) = (inputs.run, inputs.lists.lend());
        let write = |(line, which)| {
            let sent = Sent { element: Element::Index, state: STATE, division: DIVISION, year: FIRST, which };
            u32::from(by_rust(&sent, &run, &k, line).is_err())
        };
        done(inputs.lines.chunks_exact_mut(LINE).zip(0..).map(write).sum())
    }

    fn sum(told: &LineFigures) -> u32 {
        let months = done(u32::from(told.number)) + told.present + told.count + told.first_missing;
        told.hundredths.iter().fold(months, |sum, value| sum.wrapping_add(*value as u32))
    }

    pub fn read_library(inputs: &mut Inputs) -> u32 {
        let read = |(line, year)| sum(&card::read_index_line(line, STATE, DIVISION, year));
        inputs.lines.chunks_exact(LINE).zip(FIRST..).map(read).fold(0, u32::wrapping_add)
    }

    pub fn read_rust(inputs: &mut Inputs) -> u32 {
        let by_rust: fn(Element, &[u8], u32, u32, u32) -> Result<LineFigures, Refusal> = black_box(lines::read);
        let read =
            |(line, year)| by_rust(Element::Index, line, STATE, DIVISION, year).map_or(0, |told| sum(&told));
        inputs.lines.chunks_exact(LINE).zip(FIRST..).map(read).fold(0, u32::wrapping_add)
    }
}

/// Starts from each of the twelve months on, again and again.
mod start {
    use super::*;

    fn each(start: impl Fn(i32) -> u32) -> u32 {
        (0..YEARS).flat_map(|_| 1..=12).map(start).sum()
    }

    pub fn library(_: &mut Inputs) -> u32 {
        each(|month| card::start(black_box(&CONSTANTS), 6_000, 1_000, 5_000, month).run.calendar)
    }

    pub fn rust(_: &mut Inputs) -> u32 {
        let start: fn(&[i32], i32, i32, i32, i32) -> Result<Run, Refusal> = black_box(reference::start);
        each(|month| start(black_box(&CONSTANTS), 6_000, 1_000, 5_000, month).map_or(0, |run| run.calendar))
    }
}

mod series {
    use super::*;

    fn by_rust(z: &[i32], lists: &mut Lists) -> u32 {
        let whole: fn(&[i32], &mut [i32], &mut [u8]) -> Result<(), Refusal> = black_box(reference::whole_series);
        let k = lists.lend();
        u32::from(whole(z, k.index, k.mark).is_err())
    }

    fn by_library(z: &[i32], lists: &mut Lists) -> u32 {
        let k = lists.lend();
        u32::from(card::whole_series(z, k.index, k.mark))
    }

    pub fn library(inputs: &mut Inputs) -> u32 {
        by_library(&inputs.z, &mut inputs.lists)
    }

    pub fn rust(inputs: &mut Inputs) -> u32 {
        by_rust(&inputs.z, &mut inputs.lists)
    }

    pub fn open_library(inputs: &mut Inputs) -> u32 {
        by_library(&inputs.open, &mut inputs.lists)
    }

    pub fn open_rust(inputs: &mut Inputs) -> u32 {
        by_rust(&inputs.open, &mut inputs.lists)
    }
}

mod read {
    use super::*;

    type Read = fn(&Reading) -> Result<Amount, Refusal>;

    /// The conversion in floating point that is nearest to hand.
    fn by_double(reading: &Reading) -> Result<Amount, Refusal> {
        let x = reading.measure;
        let (water, above_zero) = match reading.kind {
            card::MISSING => return Err(Refusal::Missing),
            card::WHOLE if (0..=100_000).contains(&reading.whole) => (reading.whole as u32, false),
            card::INCHES if (0.0..=100.0).contains(&x) => ((f64::from(x) * 1000.0).round() as u32, x > 0.0),
            card::MILLIMETRES if (0.0..=2_540.0).contains(&x) => {
                ((f64::from(x) * 5000.0 / 127.0).round() as u32, x > 0.0)
            }
            _ => return Err(Refusal::NotAcceptable),
        };
        let kind = match (water, above_zero) {
            (0, false) => card::NONE,
            (0, true) => card::TRACE,
            _ => card::MEASURED,
        };
        Ok(Amount { water, kind })
    }

    fn sum_library<T: Copy>(list: &[T], reading: fn(T) -> Reading) -> u32 {
        list.iter().map(|x| card::read(reading(*x)).water).fold(0, u32::wrapping_add)
    }

    fn sum<T: Copy>(list: &[T], reading: fn(T) -> Reading, read: Read) -> u32 {
        let read = black_box(read);
        list.iter().map(|x| read(&reading(*x)).map_or(0, |amount| amount.water)).fold(0, u32::wrapping_add)
    }

    pub fn inches_library(inputs: &mut Inputs) -> u32 {
        sum_library(&inputs.inches, Reading::inches)
    }

    pub fn inches_rust(inputs: &mut Inputs) -> u32 {
        sum(&inputs.inches, Reading::inches, reference::read)
    }

    pub fn inches_double(inputs: &mut Inputs) -> u32 {
        sum(&inputs.inches, Reading::inches, by_double)
    }

    pub fn mm_library(inputs: &mut Inputs) -> u32 {
        sum_library(&inputs.mm, Reading::millimetres)
    }

    pub fn mm_rust(inputs: &mut Inputs) -> u32 {
        sum(&inputs.mm, Reading::millimetres, reference::read)
    }

    pub fn mm_double(inputs: &mut Inputs) -> u32 {
        sum(&inputs.mm, Reading::millimetres, by_double)
    }

    pub fn whole_library(inputs: &mut Inputs) -> u32 {
        sum_library(&inputs.season.0[..READINGS], Reading::whole)
    }

    pub fn whole_rust(inputs: &mut Inputs) -> u32 {
        sum(&inputs.season.0[..READINGS], Reading::whole, reference::read)
    }

    /// That the three conversions give the same, measure by measure, and kind by kind, which the sums leave out.
    pub fn check(inputs: &Inputs) {
        let inches = inputs.inches.iter().map(|x| Reading::inches(*x));
        let mm = inputs.mm.iter().map(|x| Reading::millimetres(*x));
        for reading in inches.chain(mm) {
            let card::Answer { water, kind, .. } = card::read(reading);
            let answers = [Ok(Amount { water, kind }), reference::read(&reading), by_double(&reading)];
            if answers != [answers[0]; 3] {
                eprintln!("bench: {reading:?} gives {answers:?}");
                std::process::exit(1);
            }
        }
    }
}
