//! The card's library in Rust: the types and calls of include/card.h, with lists lent as slices, so that what
//! the header asks of a caller is kept by the types. A program has it as a module and links libcard.a.
#![allow(dead_code)]

/// The numbers that calls answer with.
pub const DONE: u8 = 0;
pub const LENGTHS: u8 = 1;
pub const NOT_SIXTY: u8 = 2;
pub const CONSTANT_OUT: u8 = 3;
pub const CAPACITY_OUT: u8 = 4;
pub const STORAGE_OUT: u8 = 5;
pub const START_MONTH: u8 = 6;
pub const NOT_A_RUN: u8 = 7;
pub const MISSING_READING: u8 = 8;
pub const BAD_READING: u8 = 9;
pub const FULL: u8 = 10;
pub const NO_ROW: u8 = 11;
pub const BAD_Z: u8 = 12;
pub const MALFORMED: u8 = 14;
pub const OTHER_LINE: u8 = 15;
pub const NOT_THE_YEAR: u8 = 16;
pub const WATERLESS: u8 = 17;
pub const FEW_YEARS: u8 = 18;
pub const BAD_GAMMA: u8 = 19;
pub const BAD_K: u8 = 20;
pub const ZERO_K: u8 = 21;
pub const UNFIT: u8 = 24;
pub const SHORT_LINE: u8 = 25;

/// What a column holds at most, how many constants a station has, with how many weights they are worked out, how many
/// bytes and how many months a line of a division file has, and the two marks of a month.
pub const MOST_MONTHS: usize = 12000;
pub const CONSTANTS: usize = 60;
pub const WEIGHTS: usize = 12;
pub const LINE: usize = 94;
pub const LINE_MONTHS: usize = 12;
pub const OPEN: u8 = 1;
pub const SETTLED: u8 = 2;

/// Whether a month had water, as its record says it: only 1 is water.
pub const HAD_NO_WATER: i32 = 0;
pub const HAD_WATER: i32 = 1;

/// The kinds of a reading's answer: no rain, or a refused reading; rain, but too little to measure, which counts as
/// no water; and water above 0. card_read in include/card.h says which number is which.
pub const NONE: u8 = 0;
pub const TRACE: u8 = 1;
pub const MEASURED: u8 = 2;

/// What a number means: the words of card_meaning in include/card.h.
pub fn meaning(number: u8) -> &'static str {
    match number {
        DONE => "done",
        LENGTHS => "lists not all of one length, or length 0 or above 12,000",
        NOT_SIXTY => "constants not sixty numbers",
        CONSTANT_OUT => "a constant outside its range",
        CAPACITY_OUT => "capacity outside its range",
        STORAGE_OUT => "a start storage negative or above its layer",
        START_MONTH => "start month not 1 to 12",
        NOT_A_RUN => "not a run",
        MISSING_READING => "reading missing",
        BAD_READING => "reading not acceptable",
        FULL => "months already equal the column length",
        NO_ROW => "row number not below the months added",
        BAD_Z => "Z outside its range",
        MALFORMED => "a line is malformed, or its precipitation outside 0 to 100 inches",
        OTHER_LINE => "a line of another state, division or element",
        NOT_THE_YEAR => "a line of another year",
        WATERLESS => "no water in that month",
        FEW_YEARS => "fewer than ten whole years, or one with a month without water",
        BAD_GAMMA => "a gamma worked out is outside its range",
        BAD_K => "no departures to weigh, or a K worked out is outside its range",
        ZERO_K => "a K of 0, by which a month counts for nothing",
        UNFIT => "a value, state, division or year does not fit, or a value would read as missing",
        SHORT_LINE => "the list is too short for a line",
        _ => "no number of this library",
    }
}

/// The kinds of a reading.
pub const MISSING: u32 = 0;
pub const WHOLE: u32 = 1;
pub const INCHES: u32 = 2;
pub const MILLIMETRES: u32 = 3;

#[repr(C)]
#[derive(Clone, Copy, Debug)]
pub struct Reading {
    pub kind: u32,
    pub whole: i32,
    pub measure: f32,
}

impl Reading {
    pub const fn missing() -> Reading {
        Reading { kind: MISSING, whole: 0, measure: 0.0 }
    }
    pub const fn whole(thousandths: i32) -> Reading {
        Reading { kind: WHOLE, whole: thousandths, measure: 0.0 }
    }
    pub const fn inches(x: f32) -> Reading {
        Reading { kind: INCHES, whole: 0, measure: x }
    }
    pub const fn millimetres(x: f32) -> Reading {
        Reading { kind: MILLIMETRES, whole: 0, measure: x }
    }
}

#[repr(C)]
#[derive(Clone, Copy, Debug, PartialEq, Eq)]
pub struct Answer {
    pub number: u8,
    pub kind: u8,
    pub water: u32,
}

#[repr(C)]
#[derive(Clone, Copy, Debug, PartialEq, Eq)]
pub struct Soil {
    pub capacity: u32,
    pub surface: u32,
    pub underlying: u32,
}

#[repr(C)]
#[derive(Clone, Copy, Debug, PartialEq, Eq)]
pub struct Values {
    pub x1: i32,
    pub x2: i32,
    pub x3: i32,
    pub v: i64,
}

#[repr(C)]
#[derive(Clone, Copy, Debug, PartialEq, Eq)]
pub struct Run {
    pub months: u32,
    pub opens: u32,
    pub calendar: u32,
    pub soil: Soil,
    pub values: Values,
    pub constants: [i32; 60],
}

#[repr(C)]
#[derive(Clone, Copy, Debug, PartialEq, Eq)]
pub struct Started {
    pub number: u8,
    pub run: Run,
}

/// The kinds of a month's two readings; of an added Z both `NONE`.
#[repr(C)]
#[derive(Clone, Copy, Debug, Default, PartialEq, Eq)]
pub struct MonthKinds {
    pub p: u8,
    pub pe: u8,
}

#[repr(C)]
#[derive(Clone, Copy, Debug, Default, PartialEq, Eq)]
pub struct Water {
    pub p: u32,
    pub pe: u32,
    pub ls: u32,
    pub lu: u32,
    pub et: u32,
    pub r: u32,
    pub ro: u32,
    pub pr: u32,
    pub pro: u32,
    pub pl: u32,
    pub cafec: i32,
    pub kinds: MonthKinds,
}

#[repr(C)]
#[derive(Clone, Copy, Debug, Default, PartialEq, Eq)]
pub struct Figures {
    pub water: Water,
    pub z: i32,
    pub percent: u32,
    pub x1: i32,
    pub x2: i32,
    pub x3: i32,
    pub index: i32,
    pub mark: u8,
    pub modified: i32,
}

#[repr(C)]
#[derive(Clone, Copy, Debug, PartialEq, Eq)]
pub struct Added {
    pub number: u8,
    pub settled: u32,
    pub figures: Figures,
    pub run: Run,
}

/// What stands in a season's lists for a missing reading.
pub const NO_READING: i32 = -1;

#[repr(C)]
#[derive(Clone, Copy, Debug, PartialEq, Eq)]
pub struct Season {
    pub number: u8,
    pub added: u32,
    pub settled: u32,
    pub figures: Figures,
    pub run: Run,
}

#[repr(C)]
#[derive(Clone, Copy, Debug)]
pub struct MonthInches {
    pub p: f32,
    pub pe: f32,
}

/// A month's record as its column holds it: its Z, its water, its soil, its modified index and the kind of its
/// precipitation. `water` is `HAD_WATER`, or `HAD_NO_WATER` where the month was added as a Z.
#[repr(C)]
#[derive(Clone, Copy, Debug, Default, PartialEq, Eq)]
pub struct Record {
    pub z: i32,
    pub p: i32,
    pub pe: i32,
    pub et: i32,
    pub r: i32,
    pub l: i32,
    pub ro: i32,
    pub ss: i32,
    pub su: i32,
    pub surface: i32,
    pub underlying: i32,
    pub water: i32,
    pub modified: i32,
    pub kind: i32,
}

/// A month whose index or mark a repair changed: its row, and both as they were before the call and as they are now.
#[repr(C)]
#[derive(Clone, Copy, Debug, Default, PartialEq, Eq)]
pub struct Change {
    pub row: i32,
    pub index_before: i32,
    pub index_after: i32,
    pub mark_before: i32,
    pub mark_after: i32,
}

/// `changed` is how many months the report has.
#[repr(C)]
#[derive(Clone, Copy, Debug, PartialEq, Eq)]
pub struct Repaired {
    pub number: u8,
    pub changed: u32,
    pub run: Run,
}

#[repr(C)]
#[derive(Clone, Copy, Debug, Default, PartialEq, Eq)]
pub struct Shown {
    pub number: u8,
    pub x1: i32,
    pub x2: i32,
    pub x3: i32,
    pub index: i32,
    pub mark: u8,
    pub month: Record,
    pub v: i64,
}

/// Sums over the years of one calendar month.
#[repr(C)]
#[derive(Clone, Copy, Debug, Default, PartialEq, Eq)]
pub struct Sums {
    pub et: u32,
    pub pe: u32,
    pub r: u32,
    pub pr: u32,
    pub ro: u32,
    pub pro: u32,
    pub l: u32,
    pub pl: u32,
}

#[repr(C)]
#[derive(Clone, Copy, Debug, Default, PartialEq, Eq)]
pub struct Summed {
    pub number: u8,
    pub years: u32,
    pub sums: Sums,
}

/// Constants as `start` takes them, and the departure of each calendar month, January first.
#[repr(C)]
#[derive(Clone, Copy, Debug, PartialEq, Eq)]
pub struct WorkedOut {
    pub number: u8,
    pub constants: [i32; 60],
    pub departures: [u32; 12],
}

/// What a line of a division file says of its year: the hundredths of its months, January first, and 0 where one is
/// missing; the set of those that are not, how many they are, and the first that is missing, 1 to 12, or 0.
#[repr(C)]
#[derive(Clone, Copy, Debug, Default, PartialEq, Eq)]
pub struct LineFigures {
    pub number: u8,
    pub hundredths: [i32; 12],
    pub present: u32,
    pub count: u32,
    pub first_missing: u32,
}

/// The seven columns, lent for a call. They may be of any lengths; what does not fit is refused.
pub struct Columns<'a> {
    pub x1: &'a mut [i32],
    pub x2: &'a mut [i32],
    pub x3: &'a mut [i32],
    pub index: &'a mut [i32],
    pub mark: &'a mut [u8],
    pub records: &'a mut [Record],
    pub v: &'a mut [i64],
}

mod c {
    use super::*;
    #[rustfmt::skip]
    extern "C" {
        pub fn card_read(reading: Reading) -> Answer;
        pub fn card_start(constants: *const i32, n: usize, capacity: i32, surface: i32, underlying: i32, month: i32) -> Started;
        pub fn card_add_water(run: Run, p: Reading, pe: Reading, x1: *mut i32, n1: usize, x2: *mut i32, n2: usize, x3: *mut i32, n3: usize, index: *mut i32, ni: usize, mark: *mut u8, nm: usize, records: *mut Record, nr: usize, v: *mut i64, nv: usize) -> Added;
        pub fn card_add_inches(run: Run, month: MonthInches, x1: *mut i32, n1: usize, x2: *mut i32, n2: usize, x3: *mut i32, n3: usize, index: *mut i32, ni: usize, mark: *mut u8, nm: usize, records: *mut Record, nr: usize, v: *mut i64, nv: usize) -> Added;
        pub fn card_add_z(run: Run, z: i32, x1: *mut i32, n1: usize, x2: *mut i32, n2: usize, x3: *mut i32, n3: usize, index: *mut i32, ni: usize, mark: *mut u8, nm: usize, records: *mut Record, nr: usize, v: *mut i64, nv: usize) -> Added;
        pub fn card_add_season(run: Run, p: *const i32, np: usize, pe: *const i32, npe: usize, x1: *mut i32, n1: usize, x2: *mut i32, n2: usize, x3: *mut i32, n3: usize, index: *mut i32, ni: usize, mark: *mut u8, nm: usize, records: *mut Record, nr: usize, v: *mut i64, nv: usize) -> Season;
        pub fn card_repair(run: Run, row: usize, p: Reading, pe: Reading, x1: *mut i32, n1: usize, x2: *mut i32, n2: usize, x3: *mut i32, n3: usize, index: *mut i32, ni: usize, mark: *mut u8, nm: usize, records: *mut Record, nr: usize, v: *mut i64, nv: usize, report: *mut Change, nc: usize) -> Repaired;
        pub fn card_row(run: Run, row: usize, x1: *const i32, n1: usize, x2: *const i32, n2: usize, x3: *const i32, n3: usize, index: *const i32, ni: usize, mark: *const u8, nm: usize, records: *const Record, nr: usize, v: *const i64, nv: usize) -> Shown;
        pub fn card_sum_month(run: Run, month: i32, x1: *const i32, n1: usize, x2: *const i32, n2: usize, x3: *const i32, n3: usize, index: *const i32, ni: usize, mark: *const u8, nm: usize, records: *const Record, nr: usize, v: *const i64, nv: usize) -> Summed;
        pub fn card_work_out(run: Run, weights: *const i32, nw: usize, x1: *const i32, n1: usize, x2: *const i32, n2: usize, x3: *const i32, n3: usize, index: *const i32, ni: usize, mark: *const u8, nm: usize, records: *const Record, nr: usize, v: *const i64, nv: usize) -> WorkedOut;
        pub fn card_write_index_line(run: Run, state: u32, division: u32, year: u32, which: u32, x1: *const i32, n1: usize, x2: *const i32, n2: usize, x3: *const i32, n3: usize, index: *const i32, ni: usize, mark: *const u8, nm: usize, records: *const Record, nr: usize, v: *const i64, nv: usize, line: *mut u8, nl: usize) -> u8;
        pub fn card_write_z_line(run: Run, state: u32, division: u32, year: u32, which: u32, x1: *const i32, n1: usize, x2: *const i32, n2: usize, x3: *const i32, n3: usize, index: *const i32, ni: usize, mark: *const u8, nm: usize, records: *const Record, nr: usize, v: *const i64, nv: usize, line: *mut u8, nl: usize) -> u8;
        pub fn card_write_modified_line(run: Run, state: u32, division: u32, year: u32, which: u32, x1: *const i32, n1: usize, x2: *const i32, n2: usize, x3: *const i32, n3: usize, index: *const i32, ni: usize, mark: *const u8, nm: usize, records: *const Record, nr: usize, v: *const i64, nv: usize, line: *mut u8, nl: usize) -> u8;
        pub fn card_read_index_line(line: *const u8, nl: usize, state: u32, division: u32, year: u32) -> LineFigures;
        pub fn card_read_z_line(line: *const u8, nl: usize, state: u32, division: u32, year: u32) -> LineFigures;
        pub fn card_read_modified_line(line: *const u8, nl: usize, state: u32, division: u32, year: u32) -> LineFigures;
        pub fn card_line_year(line: *const u8, nl: usize) -> u32;
        pub fn card_line_fault(line: *const u8, nl: usize) -> u32;
        pub fn card_whole_series(z: *const i32, nz: usize, index: *mut i32, ni: usize, mark: *mut u8, nm: usize) -> u8;
    }
}

// Each call below lends slices that the borrow checker holds apart, each with its own length, and a slice's
// pointer is never null: that is all that include/card.h asks of a caller.

pub fn read(reading: Reading) -> Answer {
    unsafe { c::card_read(reading) }
}

pub fn start(constants: &[i32], capacity: i32, surface: i32, underlying: i32, month: i32) -> Started {
    unsafe { c::card_start(constants.as_ptr(), constants.len(), capacity, surface, underlying, month) }
}

#[rustfmt::skip]
pub fn add_water(run: Run, p: Reading, pe: Reading, k: &mut Columns) -> Added {
    unsafe {
        c::card_add_water(run, p, pe, k.x1.as_mut_ptr(), k.x1.len(), k.x2.as_mut_ptr(), k.x2.len(), k.x3.as_mut_ptr(), k.x3.len(), k.index.as_mut_ptr(), k.index.len(), k.mark.as_mut_ptr(), k.mark.len(), k.records.as_mut_ptr(), k.records.len(), k.v.as_mut_ptr(), k.v.len())
    }
}

#[rustfmt::skip]
pub fn add_inches(run: Run, month: MonthInches, k: &mut Columns) -> Added {
    unsafe {
        c::card_add_inches(run, month, k.x1.as_mut_ptr(), k.x1.len(), k.x2.as_mut_ptr(), k.x2.len(), k.x3.as_mut_ptr(), k.x3.len(), k.index.as_mut_ptr(), k.index.len(), k.mark.as_mut_ptr(), k.mark.len(), k.records.as_mut_ptr(), k.records.len(), k.v.as_mut_ptr(), k.v.len())
    }
}

#[rustfmt::skip]
pub fn add_z(run: Run, z: i32, k: &mut Columns) -> Added {
    unsafe {
        c::card_add_z(run, z, k.x1.as_mut_ptr(), k.x1.len(), k.x2.as_mut_ptr(), k.x2.len(), k.x3.as_mut_ptr(), k.x3.len(), k.index.as_mut_ptr(), k.index.len(), k.mark.as_mut_ptr(), k.mark.len(), k.records.as_mut_ptr(), k.records.len(), k.v.as_mut_ptr(), k.v.len())
    }
}

#[rustfmt::skip]
pub fn add_season(run: Run, p: &[i32], pe: &[i32], k: &mut Columns) -> Season {
    unsafe {
        c::card_add_season(run, p.as_ptr(), p.len(), pe.as_ptr(), pe.len(), k.x1.as_mut_ptr(), k.x1.len(), k.x2.as_mut_ptr(), k.x2.len(), k.x3.as_mut_ptr(), k.x3.len(), k.index.as_mut_ptr(), k.index.len(), k.mark.as_mut_ptr(), k.mark.len(), k.records.as_mut_ptr(), k.records.len(), k.v.as_mut_ptr(), k.v.len())
    }
}

/// The report is to be as long as the columns, and is written whole.
#[rustfmt::skip]
pub fn repair(run: Run, row: usize, p: Reading, pe: Reading, k: &mut Columns, report: &mut [Change]) -> Repaired {
    unsafe {
        c::card_repair(run, row, p, pe, k.x1.as_mut_ptr(), k.x1.len(), k.x2.as_mut_ptr(), k.x2.len(), k.x3.as_mut_ptr(), k.x3.len(), k.index.as_mut_ptr(), k.index.len(), k.mark.as_mut_ptr(), k.mark.len(), k.records.as_mut_ptr(), k.records.len(), k.v.as_mut_ptr(), k.v.len(), report.as_mut_ptr(), report.len())
    }
}

#[rustfmt::skip]
pub fn row(run: Run, row: usize, k: &Columns) -> Shown {
    unsafe {
        c::card_row(run, row, k.x1.as_ptr(), k.x1.len(), k.x2.as_ptr(), k.x2.len(), k.x3.as_ptr(), k.x3.len(), k.index.as_ptr(), k.index.len(), k.mark.as_ptr(), k.mark.len(), k.records.as_ptr(), k.records.len(), k.v.as_ptr(), k.v.len())
    }
}

/// `month` is the calendar month, 1 to 12.
#[rustfmt::skip]
pub fn sum_month(run: Run, month: i32, k: &Columns) -> Summed {
    unsafe {
        c::card_sum_month(run, month, k.x1.as_ptr(), k.x1.len(), k.x2.as_ptr(), k.x2.len(), k.x3.as_ptr(), k.x3.len(), k.index.as_ptr(), k.index.len(), k.mark.as_ptr(), k.mark.len(), k.records.as_ptr(), k.records.len(), k.v.as_ptr(), k.v.len())
    }
}

/// The weights are to be twelve. Constants that come with `DONE` are taken by `start`.
#[rustfmt::skip]
pub fn work_out(run: Run, weights: &[i32], k: &Columns) -> WorkedOut {
    unsafe {
        c::card_work_out(run, weights.as_ptr(), weights.len(), k.x1.as_ptr(), k.x1.len(), k.x2.as_ptr(), k.x2.len(), k.x3.as_ptr(), k.x3.len(), k.index.as_ptr(), k.index.len(), k.mark.as_ptr(), k.mark.len(), k.records.as_ptr(), k.records.len(), k.v.as_ptr(), k.v.len())
    }
}

/// The line of one of the run's years: `year` is the calendar year of row 0, `which` counts from 0. `line` is to have
/// `LINE` bytes at least, and those after them stay as they were. Months that are not settled are sent as missing.
#[rustfmt::skip]
pub fn write_index_line(run: Run, state: u32, division: u32, year: u32, which: u32, k: &Columns, line: &mut [u8]) -> u8 {
    unsafe {
        c::card_write_index_line(run, state, division, year, which, k.x1.as_ptr(), k.x1.len(), k.x2.as_ptr(), k.x2.len(), k.x3.as_ptr(), k.x3.len(), k.index.as_ptr(), k.index.len(), k.mark.as_ptr(), k.mark.len(), k.records.as_ptr(), k.records.len(), k.v.as_ptr(), k.v.len(), line.as_mut_ptr(), line.len())
    }
}

/// The same with the Z of every month of the run.
#[rustfmt::skip]
pub fn write_z_line(run: Run, state: u32, division: u32, year: u32, which: u32, k: &Columns, line: &mut [u8]) -> u8 {
    unsafe {
        c::card_write_z_line(run, state, division, year, which, k.x1.as_ptr(), k.x1.len(), k.x2.as_ptr(), k.x2.len(), k.x3.as_ptr(), k.x3.len(), k.index.as_ptr(), k.index.len(), k.mark.as_ptr(), k.mark.len(), k.records.as_ptr(), k.records.len(), k.v.as_ptr(), k.v.len(), line.as_mut_ptr(), line.len())
    }
}

/// The same with the modified index of every month of the run.
#[rustfmt::skip]
pub fn write_modified_line(run: Run, state: u32, division: u32, year: u32, which: u32, k: &Columns, line: &mut [u8]) -> u8 {
    unsafe {
        c::card_write_modified_line(run, state, division, year, which, k.x1.as_ptr(), k.x1.len(), k.x2.as_ptr(), k.x2.len(), k.x3.as_ptr(), k.x3.len(), k.index.as_ptr(), k.index.len(), k.mark.as_ptr(), k.mark.len(), k.records.as_ptr(), k.records.len(), k.v.as_ptr(), k.v.len(), line.as_mut_ptr(), line.len())
    }
}

/// A line without its line feed, of a named state, division and year.
pub fn read_index_line(line: &[u8], state: u32, division: u32, year: u32) -> LineFigures {
    unsafe { c::card_read_index_line(line.as_ptr(), line.len(), state, division, year) }
}

pub fn read_z_line(line: &[u8], state: u32, division: u32, year: u32) -> LineFigures {
    unsafe { c::card_read_z_line(line.as_ptr(), line.len(), state, division, year) }
}

pub fn read_modified_line(line: &[u8], state: u32, division: u32, year: u32) -> LineFigures {
    unsafe { c::card_read_modified_line(line.as_ptr(), line.len(), state, division, year) }
}

/// The year that a line's columns say, or 0 where they hold no four digits.
pub fn line_year(line: &[u8]) -> u32 {
    unsafe { c::card_line_year(line.as_ptr(), line.len()) }
}

/// The column, from 1, where the first field at fault begins of a line that is `MALFORMED`, or 0.
pub fn line_fault(line: &[u8]) -> u32 {
    unsafe { c::card_line_fault(line.as_ptr(), line.len()) }
}

pub fn whole_series(z: &[i32], index: &mut [i32], mark: &mut [u8]) -> u8 {
    unsafe {
        c::card_whole_series(z.as_ptr(), z.len(), index.as_mut_ptr(), index.len(), mark.as_mut_ptr(), mark.len())
    }
}
