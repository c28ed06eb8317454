//! The hand-written reference behind exactly include/card.h: the header's own names, extern "C", a run by value in and
//! out, each list as pointer and length, the same refusals. It is linked in the library's place, so the program that
//! calls the one or the other is the same. Its whole series is bench/series.rs, its repair bench/repair.rs, its constants are
//! worked out in bench/constants.rs, and its lines written and read in bench/lines.rs: they have no list of their own, as the
//! library's have none.
//!
//! It gets what a Rust library behind this header would have: -C opt-level=3 for plain x86-64, as the library's own
//! compiler has it, one codegen unit, and panics that abort. A run that comes in by value is the call's own: it is
//! changed where it stands, and copied once, into the answer. No list is copied.

#[path = "../host/card.rs"]
mod card;
mod constants;
mod lines;
#[path = "../tests/cross/reference.rs"]
mod reference;
mod repair;
mod series;

use card::{
    Added, Answer, Change, Columns, Figures, LineFigures, MonthInches, Reading, Record, Repaired, Run, Season,
    Shown, Soil, Started, Summed, Values, WorkedOut,
};
use lines::{Asked, Element};
use reference::{Amount, Refusal};
use std::slice::{from_raw_parts, from_raw_parts_mut};

/// "A refused start: a run of zeros."
const NO_RUN: Run = Run {
    months: 0,
    opens: 0,
    calendar: 0,
    soil: Soil { capacity: 0, surface: 0, underlying: 0 },
    values: Values { x1: 0, x2: 0, x3: 0, v: 0 },
    constants: [0; card::CONSTANTS],
};

/// The columns as the reference takes them.
macro_rules! columns {
    ($x1:ident $n1:ident $x2:ident $n2:ident $x3:ident $n3:ident $index:ident $ni:ident $mark:ident $nm:ident $records:ident $nr:ident $v:ident $nv:ident) => {
        Columns {
            x1: from_raw_parts_mut($x1, $n1),
            x2: from_raw_parts_mut($x2, $n2),
            x3: from_raw_parts_mut($x3, $n3),
            index: from_raw_parts_mut($index, $ni),
            mark: from_raw_parts_mut($mark, $nm),
            records: from_raw_parts_mut($records, $nr),
            v: from_raw_parts_mut($v, $nv),
        }
    };
}

/// The run is copied here and nowhere else.
fn added(answer: Result<reference::Added, Refusal>, run: &Run) -> Added {
    match answer {
        Ok(month) => Added { number: card::DONE, settled: month.settled, figures: month.figures, run: *run },
        Err(refusal) => Added { number: refusal as u8, settled: 0, figures: Figures::default(), run: *run },
    }
}

#[no_mangle]
pub extern "C" fn card_read(reading: Reading) -> Answer {
    match reference::read(&reading) {
        Ok(Amount { water, kind }) => Answer { number: card::DONE, kind, water },
        Err(refusal) => Answer { number: refusal as u8, kind: card::NONE, water: 0 },
    }
}

#[no_mangle]
#[rustfmt::skip]
pub unsafe extern "C" fn card_start(constants: *const i32, n: usize, capacity: i32, surface: i32, underlying: i32, month: i32) -> Started {
    match reference::start(from_raw_parts(constants, n), capacity, surface, underlying, month) {
        Ok(run) => Started { number: card::DONE, run },
        Err(refusal) => Started { number: refusal as u8, run: NO_RUN },
    }
}

#[no_mangle]
#[rustfmt::skip]
pub unsafe extern "C" fn card_add_water(mut run: Run, p: Reading, pe: Reading, x1: *mut i32, n1: usize, x2: *mut i32, n2: usize, x3: *mut i32, n3: usize, index: *mut i32, ni: usize, mark: *mut u8, nm: usize, records: *mut Record, nr: usize, v: *mut i64, nv: usize) -> Added {
    let mut k = columns!(x1 n1 x2 n2 x3 n3 index ni mark nm records nr v nv);
    let answer = reference::add_water(&mut run, &p, &pe, &mut k);
    added(answer, &run)
}

#[no_mangle]
#[rustfmt::skip]
pub unsafe extern "C" fn card_add_inches(mut run: Run, month: MonthInches, x1: *mut i32, n1: usize, x2: *mut i32, n2: usize, x3: *mut i32, n3: usize, index: *mut i32, ni: usize, mark: *mut u8, nm: usize, records: *mut Record, nr: usize, v: *mut i64, nv: usize) -> Added {
    let mut k = columns!(x1 n1 x2 n2 x3 n3 index ni mark nm records nr v nv);
    let answer = reference::add_inches(&mut run, month, &mut k);
    added(answer, &run)
}

#[no_mangle]
#[rustfmt::skip]
pub unsafe extern "C" fn card_add_z(mut run: Run, z: i32, x1: *mut i32, n1: usize, x2: *mut i32, n2: usize, x3: *mut i32, n3: usize, index: *mut i32, ni: usize, mark: *mut u8, nm: usize, records: *mut Record, nr: usize, v: *mut i64, nv: usize) -> Added {
    let mut k = columns!(x1 n1 x2 n2 x3 n3 index ni mark nm records nr v nv);
    let answer = reference::add_z(&mut run, z, &mut k);
    added(answer, &run)
}

#[no_mangle]
#[rustfmt::skip]
pub unsafe extern "C" fn card_add_season(mut run: Run, p: *const i32, np: usize, pe: *const i32, npe: usize, x1: *mut i32, n1: usize, x2: *mut i32, n2: usize, x3: *mut i32, n3: usize, index: *mut i32, ni: usize, mark: *mut u8, nm: usize, records: *mut Record, nr: usize, v: *mut i64, nv: usize) -> Season {
    let mut k = columns!(x1 n1 x2 n2 x3 n3 index ni mark nm records nr v nv);
    let season = reference::add_season(&mut run, from_raw_parts(p, np), from_raw_parts(pe, npe), &mut k);
    let number = season.refused.map_or(card::DONE, |refusal| refusal as u8);
    Season { number, added: season.added, settled: season.settled, figures: season.figures, run }
}

#[no_mangle]
#[rustfmt::skip]
pub unsafe extern "C" fn card_repair(mut run: Run, row: usize, p: Reading, pe: Reading, x1: *mut i32, n1: usize, x2: *mut i32, n2: usize, x3: *mut i32, n3: usize, index: *mut i32, ni: usize, mark: *mut u8, nm: usize, records: *mut Record, nr: usize, v: *mut i64, nv: usize, report: *mut Change, nc: usize) -> Repaired {
    let mut k = columns!(x1 n1 x2 n2 x3 n3 index ni mark nm records nr v nv);
    match repair::repair(&mut run, row, &p, &pe, &mut k, from_raw_parts_mut(report, nc)) {
        Ok(changed) => Repaired { number: card::DONE, changed, run },
        Err(refusal) => Repaired { number: refusal as u8, changed: 0, run },
    }
}

/// The columns are to const: they are lent on, and the reference only reads them.
#[no_mangle]
#[rustfmt::skip]
pub unsafe extern "C" fn card_row(run: Run, row: usize, x1: *mut i32, n1: usize, x2: *mut i32, n2: usize, x3: *mut i32, n3: usize, index: *mut i32, ni: usize, mark: *mut u8, nm: usize, records: *mut Record, nr: usize, v: *mut i64, nv: usize) -> Shown {
    let k = columns!(x1 n1 x2 n2 x3 n3 index ni mark nm records nr v nv);
    match reference::row(&run, row, &k) {
        Ok(shown) => shown,
        Err(refusal) => Shown { number: refusal as u8, ..Shown::default() },
    }
}

#[no_mangle]
#[rustfmt::skip]
pub unsafe extern "C" fn card_sum_month(run: Run, month: i32, x1: *mut i32, n1: usize, x2: *mut i32, n2: usize, x3: *mut i32, n3: usize, index: *mut i32, ni: usize, mark: *mut u8, nm: usize, records: *mut Record, nr: usize, v: *mut i64, nv: usize) -> Summed {
    let k = columns!(x1 n1 x2 n2 x3 n3 index ni mark nm records nr v nv);
    match constants::sum_month(&run, month, &k) {
        Ok(summed) => summed,
        Err(refusal) => Summed { number: refusal as u8, ..Summed::default() },
    }
}

#[no_mangle]
#[rustfmt::skip]
pub unsafe extern "C" fn card_work_out(run: Run, weights: *const i32, nw: usize, x1: *mut i32, n1: usize, x2: *mut i32, n2: usize, x3: *mut i32, n3: usize, index: *mut i32, ni: usize, mark: *mut u8, nm: usize, records: *mut Record, nr: usize, v: *mut i64, nv: usize) -> WorkedOut {
    let k = columns!(x1 n1 x2 n2 x3 n3 index ni mark nm records nr v nv);
    match constants::work_out(&run, from_raw_parts(weights, nw), &k) {
        Ok(worked) => worked,
        Err(refusal) => WorkedOut { number: refusal as u8, constants: [0; card::CONSTANTS], departures: [0; card::WEIGHTS] },
    }
}

fn number_of(answer: Result<(), u8>) -> u8 {
    answer.map_or_else(|number| number, |()| card::DONE)
}

fn told(answer: Result<LineFigures, u8>) -> LineFigures {
    answer.unwrap_or_else(|number| LineFigures { number, ..LineFigures::default() })
}

#[no_mangle]
#[rustfmt::skip]
pub unsafe extern "C" fn card_write_index_line(run: Run, state: u32, division: u32, year: u32, which: u32, x1: *mut i32, n1: usize, x2: *mut i32, n2: usize, x3: *mut i32, n3: usize, index: *mut i32, ni: usize, mark: *mut u8, nm: usize, records: *mut Record, nr: usize, v: *mut i64, nv: usize, line: *mut u8, nl: usize) -> u8 {
    let k = columns!(x1 n1 x2 n2 x3 n3 index ni mark nm records nr v nv);
    let asked = Asked { state, division, year, which };
    number_of(lines::write(Element::Index, asked, &run, &k, from_raw_parts_mut(line, nl)))
}

#[no_mangle]
#[rustfmt::skip]
pub unsafe extern "C" fn card_write_z_line(run: Run, state: u32, division: u32, year: u32, which: u32, x1: *mut i32, n1: usize, x2: *mut i32, n2: usize, x3: *mut i32, n3: usize, index: *mut i32, ni: usize, mark: *mut u8, nm: usize, records: *mut Record, nr: usize, v: *mut i64, nv: usize, line: *mut u8, nl: usize) -> u8 {
    let k = columns!(x1 n1 x2 n2 x3 n3 index ni mark nm records nr v nv);
    let asked = Asked { state, division, year, which };
    number_of(lines::write(Element::Z, asked, &run, &k, from_raw_parts_mut(line, nl)))
}

#[no_mangle]
#[rustfmt::skip]
pub unsafe extern "C" fn card_write_modified_line(run: Run, state: u32, division: u32, year: u32, which: u32, x1: *mut i32, n1: usize, x2: *mut i32, n2: usize, x3: *mut i32, n3: usize, index: *mut i32, ni: usize, mark: *mut u8, nm: usize, records: *mut Record, nr: usize, v: *mut i64, nv: usize, line: *mut u8, nl: usize) -> u8 {
    let k = columns!(x1 n1 x2 n2 x3 n3 index ni mark nm records nr v nv);
    let asked = Asked { state, division, year, which };
    number_of(lines::write(Element::Modified, asked, &run, &k, from_raw_parts_mut(line, nl)))
}

#[no_mangle]
#[rustfmt::skip]
pub unsafe extern "C" fn card_read_index_line(line: *const u8, nl: usize, state: u32, division: u32, year: u32) -> LineFigures {
    told(lines::read(Element::Index, from_raw_parts(line, nl), state, division, year))
}

#[no_mangle]
#[rustfmt::skip]
pub unsafe extern "C" fn card_read_z_line(line: *const u8, nl: usize, state: u32, division: u32, year: u32) -> LineFigures {
    told(lines::read(Element::Z, from_raw_parts(line, nl), state, division, year))
}

#[no_mangle]
#[rustfmt::skip]
pub unsafe extern "C" fn card_read_modified_line(line: *const u8, nl: usize, state: u32, division: u32, year: u32) -> LineFigures {
    told(lines::read(Element::Modified, from_raw_parts(line, nl), state, division, year))
}

#[no_mangle]
pub unsafe extern "C" fn card_line_year(line: *const u8, nl: usize) -> u32 {
    lines::year(from_raw_parts(line, nl))
}

#[no_mangle]
pub unsafe extern "C" fn card_line_fault(line: *const u8, nl: usize) -> u32 {
    lines::fault(from_raw_parts(line, nl))
}

#[no_mangle]
#[rustfmt::skip]
pub unsafe extern "C" fn card_whole_series(z: *const i32, nz: usize, index: *mut i32, ni: usize, mark: *mut u8, nm: usize) -> u8 {
    let answer = series::whole_series(from_raw_parts(z, nz), from_raw_parts_mut(index, ni), from_raw_parts_mut(mark, nm));
    answer.map_or_else(|refusal| refusal as u8, |()| card::DONE)
}
