//! What card_repair refuses: every fault beside every other, lengths of the columns and of the report, rows near and far,
//! readings at every edge, runs spoiled in each field, and runs with the columns of another time.

use crate::add::Way;
use crate::card::{Reading, Run};
use crate::check::{differ, Call, Check};
use crate::lists::{Fill, Lists, Seven};
use crate::read::edge_readings;
use crate::reference::MOST_MONTHS;
use crate::repair::Repair;
use crate::repair_rows::{any_readings, any_rows, run_of};
use crate::repair_runs::Log;
use crate::runs::{length_faults, limits, set_field, FIELDS, NO_RUN};

pub fn refusals(c: &mut Check, times: u64) {
    order(c);
    lengths(c);
    far_rows(c);
    edges(c);
    spoiled_runs(c);
    other_times(c, times);
}

const GOOD: Reading = Reading::whole(700);

fn expect(c: &mut Check, what: &Repair, run: &Run, lists: &mut Lists, length: usize, wanted: u8) {
    let number = c.repair_in(what, run, lists, length).number;
    if number != wanted {
        differ(Call::Repair, &(what, run, lists.lengths(), length), &number, &wanted);
    }
}

/// A run of 5 months in columns of 7: the months of rows 0 and 4 had water, that of row 2 had none. Of the two rows after the
/// months one has water.
fn book(c: &mut Check) -> (Run, Seven) {
    let run = run_of(&mut c.random, 5);
    let mut seven = any_rows(&mut c.random, &run, 7);
    for (row, water) in [(0, 1), (2, 0), (4, 1), (5, 0), (6, 1)] {
        seven.lend().records[row].water = water;
    }
    (run, seven)
}

// ---- The order ---------------------------------------------------------------------------------------------

/// Each fault of the lists, none first; `true` where it is one.
fn listed(seven: &Seven, fault: usize) -> (Lists, usize, bool) {
    let mut seven = seven.clone();
    let report = match fault {
        1 => 0,
        2 => 6,
        3 => 8,
        _ => 7,
    };
    match fault {
        4 => drop(seven.numbers[3].pop()),
        5 => drop(seven.mark.pop()),
        6 => drop(seven.records.pop()),
        7 => drop(seven.v.pop()),
        _ => {}
    }
    (Lists::of(seven), report, fault > 0)
}

/// Each fault of the run or of a row, none first.
fn spoil(run: &mut Run, seven: &mut Seven, fault: usize) {
    let k = seven.lend();
    match fault {
        1 => run.calendar = 0,
        2 => run.months = 8,
        3 => run.soil.capacity = 99,
        4 => run.constants[4] = 0,
        5 => k.records[4].surface ^= 1,
        6 => k.x1[0] = -1,
        7 => k.mark[3] = 3,
        8 => k.records[4].ro = 100_001,
        9 => k.records[2].kind = 3,
        _ => {}
    }
}

/// "1, 7, 11, 17, precipitation 8 or 9, PE 8 or 9": each with each of those after it.
fn order(c: &mut Check) {
    c.kind("several refusals, repairs");
    let readings = [(GOOD, 0), (Reading::missing(), 8), (Reading::whole(-1), 9), (Reading::inches(f32::NAN), 9)];
    for lists_fault in 0..8 {
        for fault in 0..10 {
            let (mut run, mut seven) = book(c);
            spoil(&mut run, &mut seven, fault);
            let (mut lists, report, misfit) = listed(&seven, lists_fault);
            for (row, of_row) in [(0, 0), (4, 0), (2, 17), (5, 11), (6, 11), (7, 11), (usize::MAX, 11)] {
                for (p, of_p) in readings {
                    for (pe, of_pe) in readings {
                        let refused = [u8::from(misfit), if fault > 0 { 7 } else { 0 }, of_row, of_p, of_pe];
                        let wanted = refused.into_iter().find(|number| *number != 0).unwrap_or(0);
                        expect(c, &Repair { row, p, pe }, &run, &mut lists, report, wanted);
                        if wanted == 0 {
                            lists = Lists::of(seven.clone());
                        }
                    }
                }
            }
        }
    }
}

// ---- Lengths and rows --------------------------------------------------------------------------------------

/// Columns of every length and fault of lengths, with reports as long, shorter, longer and empty.
fn lengths(c: &mut Check) {
    c.kind("repairs, lengths of lists");
    let around = [2_399, 2_400, 2_401, MOST_MONTHS - 1, MOST_MONTHS, MOST_MONTHS + 1];
    for columns in length_faults() {
        let (first, last) = (columns[0], columns[6]);
        for report in [0, 1, first.wrapping_sub(1), first, first + 1, last].into_iter().chain(around) {
            let report = report.min(MOST_MONTHS + 600);
            one_length(c, columns, report);
        }
    }
    for length in [1, 2, 9].into_iter().chain(around) {
        for report in [0, 1, length - 1, length, length + 1] {
            one_length(c, [length; 7], report);
        }
    }
}

fn one_length(c: &mut Check, columns: [usize; 7], report: usize) {
    let fit = columns.iter().all(|length| *length == report) && (1..=MOST_MONTHS).contains(&report);
    let run = run_of(&mut c.random, 1);
    let mut lists = Lists::new(&mut c.random, columns, Fill::AnyBits);
    if columns == [columns[0]; 7] && columns[0] > 0 {
        let mut seven = any_rows(&mut c.random, &run, columns[0]);
        seven.lend().records[0].water = 1;
        lists = Lists::of(seven);
    }
    let what = Repair { row: 0, p: GOOD, pe: GOOD };
    expect(c, &what, &run, &mut lists, report, u8::from(!fit));
}

/// Rows within the run, just past it and far out. Some of those far out are a good row if they are cut to 32 binary digits.
fn far_rows(c: &mut Check) {
    c.kind("repairs, rows near and far");
    let long = [(2_400, 2_400), (MOST_MONTHS, MOST_MONTHS)];
    for (months, length) in [(0, 1), (0, 9), (1, 1), (1, 9), (5, 9), (9, 9)].into_iter().chain(long) {
        let run = run_of(&mut c.random, months);
        let mut seven = any_rows(&mut c.random, &run, length);
        seven.lend().records[..months].iter_mut().for_each(|record| record.water = 1);
        let near = [0, 1, months.saturating_sub(1), months, months + 1, length, 2_400, MOST_MONTHS];
        let bases = [0, 1 << 16, 1 << 31, 1 << 32, 1 << 33, 1 << 48, 1 << 63, usize::MAX - 20_000];
        let rows = bases.into_iter().flat_map(|base| near.map(|row| base + row));
        for row in rows.chain([usize::MAX, usize::MAX - 1, 0usize.wrapping_sub(months)]) {
            let mut lists = Lists::of(seven.clone());
            let what = any_readings(&mut c.random, row);
            expect(c, &what, &run, &mut lists, length, if row < months { 0 } else { 11 });
        }
    }
}

// ---- Readings and runs -------------------------------------------------------------------------------------

/// Every edge of a reading, as precipitation, as PE and as both.
fn edges(c: &mut Check) {
    c.kind("repairs, edges of readings");
    let (mut run, seven) = book(c);
    let mut lists = Lists::of(seven);
    for reading in edge_readings() {
        for (p, pe) in [(reading, GOOD), (GOOD, reading), (reading, reading)] {
            let row = c.random.pick(&[0, 4]);
            let number = c.read(reading).number;
            expect(c, &Repair { row, p, pe }, &run, &mut lists, 7, number);
            // an accepted repair left another run
            run = standing(&run, &mut lists);
        }
    }
}

/// The run as it stands at the end of its last month.
fn standing(run: &Run, lists: &mut Lists) -> Run {
    let last = lists.expected.lend().records[run.months as usize - 1];
    let mut run = *run;
    (run.soil.surface, run.soil.underlying) = (last.surface as u32, last.underlying as u32);
    run
}

/// Each field of a run at and past its limits, over rows that are good in every place, and a run of zeros.
fn spoiled_runs(c: &mut Check) {
    c.kind("repairs, runs spoiled, one field");
    for months in [1, 4, 8] {
        let full = run_of(&mut c.random, 8);
        let seven = any_rows(&mut c.random, &full, 8);
        let good = Run { months, opens: 0, ..full };
        for field in 0..FIELDS + 60 {
            for value in limits(&good, 8) {
                let mut run = good;
                set_field(&mut run, field, value);
                let mut lists = Lists::of(seven.clone());
                lists.meet(&run);
                let row = c.random.below(u64::from(months)) as usize;
                let what = any_readings(&mut c.random, row);
                c.repair(&what, &run, &mut lists);
            }
        }
    }
    for length in [1, 8, 2_400] {
        let mut lists = Lists::new(&mut c.random, [length; 7], Fill::AnyBits);
        let what = any_readings(&mut c.random, 0);
        expect(c, &what, &NO_RUN, &mut lists, length, 7);
    }
}

/// Runs of before an add or a repair with the columns of after it, and the other way round.
fn other_times(c: &mut Check, times: u64) {
    c.kind("repairs, run and columns of two times");
    for _ in 0..40 * times {
        let mut log = Log::new(c, 9, Way::Mixed);
        let (mut runs, mut held) = (Vec::new(), Vec::new());
        for months in [1, 2, 4, 7, 9] {
            log.fill(c, months);
            let row = c.random.below(months as u64) as usize;
            let what = log.readings(&mut c.random, row);
            for repaired in [false, true] {
                if repaired {
                    log.repair(c, &what);
                }
                runs.push(log.run);
                held.push(log.lists.library.clone());
            }
        }
        for run in &runs {
            for seven in &held {
                let row = c.random.below(u64::from(run.months)) as usize;
                let what = any_readings(&mut c.random, row);
                c.repair(&what, run, &mut Lists::of(seven.clone()));
            }
        }
    }
}
