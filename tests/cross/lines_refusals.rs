//! What the calls that write a line refuse, and that nothing is written then: every fault beside every other, headings at and past
//! their ends, lists of every length about a line's, lengths of the columns, and runs spoiled in each field.

use crate::card::Run;
use crate::check::{differ, Call, Check};
use crate::lines::ELEMENTS;
use crate::lines_rows::book;
use crate::lists::{Fill, Lists, Seven};
use crate::reference::lines::{Sent, LINE};
use crate::reference::MOST_MONTHS;
use crate::runs::{length_faults, limits, run_faults, set_field, FIELDS, NO_RUN};

pub fn refusals(c: &mut Check) {
    order(c);
    headings(c);
    rooms(c);
    lengths(c);
    spoiled_runs(c);
}

impl Check {
    /// A line whose number is known. What stands in the list that is lent shows that nothing was written.
    fn expect_line(&mut self, sent: &Sent, run: &Run, lists: &mut Lists, room: usize, wanted: u8) {
        let (number, line) = self.write_line(sent, run, lists, room);
        let untouched = line.iter().skip(if number == 0 { LINE } else { 0 }).all(|byte| *byte >= 0x80);
        if number != wanted || !untouched {
            differ(Call::WriteIndex, &(sent, run, lists.lengths(), room), &(number, line), &wanted);
        }
    }
}

// ---- The order ---------------------------------------------------------------------------------------------

/// Each fault of the columns' lengths, none first.
fn cut(seven: &mut Seven, fault: usize) -> u8 {
    match fault {
        0 => return 0,
        1 => drop(seven.numbers[0].pop()),
        2 => drop(seven.numbers[3].pop()),
        3 => drop(seven.mark.pop()),
        4 => drop(seven.records.pop()),
        _ => drop(seven.v.pop()),
    }
    1
}

/// Each fault of the run, none first.
fn spoil(run: &mut Run, seven: &mut Seven, fault: usize) -> u8 {
    match fault {
        0 => return 0,
        1 => run.calendar = 13,
        2 => run.months = 31,
        3 => run.constants[4] = 0,
        4 => run.values.x1 = -1,
        _ => seven.lend().records[29].surface ^= 1,
    }
    7
}

/// Each fault of a value that is sent in the run's second year, none first: of the first month of it, one in the middle, and the
/// last, past the end, below it and as the mark.
fn unfit(seven: &mut Seven, fault: usize) -> u8 {
    let (row, value) = match fault {
        0 => return 0,
        1 => (7, 9_999_995),
        2 => (12, -999_995),
        _ => (18, -99_990),
    };
    let k = seven.lend();
    [k.index[row], k.records[row].z, k.records[row].modified] = [value; 3];
    24
}

/// Each fault of the heading, none first: state, division, and the year of row 0, to which one is added.
const HEADINGS: [([u32; 3], u8); 8] = [
    ([99, 99, 9_998], 0),
    ([100, 0, 1932], 24),
    ([0, 100, 1932], 24),
    ([0, 0, 9_999], 24),
    ([0, 0, u32::MAX], 24),
    ([u32::MAX, 0, 0], 24),
    ([0, u32::MAX, 0], 24),
    ([100, 100, 10_000], 24),
];

/// "After 1 and 7, 24 .., 25 .., in that order, with nothing written": each with each of those after it.
fn order(c: &mut Check) {
    c.kind("several refusals, lines");
    // from June on: the second year is rows 7 to 18
    let (good, lists) = book(&mut c.random, 6, 30, 30);
    for (of_lists, of_run) in (0..6).flat_map(|of_lists| (0..6).map(move |of_run| (of_lists, of_run))) {
        for of_value in 0..4 {
            let (mut run, mut seven) = (good, lists.expected.clone());
            let of_value = unfit(&mut seven, of_value);
            let no_run = spoil(&mut run, &mut seven, of_run);
            let misfit = cut(&mut seven, of_lists);
            let mut lists = Lists::of(seven);
            for ([state, division, year], of_heading) in HEADINGS {
                for (room, short) in [(LINE, 0), (300, 0), (LINE - 1, 25), (0, 25)] {
                    for element in ELEMENTS {
                        let sent = Sent { element, state, division, year, which: 1 };
                        let refused = [misfit, no_run, of_heading, of_value, short];
                        let wanted = refused.into_iter().find(|number| *number != 0).unwrap_or(0);
                        c.expect_line(&sent, &run, &mut lists, room, wanted);
                    }
                }
            }
        }
    }
}

// ---- Headings and lists ------------------------------------------------------------------------------------

/// State, division, year and which at their ends and past them; some are good if they are cut, or if a sum wraps.
fn headings(c: &mut Check) {
    c.kind("lines, headings");
    let (run, mut lists) = book(&mut c.random, 6, 30, 30);
    let two = [0, 1, 9, 10, 48, 99, 100, 101, 255, 256, 257, 999, 1 << 16, 1 << 31, u32::MAX - 1, u32::MAX];
    for (state, division) in two.into_iter().flat_map(|state| two.map(|division| (state, division))) {
        for element in ELEMENTS {
            let sent = Sent { element, state, division, year: 1932, which: 1 };
            let wanted = if state > 99 || division > 99 { 24 } else { 0 };
            c.expect_line(&sent, &run, &mut lists, LINE, wanted);
        }
    }
    let four = [0, 1, 2, 3, 9, 10, 99, 100, 1_895, 9_996, 9_997, 9_998, 9_999, 10_000, 65_535, 65_536, 65_537];
    // so that 12 which, or the sum, is a small number again where it wraps
    let wraps = [1 << 28, 1 << 30, 357_913_941, 357_913_942, 1 << 31, u32::MAX - 9_999, u32::MAX - 1, u32::MAX];
    let all: Vec<u32> = four.into_iter().chain(wraps).chain(wraps.map(|number| number - 1_932)).collect();
    for (year, which) in all.iter().flat_map(|year| all.iter().map(|which| (*year, *which))) {
        let wanted = if u64::from(year) + u64::from(which) > 9_999 { 24 } else { 0 };
        for element in ELEMENTS {
            let sent = Sent { element, state: 14, division: 4, year, which };
            c.expect_line(&sent, &run, &mut lists, LINE, wanted);
        }
    }
}

/// Lists of every length to 100 and some longer.
fn rooms(c: &mut Check) {
    c.kind("lines, lists lent");
    let (run, mut lists) = book(&mut c.random, 6, 30, 30);
    for room in (0..=100).chain([188, 255, 256, 300, 350, 1 << 16, (1 << 16) + 93]) {
        for (element, which) in ELEMENTS.into_iter().flat_map(|element| (0..5).map(move |which| (element, which)))
        {
            let sent = Sent { element, state: 14, division: 4, year: 1932, which };
            c.expect_line(&sent, &run, &mut lists, room, if room < LINE { 25 } else { 0 });
        }
    }
}

// ---- Lengths and runs --------------------------------------------------------------------------------------

/// Columns of every fault of lengths, with every fault of a run; and each column a place longer, of short columns and long ones.
fn lengths(c: &mut Check) {
    c.kind("lines, lengths of columns");
    for lengths in length_faults() {
        let (run, _) = book(&mut c.random, 3, 4, 4);
        for run in run_faults(&run) {
            let mut lists = Lists::new(&mut c.random, lengths, Fill::Small);
            lists.meet(&run);
            c.lines(&run, &mut lists);
        }
    }
    for length in [30, 2_400, 2_401, MOST_MONTHS - 1, MOST_MONTHS, MOST_MONTHS + 1] {
        let (run, lists) = book(&mut c.random, 6, 30, length);
        let sent = Sent { element: ELEMENTS[length % 3], state: 14, division: 4, year: 1932, which: 1 };
        c.expect_line(&sent, &run, &mut Lists::of(lists.expected.clone()), LINE, u8::from(length > MOST_MONTHS));
        for column in 0..7 {
            let mut seven = lists.expected.clone();
            match column {
                0..=3 => seven.numbers[column].push(0),
                4 => seven.mark.push(2),
                5 => seven.records.push(Default::default()),
                _ => seven.v.push(0),
            }
            c.expect_line(&sent, &run, &mut Lists::of(seven), LINE, 1);
        }
    }
}

/// Each field of a run at and past its limits.
fn spoiled_runs(c: &mut Check) {
    c.kind("lines, runs spoiled, one field");
    for (start, months, length) in [(6, 30, 30), (1, 12, 20), (4, 0, 5)] {
        let (run, mut lists) = book(&mut c.random, start, months, length);
        for field in 0..FIELDS + 60 {
            for value in limits(&run, length) {
                let mut spoiled = run;
                set_field(&mut spoiled, field, value);
                c.lines(&spoiled, &mut lists);
                lists.meet(&spoiled);
                c.lines(&spoiled, &mut lists);
                lists.meet(&run);
            }
        }
    }
    let (_, mut lists) = book(&mut c.random, 1, 12, 12);
    for element in ELEMENTS {
        let sent = Sent { element, state: 14, division: 4, year: 1932, which: 0 };
        c.expect_line(&sent, &NO_RUN, &mut lists, LINE, 7);
    }
}
