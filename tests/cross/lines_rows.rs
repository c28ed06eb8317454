//! Lines of columns that no run led to: thousandths at every edge of how they are sent, in every row, under marks of every sort;
//! months outside the run and open ones, which refuse nothing; columns of any content; and every value that there is, written and
//! read back.

use crate::card::{Columns, Run};
use crate::check::{differ, Call, Check};
use crate::lines::ELEMENTS;
use crate::lists::{Fill, Lists};
use crate::random::Random;
use crate::reference::lines::{Element, Sent, LINE};
use crate::reference::{MOST_MONTHS, OPEN, SETTLED};
use crate::repair_rows::run_of;

pub fn rows(c: &mut Check, times: u64) {
    edges(c);
    nothing_refused(c);
    any_content(c, times);
    long_columns(c);
    every_value(c);
}

/// Thousandths, and how they are sent; no text where they refuse the line.
const SENT: [(i32, &str); 74] = [
    (i32::MIN, ""),
    (i32::MIN + 1, ""),
    (i32::MIN + 5, ""),
    (-13_000_000, ""),
    (-4_000_000, ""),
    (-1_000_005, ""),
    (-1_000_000, ""),
    (-999_996, ""),
    (-999_995, ""),
    (-999_994, "-999.99"),
    (-999_985, "-999.99"),
    (-999_984, "-999.98"),
    (-100_005, "-100.01"),
    (-100_004, "-100.00"),
    (-99_996, "-100.00"),
    (-99_995, "-100.00"),
    (-99_994, ""),
    (-99_990, ""),
    (-99_986, ""),
    (-99_985, ""),
    (-99_984, " -99.98"),
    (-99_980, " -99.98"),
    (-10_004, " -10.00"),
    (-9_995, " -10.00"),
    (-9_994, "  -9.99"),
    (-9_990, "  -9.99"),
    (-9_985, "  -9.99"),
    (-9_984, "  -9.98"),
    (-5_950, "  -5.95"),
    (-1_005, "  -1.01"),
    (-1_004, "  -1.00"),
    (-995, "  -1.00"),
    (-994, "  -0.99"),
    (-105, "  -0.11"),
    (-95, "  -0.10"),
    (-94, "  -0.09"),
    (-50, "  -0.05"),
    (-15, "  -0.02"),
    (-14, "  -0.01"),
    (-10, "  -0.01"),
    (-6, "  -0.01"),
    (-5, "  -0.01"),
    (-4, "   0.00"),
    (-1, "   0.00"),
    (0, "   0.00"),
    (1, "   0.00"),
    (4, "   0.00"),
    (5, "   0.01"),
    (6, "   0.01"),
    (14, "   0.01"),
    (15, "   0.02"),
    (50, "   0.05"),
    (94, "   0.09"),
    (95, "   0.10"),
    (994, "   0.99"),
    (995, "   1.00"),
    (9_994, "   9.99"),
    (9_995, "  10.00"),
    (99_985, "  99.99"),
    (99_990, "  99.99"),
    (99_994, "  99.99"),
    (99_995, " 100.00"),
    (999_994, " 999.99"),
    (999_995, "1000.00"),
    (4_000_000, "4000.00"),
    (9_999_984, "9999.98"),
    (9_999_985, "9999.99"),
    (9_999_994, "9999.99"),
    (9_999_995, ""),
    (9_999_996, ""),
    (10_000_005, ""),
    (13_000_000, ""),
    (i32::MAX - 5, ""),
    (i32::MAX, ""),
];

/// Every mark is one of these or behaves as the last does.
const MARKS: [u8; 5] = [SETTLED, OPEN, 0, 3, 255];

/// Puts a row's index, Z and modified index, and its mark.
fn put(k: &mut Columns, row: usize, values: [i32; 3], mark: u8) {
    [k.index[row], k.records[row].z, k.records[row].modified] = values;
    k.mark[row] = mark;
}

/// A run of so many months from a calendar month on, in columns of a length: all its months settled with values that fit, and
/// any content in all else.
pub fn book(random: &mut Random, start: usize, months: usize, length: usize) -> (Run, Lists) {
    let calendar = ((start - 1 + months) % 12) as u32 + 1;
    let run = Run { calendar, ..run_of(random, months) };
    let mut lists = Lists::new(random, [length; 7], Fill::AnyBits);
    for row in 0..months {
        let values = [(); 3].map(|()| random.within(-9_000, 9_000) as i32);
        lists.alter(|k| put(k, row, values, SETTLED));
    }
    lists.meet(&run);
    (run, lists)
}

fn any_sent(random: &mut Random, element: Element, which: usize) -> Sent {
    let [state, division] = [(); 2].map(|()| random.within(0, 99) as u32);
    Sent { element, state, division, year: random.within(0, 8_998) as u32, which: which as u32 }
}

// ---- At the edges ------------------------------------------------------------------------------------------

/// Each of `SENT` in every row and in those after the months, under every mark.
fn edges(c: &mut Check) {
    c.kind("lines, values at the edges");
    let (months, length) = (30, 38);
    for start in [1, 6, 12] {
        let (run, mut lists) = book(&mut c.random, start, months, length);
        for row in 0..length {
            let (which, place) = ((start - 1 + row) / 12, 10 + 7 * ((start - 1 + row) % 12));
            for ((value, text), mark) in SENT.into_iter().flat_map(|sent| MARKS.map(|mark| (sent, mark))) {
                for (number, element) in ELEMENTS.into_iter().enumerate() {
                    let mut values = [0; 3];
                    values[number] = value;
                    lists.alter(|k| put(k, row, values, mark));
                    let sends = row < months && (element != Element::Index || mark == SETTLED);
                    let wanted = if sends { text } else { " -99.99" };
                    let sent = any_sent(&mut c.random, element, which);
                    let (number, line) = c.write_line(&sent, &run, &mut lists, LINE);
                    let good = if wanted.is_empty() {
                        number == 24
                    } else {
                        line[place..place + 7] == *wanted.as_bytes()
                    };
                    if !good {
                        differ(Call::WriteIndex, &(sent, run, row, value, mark), &(number, line), &wanted);
                    }
                }
            }
            lists.alter(|k| put(k, row, [0; 3], SETTLED));
        }
    }
}

/// Twelve marks: of the years after the run, of a run of no months, and of open months, whatever stands there.
fn nothing_refused(c: &mut Check) {
    c.kind("lines, nothing to send");
    let unfit = SENT.into_iter().filter(|(_, text)| text.is_empty()).map(|(value, _)| value);
    for (value, start) in unfit.flat_map(|value| (1..=12).map(move |start| (value, start))) {
        for months in [0, 1, 11, 12, 14] {
            let (run, mut lists) = book(&mut c.random, start, months, 50);
            lists.alter(|k| (months..50).for_each(|row| put(k, row, [value; 3], SETTLED)));
            let open = Lists::of(lists.expected.clone());
            for (mut lists, mark) in [(lists, None), (open, c.random.pick(&[Some(OPEN), Some(0), Some(3)]))] {
                for row in 0..months * usize::from(mark.is_some()) {
                    lists.alter(|k| (k.index[row], k.mark[row]) = (value, mark.unwrap_or(SETTLED)));
                }
                for which in [0, 1, 2, 3, 4, 900] {
                    let element = if mark.is_some() { Element::Index } else { c.random.pick(&ELEMENTS) };
                    let sent = any_sent(&mut c.random, element, which);
                    let (number, line) = c.write_line(&sent, &run, &mut lists, LINE);
                    let blank = mark.is_some() || 12 * which >= start - 1 + months;
                    if number != 0 || blank && line[10..] != *" -99.99".repeat(12).as_bytes() {
                        differ(Call::WriteIndex, &(sent, run, value, mark), &(number, line), &"marks");
                    }
                }
            }
        }
    }
}

// ---- Any content -------------------------------------------------------------------------------------------

/// A value that is likely to fit, or one at an edge.
fn any_value(random: &mut Random, odd: u64) -> i32 {
    let size = random.pick(&[9, 99, 3_000, 99_000, 900_000]);
    let any = random.within(-size, size) as i32;
    if random.one_in(odd) {
        random.pick(&SENT).0
    } else {
        any
    }
}

fn any_content(c: &mut Check, times: u64) {
    c.kind("lines, columns of any content");
    for _ in 0..4_000 * times {
        let (start, months) = (c.random.within(1, 12) as usize, c.random.within(0, 60) as usize);
        let length = months + c.random.within(i64::from(months == 0), 14) as usize;
        let (run, mut lists) = book(&mut c.random, start, months, length);
        let (odd, marks) =
            (c.random.pick(&[3, 30, 1_000_000]), c.random.pick(&[[2, 2, 2, 2, 1], [2, 1, 0, 3, 255]]));
        for row in 0..length {
            let values = [(); 3].map(|()| any_value(&mut c.random, odd));
            let mark = c.random.pick(&marks);
            lists.alter(|k| put(k, row, values, mark));
        }
        lists.meet(&run);
        for which in 0..=(start - 1 + length) / 12 {
            for element in ELEMENTS {
                let sent = any_sent(&mut c.random, element, which);
                c.write_line(&sent, &run, &mut lists, LINE);
            }
        }
    }
}

/// The first years, those about 2,400 months and the last ones of long columns, with something unfit before and after each.
fn long_columns(c: &mut Check) {
    c.kind("lines, long columns");
    for months in [2_399, 2_400, 2_401, MOST_MONTHS - 1, MOST_MONTHS] {
        for start in 1..=12 {
            let (run, mut lists) = book(&mut c.random, start, months, months);
            for which in [0, 1, 199, 200, 201, 998, 999, 1_000, 1_001].map(|which| which.min(months / 12 + 1)) {
                let rows = (12 * which).saturating_sub(start - 1)..(12 * which + 13 - start).min(months);
                for row in [rows.start.wrapping_sub(1), rows.end] {
                    lists.alter(|k| {
                        if row < months {
                            put(k, row, [i32::MAX; 3], SETTLED)
                        }
                    });
                }
                for element in ELEMENTS {
                    let sent = any_sent(&mut c.random, element, which);
                    let (number, line) = c.write_line(&sent, &run, &mut lists, LINE);
                    let marks = line.windows(7).filter(|text| *text == b" -99.99").count();
                    if number != 0 || marks != 12 - rows.len() {
                        differ(
                            Call::WriteIndex,
                            &(sent, run, rows),
                            &(number, line),
                            &"the run's rows of that year",
                        );
                    }
                }
                for row in [rows.start.wrapping_sub(1), rows.end] {
                    lists.alter(|k| {
                        if row < months {
                            put(k, row, [0; 3], SETTLED)
                        }
                    });
                }
            }
        }
    }
}

// ---- Every value -------------------------------------------------------------------------------------------

/// Thousandths whose nearest hundredth is this one.
fn near(random: &mut Random, hundredths: i32) -> i32 {
    let any = random.within(-4, 4);
    let off = random.pick(&[-5, -4, 4, any]) as i32;
    match hundredths {
        0 => off.max(-4),
        1.. => 10 * hundredths + off,
        _ => 10 * hundredths - off,
    }
}

/// From -999.99 to 9999.99 hundredth by hundredth, but the mark: twelve to a line, of each element.
fn every_value(c: &mut Check) {
    c.kind("lines, every value");
    let (run, mut lists) = book(&mut c.random, 1, 12, 12);
    let all: Vec<i32> = (-99_999..=999_999).filter(|hundredths| *hundredths != -9_999).collect();
    for twelve in all.chunks(12) {
        for (row, hundredths) in twelve.iter().enumerate() {
            let values = [(); 3].map(|()| near(&mut c.random, *hundredths));
            lists.alter(|k| put(k, row, values, SETTLED));
        }
        for element in ELEMENTS {
            let sent = any_sent(&mut c.random, element, 0);
            let (_, line) = c.write_line(&sent, &run, &mut lists, LINE);
            let told = c.read_line(element, &line, [sent.state, sent.division, sent.year]);
            if told.number != 0 || told.hundredths[..twelve.len()] != *twelve {
                differ(Call::ReadIndex, &(sent, String::from_utf8_lossy(&line)), &told, &twelve);
            }
        }
    }
}
