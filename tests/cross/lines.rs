//! Lines of a division file: how the three calls that write one, the three that read one, card_line_year and card_line_fault are
//! compared. Each line that is written or refused is held to the rows by a walk over the calendar and to Rust's own printing of
//! decimals, and each one that is read to Rust's own reading of them.

use crate::card::{self, Columns, LineFigures, Run};
use crate::check::{differ, Call, Check};
use crate::constants::exactly;
use crate::lists::{inner, Lists, EDGE};
use crate::random::Random;
use crate::reference::lines::{self, Element, Sent, LINE};
use crate::reference::{Refusal, SETTLED};

pub const ELEMENTS: [Element; 3] = [Element::Index, Element::Z, Element::Modified];

/// A good line but for its element, which is for the caller to put in.
const GOOD: &[u8; LINE] =
    b"3204..1934  -1.04  -0.96   0.00   0.05  -5.95 -99.99 -10.00 100.00  -9.99   4.00 -99.98 -99.99";

/// The good line of an element, and what it is asked for with: state, division and year.
pub fn good_line(element: u8) -> Vec<u8> {
    [&GOOD[..4], format!("{element:02}").as_bytes(), &GOOD[6..]].concat()
}
pub const GOOD_ONE: [u32; 3] = [32, 4, 1934];

/// What lines came to.
#[derive(Default)]
pub struct Lines {
    random: Random,
    written: u64,
    values: u64,
    marks: u64,
    /// Exact halves above 0 and below it, and values below 0 that are sent as 0.
    halves: [u64; 2],
    below_zero: u64,
    least: i128,
    most: i128,
    /// Lines that were read, and their values.
    read: u64,
    read_values: u64,
    /// Runs whose every year was written and read back.
    pub round: u64,
}

// ---- The comparison ----------------------------------------------------------------------------------------

fn numbered(result: Result<(), Refusal>) -> u8 {
    result.err().map_or(0, |refusal| refusal as u8)
}

impl Check {
    /// Writes a line into a list of so many bytes. The number, and that list.
    pub fn write_line(&mut self, sent: &Sent, run: &Run, lists: &mut Lists, room: usize) -> (u8, Vec<u8>) {
        let Sent { element, state, division, year, which } = *sent;
        // no byte of a line is one of these
        let before: Vec<u8> = (0..room + 2 * EDGE).map(|_| self.lines.random.bits() as u8 | 0x80).collect();
        let (mut lent, mut wanted) = (before.clone(), before);
        let (call, write): (Call, fn(Run, u32, u32, u32, u32, &Columns, &mut [u8]) -> u8) = match element {
            Element::Index => (Call::WriteIndex, card::write_index_line),
            Element::Z => (Call::WriteZ, card::write_z_line),
            Element::Modified => (Call::WriteModified, card::write_modified_line),
        };
        let library = write(*run, state, division, year, which, &lists.library.lend(), inner(&mut lent));
        let number = numbered(lines::write(sent, run, &lists.reference.lend(), inner(&mut wanted)));
        if (library, &lent) != (number, &wanted) || !lists.agree_after(run) {
            let library = (library, String::from_utf8_lossy(&lent), lists.differences());
            differ(
                call,
                &(sent, run, lists.lengths(), room),
                &library,
                &(number, String::from_utf8_lossy(&wanted)),
            );
        }
        self.count(call, number);
        let line = inner(&mut lent).to_vec();
        if number != card::LENGTHS && number != card::NOT_A_RUN {
            self.lines.hold(call, sent, run, &lists.expected.lend(), (number, &line));
        }
        (number, line)
    }

    /// Reads a line for a state, a division and a year. After it stands, not lent, what is no space, or of a short line the rest
    /// of a good one, so that whoever reads too far goes wrong.
    pub fn read_line(&mut self, element: Element, line: &[u8], asked: [u32; 3]) -> LineFigures {
        let [state, division, year] = asked;
        let lent = Lent::new(line, element as u8);
        let (call, read): (Call, fn(&[u8], u32, u32, u32) -> LineFigures) = match element {
            Element::Index => (Call::ReadIndex, card::read_index_line),
            Element::Z => (Call::ReadZ, card::read_z_line),
            Element::Modified => (Call::ReadModified, card::read_modified_line),
        };
        let library = read(lent.line(), state, division, year);
        let reference = match lines::read(element, line, state, division, year) {
            Ok(told) => told,
            Err(refusal) => LineFigures { number: refusal as u8, ..LineFigures::default() },
        };
        if library != reference || lent.line() != line {
            differ(call, &(String::from_utf8_lossy(line), line, asked), &library, &reference);
        }
        self.count(call, reference.number);
        if reference.number == 0 {
            self.lines.hold_read(call, line, &reference);
        }
        reference
    }

    /// The year that a line says, and where it is at fault.
    pub fn year_and_fault(&mut self, line: &[u8]) -> [u32; 2] {
        let lent = Lent::new(line, Element::Z as u8);
        let library = [card::line_year(lent.line()), card::line_fault(lent.line())];
        let reference = [lines::year(line), lines::fault(line)];
        for (call, place) in [(Call::LineYear, 0), (Call::LineFault, 1)] {
            if library[place] != reference[place] {
                differ(call, &(String::from_utf8_lossy(line), line), &library[place], &reference[place]);
            }
        }
        self.count(Call::LineYear, 0);
        self.count(Call::LineFault, if reference[1] == 0 { 0 } else { card::MALFORMED });
        reference
    }

    /// All five calls that read a line. The numbers of the three that answer with one.
    pub fn told(&mut self, line: &[u8], asked: [u32; 3]) -> [u8; 3] {
        let fault = self.year_and_fault(line)[1];
        let numbers = ELEMENTS.map(|element| self.read_line(element, line, asked).number);
        if numbers.map(|number| number == card::MALFORMED) != [fault != 0; 3] {
            differ(Call::LineFault, &(String::from_utf8_lossy(line), line), &fault, &numbers);
        }
        numbers
    }

    /// The three calls that write a line, with a heading and a list that are mostly good. They are drawn apart, so that what
    /// other calls are tried with does not hang on them.
    pub fn lines(&mut self, run: &Run, lists: &mut Lists) {
        for element in ELEMENTS {
            let random = &mut self.lines.random;
            let [state, division] =
                [(); 2].map(|()| random.within(0, 99) as u32 + 100 * u32::from(random.one_in(60)));
            let years = u64::from(run.months.min(12_000)) / 12 + 2;
            let (year, which) = (random.within(0, 8_990) as u32, random.below(years) as u32);
            let room = random.pick(&[0, 93, 94, 94, 94, 95, 120]);
            self.write_line(&Sent { element, state, division, year, which }, run, lists, room);
        }
    }
}

/// A line that is lent, among bytes that are not.
struct Lent {
    bytes: Vec<u8>,
    length: usize,
}

impl Lent {
    fn new(line: &[u8], element: u8) -> Lent {
        let rest = good_line(element).split_off(line.len().min(LINE));
        Lent { bytes: [&[b'9'; EDGE], line, &rest, &[b'9'; EDGE]].concat(), length: line.len() }
    }

    fn line(&self) -> &[u8] {
        &self.bytes[EDGE..EDGE + self.length]
    }
}

// ---- Without the reference ---------------------------------------------------------------------------------

/// The thousandths that the rows send in each calendar month of one of a run's years.
fn sent_by_rows(sent: &Sent, run: &Run, k: &Columns) -> [Option<i32>; 12] {
    let mut found = [None; 12];
    // back from the month after the last row to January of the year of row 0
    let mut first = run.calendar as usize;
    for _ in 0..run.months % 12 {
        first = if first == 1 { 12 } else { first - 1 };
    }
    for (month, place) in found.iter_mut().enumerate() {
        let row = (12 * u64::from(sent.which) + month as u64).checked_sub(first as u64 - 1);
        let Some(row) = row.filter(|row| *row < u64::from(run.months)).map(|row| row as usize) else { continue };
        *place = match sent.element {
            Element::Index => Some(k.index[row]).filter(|_| k.mark[row] == SETTLED),
            Element::Z => Some(k.records[row].z),
            Element::Modified => Some(k.records[row].modified),
        };
    }
    found
}

impl Lines {
    /// Holds what a run's line came to, after 1 and 7.
    fn hold(&mut self, call: Call, sent: &Sent, run: &Run, k: &Columns, (number, line): (u8, &[u8])) {
        let Sent { element, state, division, year, which } = *sent;
        let year = u64::from(which) + u64::from(year);
        let mut text = format!("{state:0>2}{division:0>2}{:0>2}{year:0>4}", element as u8);
        let rows = sent_by_rows(sent, run, k);
        let exact = rows.map(|value| value.map(|thousandths| exactly(thousandths.into(), 10)));
        for value in exact {
            text += &format!("{:7.2}", value.map_or(-99.99, |(hundredths, _)| hundredths as f64 / 100.0));
        }
        let fits = text.len() == LINE && !exact.iter().flatten().any(|(hundredths, _)| *hundredths == -9_999);
        let wanted = match (fits, line.len() < LINE) {
            (false, _) => card::UNFIT,
            (true, true) => card::SHORT_LINE,
            (true, false) => card::DONE,
        };
        if number != wanted || number == 0 && line[..LINE] != *text.as_bytes() {
            differ(call, &(sent, run, rows), &(number, String::from_utf8_lossy(line)), &(wanted, text));
        }
        if number != 0 {
            return;
        }
        (self.written, self.marks) = (self.written + 1, self.marks + 12);
        for ((hundredths, half), thousandths) in exact.into_iter().zip(rows).filter_map(|(e, t)| e.zip(t)) {
            (self.values, self.marks) = (self.values + 1, self.marks - 1);
            self.halves[usize::from(thousandths < 0)] += u64::from(half);
            self.below_zero += u64::from(thousandths < 0 && hundredths == 0);
            (self.least, self.most) = (self.least.min(hundredths), self.most.max(hundredths));
        }
    }

    /// Holds what was read of a line that is not refused.
    fn hold_read(&mut self, call: Call, line: &[u8], told: &LineFigures) {
        let mut wanted = LineFigures::default();
        for (month, value) in line[10..LINE].chunks_exact(7).enumerate().rev() {
            let text = String::from_utf8_lossy(value);
            let number: f64 = text.trim_start_matches(' ').parse().unwrap_or(f64::NAN);
            if text == " -99.99" {
                wanted.first_missing = month as u32 + 1;
            } else {
                wanted.hundredths[month] = (100.0 * number).round() as i32;
                wanted.present += 1 << month;
                wanted.count += 1;
            }
        }
        if *told != wanted {
            differ(call, &String::from_utf8_lossy(line), told, &wanted);
        }
        (self.read, self.read_values) = (self.read + 1, self.read_values + u64::from(told.count));
    }

    /// That enough of each sort came about, and values from end to end.
    pub fn assert_many(&self) {
        assert!(self.halves.iter().all(|count| *count > 10_000) && self.below_zero > 1_000);
        assert!(
            self.values > 1_000_000 && self.marks > 100_000 && self.read_values > 1_000_000 && self.round > 500
        );
        assert!((self.least, self.most) == (-99_999, 999_999));
    }

    pub fn print(&self) {
        let Lines { written, values, marks, halves: [above, below], below_zero, least, most, .. } = self;
        println!(
            "lines written {written}, of {values} values from {least} to {most} hundredths and {marks} marks; exact halves {above} and below 0 {below}, below 0 sent as 0 {below_zero}"
        );
        println!(
            "lines read {}, of {} values; runs written and read back {}",
            self.read, self.read_values, self.round
        );
    }
}
