//! Lists lent to a call, with places before and after them that nobody lent.

use crate::card::{Columns, Record, Run};
use crate::random::Random;
use std::fmt::Debug;
use std::ops::Range;

/// Above so many places, records and V are not compared as a whole after every single add.
const LONG: usize = 512;

/// How many places stand before and after each list, not lent.
pub const EDGE: usize = 4;

pub fn inner<T>(list: &mut [T]) -> &mut [T] {
    let end = list.len() - EDGE;
    &mut list[EDGE..end]
}

/// What a list holds before a call.
#[derive(Clone, Copy, Debug)]
pub enum Fill {
    AnyBits,
    /// Zeros and small numbers of both signs, mixed.
    Small,
    /// Zeros with a small number here and there, so that long stretches give no side.
    Sparse,
}

fn number(random: &mut Random, fill: Fill) -> i64 {
    match fill {
        Fill::AnyBits => random.bits() as i64,
        Fill::Small if random.one_in(2) => 0,
        Fill::Sparse if !random.one_in(400) => 0,
        Fill::Small | Fill::Sparse => random.within(-3, 3),
    }
}

pub fn numbers(random: &mut Random, length: usize, fill: Fill) -> Vec<i32> {
    (0..length + 2 * EDGE).map(|_| number(random, fill) as i32).collect()
}

pub fn marks(random: &mut Random, length: usize) -> Vec<u8> {
    (0..length + 2 * EDGE).map(|_| random.bits() as u8).collect()
}

fn records(random: &mut Random, length: usize, fill: Fill) -> Vec<Record> {
    (0..length + 2 * EDGE).map(|_| record([(); NUMBERS].map(|()| number(random, fill) as i32))).collect()
}

fn wide(random: &mut Random, length: usize, fill: Fill) -> Vec<i64> {
    (0..length + 2 * EDGE).map(|_| number(random, fill)).collect()
}

/// The numbers of a record.
pub const NUMBERS: usize = 14;

/// The record of these numbers, in their order.
pub fn record(numbers: [i32; NUMBERS]) -> Record {
    let [z, p, pe, et, r, l, ro, ss, su, surface, underlying, water, modified, kind] = numbers;
    Record { z, p, pe, et, r, l, ro, ss, su, surface, underlying, water, modified, kind }
}

/// The numbers of a record, in their order.
pub fn in_order(record: &Record) -> [i32; NUMBERS] {
    let Record { z, p, pe, et, r, l, ro, ss, su, surface, underlying, water, modified, kind } = *record;
    [z, p, pe, et, r, l, ro, ss, su, surface, underlying, water, modified, kind]
}

/// All numbers of these records in a row, as they lie in memory: to be compared at one go.
fn in_a_row(records: &[Record]) -> &[i32] {
    // A record is fourteen i32 and nothing between them.
    unsafe { std::slice::from_raw_parts(records.as_ptr().cast(), NUMBERS * records.len()) }
}

/// A list that is only read, with these numbers before and after it.
pub fn edged(list: &[i32], beside: i32) -> Vec<i32> {
    [&[beside; EDGE], list, &[beside; EDGE]].concat()
}

/// Whether such a list is as it was.
pub fn unchanged(edged: &[i32], list: &[i32], beside: i32) -> bool {
    let (before, rest) = edged.split_at(EDGE);
    let (held, after) = rest.split_at(list.len());
    before == [beside; EDGE] && held == list && after == [beside; EDGE]
}

/// Seven columns: X1, X2, X3 and index, mark, records, and V.
#[derive(Clone, Default)]
pub struct Seven {
    pub numbers: [Vec<i32>; 4],
    pub mark: Vec<u8>,
    pub records: Vec<Record>,
    pub v: Vec<i64>,
}

impl PartialEq for Seven {
    fn eq(&self, other: &Seven) -> bool {
        self.alike(other, 0..self.records.len().max(self.v.len()))
    }
}

impl Seven {
    pub fn lend(&mut self) -> Columns<'_> {
        let [x1, x2, x3, index] = &mut self.numbers;
        let [x1, x2, x3, index] = [inner(x1), inner(x2), inner(x3), inner(index)];
        let (mark, records, v) = (inner(&mut self.mark), inner(&mut self.records), inner(&mut self.v));
        Columns { x1, x2, x3, index, mark, records, v }
    }

    /// Whether two hold the same, of records and V within these places.
    fn alike(&self, other: &Seven, places: Range<usize>) -> bool {
        self.numbers == other.numbers
            && self.mark == other.mark
            && in_a_row(within(&self.records, &places)) == in_a_row(within(&other.records, &places))
            && within(&self.v, &places) == within(&other.v, &places)
    }

    /// The places in which they are not as they should be; `side` says whose they are.
    pub fn differences(&self, side: &str, expected: &Seven) -> Vec<String> {
        let mut found = Vec::new();
        let columns = self.numbers.iter().zip(&expected.numbers);
        for (name, (held, wanted)) in ["X1", "X2", "X3", "index"].iter().zip(columns) {
            differing(&format!("{side}, {name}"), held, wanted, &mut found);
        }
        differing(&format!("{side}, mark"), &self.mark, &expected.mark, &mut found);
        differing(&format!("{side}, record"), &self.records, &expected.records, &mut found);
        differing(&format!("{side}, V"), &self.v, &expected.v, &mut found);
        found
    }
}

fn within<'a, T>(list: &'a [T], places: &Range<usize>) -> &'a [T] {
    &list[places.start.min(list.len())..places.end.min(list.len())]
}

fn differing<T: Debug + PartialEq>(name: &str, held: &[T], expected: &[T], found: &mut Vec<String>) {
    for (place, (held, expected)) in held.iter().zip(expected).enumerate() {
        if held != expected {
            let place = place as i64 - EDGE as i64;
            found.push(format!("{name}[{place}]: {held:?}, expected {expected:?}"));
        }
    }
}

/// The same columns three times: lent to the library, lent to the reference, and as they should be. And once more
/// while a season is compared, for its months to be added singly.
pub struct Lists {
    pub library: Seven,
    pub reference: Seven,
    pub expected: Seven,
    pub singly: Seven,
    /// How often they were compared.
    compared: u32,
}

impl Lists {
    pub fn new(random: &mut Random, lengths: [usize; 7], fill: Fill) -> Lists {
        let [x1, x2, x3, index, mark, of_records, v] = lengths;
        let numbers = [x1, x2, x3, index].map(|length| numbers(random, length, fill));
        let mark = marks(random, mark);
        let seven = Seven { numbers, mark, records: records(random, of_records, fill), v: wide(random, v, fill) };
        Lists::of(seven)
    }

    /// These columns, once for each side.
    pub fn of(seven: Seven) -> Lists {
        let (library, reference, singly) = (seven.clone(), seven.clone(), Seven::default());
        Lists { library, reference, expected: seven, singly, compared: 0 }
    }

    pub fn lengths(&mut self) -> [usize; 7] {
        let k = self.expected.lend();
        [k.x1.len(), k.x2.len(), k.x3.len(), k.index.len(), k.mark.len(), k.records.len(), k.v.len()]
    }

    /// Changes the record at a place, where there is one, on all sides alike.
    pub fn change(&mut self, place: usize, change: impl Fn(&mut Record)) {
        for seven in [&mut self.library, &mut self.reference, &mut self.expected] {
            if let Some(record) = seven.lend().records.get_mut(place) {
                change(record);
            }
        }
    }

    /// Changes the columns on all sides alike.
    pub fn alter(&mut self, change: impl Fn(&mut Columns)) {
        for seven in [&mut self.library, &mut self.reference, &mut self.expected] {
            change(&mut seven.lend());
        }
    }

    /// Has the last record end where a run stands that these columns did not lead to: "the last row's end storages equal
    /// the run's". Of a run of no months there is none.
    pub fn meet(&mut self, run: &Run) {
        let (surface, underlying) = (run.soil.surface as i32, run.soil.underlying as i32);
        self.change((run.months as usize).wrapping_sub(1), |last| {
            (last.surface, last.underlying) = (surface, underlying);
        });
    }

    /// Columns of another length and of other content, with so many months of the library's copied to their beginning.
    pub fn copied(&mut self, random: &mut Random, length: usize, months: usize) -> Lists {
        let mut copy = Lists::new(random, [length; 7], Fill::AnyBits);
        let from = self.library.lend();
        for seven in [&mut copy.library, &mut copy.reference, &mut copy.expected] {
            let to = seven.lend();
            to.x1[..months].copy_from_slice(&from.x1[..months]);
            to.x2[..months].copy_from_slice(&from.x2[..months]);
            to.x3[..months].copy_from_slice(&from.x3[..months]);
            to.index[..months].copy_from_slice(&from.index[..months]);
            to.mark[..months].copy_from_slice(&from.mark[..months]);
            to.records[..months].copy_from_slice(&from.records[..months]);
            to.v[..months].copy_from_slice(&from.v[..months]);
        }
        copy
    }

    /// Takes over from the reference what adds of so many months may write: "the new month's place in the five
    /// columns, and index and mark of the open months it settles, and nothing else"; of records and V the new month's
    /// place.
    pub fn expect_months(&mut self, run: &Run, added: u32, settled: u32) {
        let month = run.months as usize;
        let first = if settled > 0 { month - run.opens as usize } else { month };
        self.expect_from(first, month, month + added as usize);
    }

    /// Takes over from the reference index and mark of the months from `first` to `end`, and of those from `month` on all
    /// else.
    pub fn expect_from(&mut self, first: usize, month: usize, end: usize) {
        let (from, to) = (self.reference.lend(), self.expected.lend());
        to.x1[month..end].copy_from_slice(&from.x1[month..end]);
        to.x2[month..end].copy_from_slice(&from.x2[month..end]);
        to.x3[month..end].copy_from_slice(&from.x3[month..end]);
        to.index[first..end].copy_from_slice(&from.index[first..end]);
        to.mark[first..end].copy_from_slice(&from.mark[first..end]);
        to.records[month..end].copy_from_slice(&from.records[month..end]);
        to.v[month..end].copy_from_slice(&from.v[month..end]);
    }

    /// Whether all is as it should be.
    pub fn agree(&self) -> bool {
        self.library == self.expected && self.reference == self.expected
    }

    /// The same after a single add to a run. Of columns that are longer than `LONG` the records and V are compared about
    /// the month that it would add, and as a whole every sixteenth time: nothing but a month's add writes there, so what is
    /// written amiss stays.
    pub fn agree_after(&mut self, run: &Run) -> bool {
        self.compared += 1;
        if self.expected.records.len() <= LONG || self.compared % 16 == 0 {
            return self.agree();
        }
        let month = run.months as usize + EDGE;
        let places = month.saturating_sub(LONG / 8)..month + LONG / 8;
        self.library.alike(&self.expected, places.clone()) && self.reference.alike(&self.expected, places)
    }

    /// The columns that a season's months are added to singly, as they were before it.
    pub fn lend_singly(&mut self) -> Columns<'_> {
        self.singly.numbers.clone_from(&self.expected.numbers);
        self.singly.mark.clone_from(&self.expected.mark);
        self.singly.records.clone_from(&self.expected.records);
        self.singly.v.clone_from(&self.expected.v);
        self.singly.lend()
    }

    /// X1, X2 and X3 of the run's open months, which an add settles from and does not write.
    pub fn open_months(&mut self, run: &Run) -> Vec<[i32; 3]> {
        let k = self.expected.lend();
        let months = run.months.saturating_sub(run.opens) as usize..run.months as usize;
        let values = k.x1.iter().zip(&*k.x2).zip(&*k.x3).map(|((x1, x2), x3)| [*x1, *x2, *x3]);
        values.enumerate().filter(|(month, _)| months.contains(month)).map(|(_, values)| values).collect()
    }

    /// The places in which the library's and the reference's are not as they should be.
    pub fn differences(&self) -> Vec<String> {
        let library = self.library.differences("library", &self.expected);
        [library, self.reference.differences("reference", &self.expected)].concat()
    }
}
