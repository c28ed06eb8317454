//! Rows that show the water: over months of all sorts from a fresh run, each record is what the month's answer and the runs
//! before and after it say, the storages at its start are those at the end of the month before, precipitation is ET, RO and
//! what the soil gained, V is the run's, the modified index is as the request has it, the kind of its precipitation goes
//! with P, a row shows all of it, and no later call changes any of it.

use crate::add::{odd_add, pick_add, Add, Way};
use crate::add_z::STYLES;
use crate::card::{Figures, Record, Run, Soil};
use crate::check::{differ, Call, Check};
use crate::lists::{Fill, Lists};
use crate::modified::modified;
use crate::random::Random;
use crate::reference;
use crate::runs::{good_constants, good_soil};
use crate::season::{good_months, Months};

/// What the records came to.
#[derive(Default)]
pub struct Kept {
    pub water: u64,
    /// Months of water that took from the soil, that added to it, and that ran off in part.
    pub dried: u64,
    pub filled: u64,
    pub ran_off: u64,
    pub z: u64,
    /// Months of water whose precipitation was a trace.
    pub traces: u64,
    /// Months that left a V other than 0.
    pub v: u64,
}

/// A run, its columns, and record and V of each of its months as they were first seen.
struct Book {
    run: Run,
    lists: Lists,
    kept: Vec<(Record, i64)>,
}

fn storages(soil: &Soil) -> (i32, i32) {
    (soil.surface as i32, soil.underlying as i32)
}

/// The record of a month by its answer: these figures, from the one run to the other.
fn told(figures: &Figures, before: &Run, after: &Run, water: bool) -> Record {
    let w = &figures.water;
    let [p, pe, et, r, l, ro] = [w.p, w.pe, w.et, w.r, w.ls + w.lu, w.ro].map(|amount| amount as i32);
    let (ss, su) = storages(&before.soil);
    let (surface, underlying) = storages(&after.soil);
    let (z, water, modified, kind) = (figures.z, i32::from(water), figures.modified, i32::from(w.kinds.p));
    Record { z, p, pe, et, r, l, ro, ss, su, surface, underlying, water, modified, kind }
}

/// Whether a record is one by itself: of a month of water the balance, of a Z no water, no storage or amount below 0, and
/// precipitation measured exactly where there is some.
fn balances(record: &Record) -> bool {
    let Record { z: _, p, pe, et, r, l, ro, ss, su, surface, underlying, water, modified: _, kind } = *record;
    let gain = surface + underlying - ss - su;
    let amounts = [p, pe, et, r, l, ro, ss, su, surface, underlying];
    let dry = amounts[..6] == [0; 6] && (ss, su) == (surface, underlying) && kind == 0;
    amounts.iter().all(|amount| *amount >= 0)
        && p == et + ro + gain
        && gain == r - l
        && et <= pe
        && (r == 0 || l == 0)
        && (p > 0 && kind == 2 || p == 0 && (0..2).contains(&kind))
        && (water == 1 || water == 0 && dry)
}

impl Book {
    /// Of a call that was made on the run and left another: what its months' places hold, how that follows from the month
    /// before, and that no place of an earlier month was written. `last` is the last month's record where it is known.
    fn follow(&mut self, c: &mut Check, call: Call, after: &Run, last: Option<Record>) {
        let months = after.months as usize;
        let k = self.lists.library.lend();
        let held: Vec<(Record, i64)> =
            k.records[..months].iter().copied().zip(k.v[..months].iter().copied()).collect();
        let mut values = self.run.values;
        let mut stands = storages(&self.run.soil);
        let mut right =
            held[..self.kept.len()] == self.kept[..] && last.is_none_or(|last| held[months - 1].0 == last);
        for (record, v) in &held[self.kept.len()..] {
            let last = values;
            values = reference::spell_month(&last, record.z).values;
            right &= balances(record) && (record.ss, record.su) == stands && *v == values.v;
            right &= record.modified == modified(&last, record.z, &values);
            stands = (record.surface, record.underlying);
            count(&mut c.kept, record, *v);
        }
        if !right || stands != storages(&after.soil) || values != after.values {
            differ(call, &(self.run, "the records of its months"), &held, &(last, &self.kept, after));
        }
        (self.kept, self.run) = (held, *after);
    }

    fn add(&mut self, c: &mut Check, what: Add) {
        let added = c.add(what, &self.run, &mut self.lists);
        let last = told(&added.figures, &self.run, &added.run, !matches!(what, Add::Z(_)));
        self.follow(c, what.call(), &added.run, (added.number == 0).then_some(last));
    }

    /// Of a season of one month, that month's record is known.
    fn season(&mut self, c: &mut Check, months: &Months) {
        let season = c.season(months, &self.run, &mut self.lists);
        let last = told(&season.figures, &self.run, &season.run, true);
        self.follow(c, Call::AddSeason, &season.run, (season.added == 1).then_some(last));
    }

    fn rows(&mut self, c: &mut Check) {
        for (row, kept) in self.kept.iter().enumerate() {
            let shown = c.row(&self.run, row, &mut self.lists);
            if (shown.month, shown.v) != *kept {
                differ(Call::Row, &(row, self.run), &shown, kept);
            }
        }
        c.untouched(&self.run, &mut self.lists);
    }
}

fn count(kept: &mut Kept, record: &Record, v: i64) {
    kept.water += u64::from(record.water == 1);
    kept.dried += u64::from(record.l > 0);
    kept.filled += u64::from(record.r > 0);
    kept.ran_off += u64::from(record.ro > 0);
    kept.z += u64::from(record.water == 0);
    kept.traces += u64::from(record.kind == 1);
    kept.v += u64::from(v != 0);
}

/// A season that stops in the middle now and then.
fn season(random: &mut Random, run: &Run) -> Months {
    let length = random.pick(&[0, 1, 1, 2, 6, 12]);
    let mut months = good_months(random, run, length);
    if random.one_in(4) {
        let place = random.below(length.max(1) as u64) as usize;
        months.pe.iter_mut().skip(place).take(1).for_each(|pe| *pe = -1);
    }
    months
}

pub fn records(c: &mut Check, times: u64) {
    c.kind("records of months");
    for number in 0..4_000 * times {
        let most = c.random.pick(&[1, 6, 30, 30, 60]);
        let length = c.random.within(1, most) as usize;
        one_run(c, length, [Way::Mixed, Way::Water, Way::Mixed, Way::Z][number as usize % 4]);
    }
    one_run(c, 1_000, Way::Mixed);
}

/// A run until its columns are full, with calls that are refused between, and a call of each kind after.
fn one_run(c: &mut Check, length: usize, way: Way) {
    let (constants, soil) = (good_constants(&mut c.random), good_soil(&mut c.random));
    let run = c.start(&constants, soil).run;
    let lists = Lists::new(&mut c.random, [length; 7], Fill::AnyBits);
    let mut book = Book { run, lists, kept: Vec::new() };
    while book.kept.len() < length {
        step(c, &mut book, way);
    }
    book.rows(c);
    for _ in 0..3 {
        step(c, &mut book, way);
    }
}

fn step(c: &mut Check, book: &mut Book, way: Way) {
    match c.random.below(12) {
        0 => {
            let what = odd_add(&mut c.random);
            book.add(c, what);
        }
        1..=3 if !matches!(way, Way::Z) => {
            let months = season(&mut c.random, &book.run);
            book.season(c, &months);
        }
        _ => {
            let style = c.random.pick(&STYLES);
            let what = pick_add(&mut c.random, way, style, &book.run.values);
            book.add(c, what);
        }
    }
}
