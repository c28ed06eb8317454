//! Repairs of runs from their start on, each held to a fresh run over the corrected months: of the first month, the last and any,
//! several in a row, with adds and seasons between, over months of Z, and among months that were left open for long.

use crate::add::{pick_add, Add, Way};
use crate::add_water::pick_reading;
use crate::add_z::{Style, STYLES};
use crate::card::{Columns, Reading, Record, Run};
use crate::check::{differ, Call, Check};
use crate::lists::{Fill, Lists, Seven, EDGE};
use crate::random::Random;
use crate::reference::MOST_MONTHS;
use crate::repair::Repair;
use crate::runs::{good_constants, good_soil};
use crate::season::{good_months, plain_month, PLAIN};
use crate::trace::no_water;

/// A run from its start on, its columns, and what each of its months was added or repaired with.
pub struct Log {
    start: Run,
    pub run: Run,
    pub lists: Lists,
    months: Vec<Add>,
    way: Way,
    style: Style,
}

/// Whether two columns hold the same of so many months.
fn same_months(k: &Columns, l: &Columns, months: usize) -> bool {
    let numbers = [(&k.x1, &l.x1), (&k.x2, &l.x2), (&k.x3, &l.x3), (&k.index, &l.index)];
    numbers.iter().all(|(held, other)| held[..months] == other[..months])
        && k.mark[..months] == l.mark[..months]
        && k.records[..months] == l.records[..months]
        && k.v[..months] == l.v[..months]
}

impl Log {
    /// A fresh run; of half of them every month's Z is P - PE.
    pub fn new(c: &mut Check, length: usize, way: Way) -> Log {
        let (any, soil) = (good_constants(&mut c.random), good_soil(&mut c.random));
        let constants = if c.random.one_in(2) { PLAIN.to_vec() } else { any };
        let start = c.start(&constants, soil).run;
        let lists = Lists::new(&mut c.random, [length; 7], Fill::AnyBits);
        let style = c.random.pick(&STYLES);
        Log { start, run: start, lists, months: Vec::new(), way, style }
    }

    fn room(&mut self) -> usize {
        self.lists.lengths()[0] - self.months.len()
    }

    /// A month, chosen for its Z where that is P - PE.
    fn pick(&self, random: &mut Random) -> Add {
        let z = match self.way {
            Way::Z => !random.one_in(5),
            Way::Water => false,
            Way::Mixed => random.one_in(3),
        };
        if self.run.constants != PLAIN {
            return pick_add(random, if z { Way::Z } else { Way::Water }, self.style, &self.run.values);
        }
        let (p, pe) = plain_month(random, self.style, &self.run.values);
        match z {
            true => Add::Z(p - pe),
            false if p == 0 && random.one_in(2) => Add::Water(no_water(random), Reading::whole(pe)),
            false => Add::Water(Reading::whole(p), Reading::whole(pe)),
        }
    }

    pub fn add(&mut self, c: &mut Check, what: Add) {
        let added = c.add(what, &self.run, &mut self.lists);
        if added.number == 0 {
            self.months.push(what);
        }
        self.run = added.run;
    }

    fn season(&mut self, c: &mut Check, length: usize) {
        let months = good_months(&mut c.random, &self.run, length);
        let season = c.season(&months, &self.run, &mut self.lists);
        let added = months.p.iter().zip(&months.pe).take(season.added as usize);
        self.months.extend(added.map(|(p, pe)| Add::Water(Reading::whole(*p), Reading::whole(*pe))));
        self.run = season.run;
    }

    /// Months until there are so many.
    pub fn fill(&mut self, c: &mut Check, until: usize) {
        let change = c.random.pick(&[3, 12, 60]);
        while self.months.len() < until {
            if c.random.one_in(change) {
                self.style = c.random.pick(&STYLES);
            }
            if c.random.one_in(8) && !matches!(self.way, Way::Z) {
                let most = (until - self.months.len()) as u64;
                let length = 1 + c.random.below(most.min(12)) as usize;
                self.season(c, length);
            } else {
                let what = self.pick(&mut c.random);
                self.add(c, what);
            }
        }
    }

    fn recorded(&mut self, row: usize) -> Record {
        self.lists.expected.lend().records[row]
    }

    /// New readings for a month: any, near the recorded ones, one of them or both as recorded, no water.
    pub fn readings(&mut self, random: &mut Random, row: usize) -> Repair {
        let Record { p, pe, .. } = self.recorded(row);
        let (kept_p, kept_pe) = (Reading::whole(p), Reading::whole(pe));
        let any = random.pick(&[300, 4_000, 9_000, 100_000]);
        let (any_p, any_pe) = (pick_reading(random, any), pick_reading(random, any));
        let mut near = |x: i32| Reading::whole((x + random.within(-40, 40) as i32).clamp(0, 100_000));
        let (near_p, near_pe) = (near(p), near(pe));
        let none = no_water(random);
        let (p, pe) = random.pick(&[
            (any_p, any_pe),
            (any_p, kept_pe),
            (kept_p, any_pe),
            (near_p, kept_pe),
            (near_p, kept_pe),
            (near_p, near_pe),
            (kept_p, near_pe),
            (none, kept_pe),
            (kept_p, none),
            (kept_p, kept_pe),
        ]);
        Repair { row, p, pe }
    }

    /// A repair, with whether it was done. The months are then those with the new readings.
    pub fn repair(&mut self, c: &mut Check, what: &Repair) -> bool {
        let before = self.lists.library.clone();
        let repaired = c.repair(what, &self.run, &mut self.lists);
        if repaired.number != 0 {
            return false;
        }
        self.months[what.row] = Add::Water(what.p, what.pe);
        self.run = repaired.run;
        self.keeps_kinds(&before, what.row);
        true
    }

    /// Each later month of water has the precipitation, of the kind, that it had, and its PE.
    fn keeps_kinds(&mut self, before: &Seven, row: usize) {
        let held = self.lists.library.records[EDGE..].iter().zip(&before.records[EDGE..]);
        for (now, was) in held.take(self.months.len()).skip(row + 1) {
            if (now.water, now.p, now.pe, now.kind) != (was.water, was.p, was.pe, was.kind) {
                differ(Call::Repair, &(row, self.run, "the readings of a later month"), now, was);
            }
        }
    }

    /// Holds run and columns to those of the library's adds of these months to a fresh run.
    pub fn hold(&mut self, c: &mut Check) {
        let [length, ..] = self.lists.lengths();
        let mut seven = Lists::new(&mut c.random, [length; 7], Fill::Small).library;
        let mut run = self.start;
        for what in &self.months {
            run = what.library(&run, &mut seven.lend()).run;
        }
        let months = self.months.len();
        if run != self.run || !same_months(&self.lists.library.lend(), &seven.lend(), months) {
            let differences = self.lists.library.differences("repaired", &seven);
            let inputs = (self.start, &self.months, "beside a fresh run");
            differ(Call::Repair, &inputs, &(self.run, differences), &run);
        }
        c.repairs.fresh += 1;
    }
}

// ---- What is tried -----------------------------------------------------------------------------------------

pub fn repairs(c: &mut Check, times: u64) {
    mixed(c, times);
    each_row(c, times);
    left_open(c, times);
    long(c, times);
    c.repairs.assert_many();
}

const WAYS: [Way; 4] = [Way::Mixed, Way::Water, Way::Mixed, Way::Z];

/// Adds, seasons and repairs on one run, in any order, until it is full and some more.
fn mixed(c: &mut Check, times: u64) {
    c.kind("repairs, adds and seasons, mixed");
    for number in 0..3_000 * times {
        let most = c.random.pick(&[2, 12, 30, 30, 90]);
        let length = c.random.within(1, most) as usize;
        let mut log = Log::new(c, length, WAYS[number as usize % 4]);
        for _ in 0..length + 6 {
            one_step(c, &mut log);
        }
        log.hold(c);
    }
}

/// Two in five are repairs, of the first month, the last or any; some of these months have no water.
fn one_step(c: &mut Check, log: &mut Log) {
    let (months, room) = (log.months.len(), log.room());
    if months > 0 && (room == 0 || c.random.below(5) < 2) {
        let any = c.random.below(months as u64) as usize;
        let row = c.random.pick(&[0, months - 1, any, any, any]);
        let what = log.readings(&mut c.random, row);
        if log.repair(c, &what) {
            log.hold(c);
            if c.random.one_in(4) {
                c.repair_again(&what, &log.run, &mut log.lists);
            }
        }
    } else {
        let until = months + 1 + c.random.below(room.clamp(1, 6) as u64) as usize;
        log.fill(c, until.min(months + room));
    }
}

/// Every row of a run, one after another: forward, and back.
fn each_row(c: &mut Check, times: u64) {
    c.kind("repairs of each row");
    for number in 0..160 * times {
        let length = c.random.within(1, 30) as usize;
        let mut log = Log::new(c, length + 2, WAYS[number as usize % 4]);
        log.fill(c, length);
        for place in 0..2 * length {
            let row = if place < length { place } else { 2 * length - 1 - place };
            let what = log.readings(&mut c.random, row);
            if log.repair(c, &what) {
                log.hold(c);
            }
        }
    }
}

/// A run whose months stay open, from those on that it begins with, until the last one: each month's Z is P - PE.
fn open_log(c: &mut Check, length: usize, begin: &[i32], last: i32) -> Log {
    let mut log = Log::new(c, length, Way::Water);
    let soil = good_soil(&mut c.random);
    log.start = c.start(&PLAIN, soil).run;
    log.run = log.start;
    for z in begin.iter().copied().chain(std::iter::repeat(0)).take(length - 1).chain([last]) {
        log.add(c, Add::Water(Reading::whole(z.max(0)), Reading::whole((-z).max(0))));
    }
    log
}

/// Months that stay open until one decides for all of them, by X1 or X2, or by X3 while a spell abates; and every row of them
/// repaired, from the last on, most of which opens the months before it once more.
fn left_open(c: &mut Check, times: u64) {
    c.kind("repairs within months left open");
    let begins: [&[i32]; 5] = [&[12, -3], &[-3, 12], &[-9_000, 160, 160], &[9_000, -160, -160], &[40, -700, 30]];
    for number in 0..120 * times {
        let length = c.random.within(4, 24) as usize;
        let last = c.random.pick(&[3_000, -3_000, 60, -60, 0]);
        let mut log = open_log(c, length, begins[number as usize % 5], last);
        for row in (0..length).rev() {
            let what = log.readings(&mut c.random, row);
            log.repair(c, &what);
            log.hold(c);
        }
    }
    for length in [2_400, MOST_MONTHS] {
        let mut log = open_log(c, length, begins[0], 3_000);
        for (row, p) in [(length - 1, 2_000), (length - 2, 1), (length / 2, 1), (2, 1), (length / 2, 2_000)] {
            log.repair(c, &Repair { row, p: Reading::whole(p), pe: Reading::whole(0) });
            log.hold(c);
        }
    }
}

/// Long runs: repairs of the first month, the last and any, each held to a fresh run.
fn long(c: &mut Check, times: u64) {
    c.kind("repairs of long runs");
    let lengths = [400, 700, 2_399, 2_400, 2_401, MOST_MONTHS - 1, MOST_MONTHS, MOST_MONTHS];
    for number in 0..16 * times {
        let length = lengths[number as usize % 8];
        let mut log = Log::new(c, length, WAYS[number as usize / 4 % 4]);
        while log.room() > 0 {
            let until = log.months.len() + log.room().min(40);
            match c.random.below(4) {
                0 => log.fill(c, until),
                _ => log.season(c, until - log.months.len()),
            }
        }
        for row in [0, length - 1, c.random.below(length as u64) as usize, length / 2] {
            let what = log.readings(&mut c.random, row);
            log.repair(c, &what);
            log.hold(c);
        }
    }
}
