//! card_repair: how it is compared, place by place, with its report.

use crate::add::Add;
use crate::card::{self, Change, Columns, Reading, Repaired, Run};
use crate::check::{differ, Call, Check};
use crate::lists::{inner, Lists, EDGE};
use crate::random::Random;
use crate::reference;

/// The month that is repaired and its new readings.
#[derive(Clone, Copy, Debug)]
pub struct Repair {
    pub row: usize,
    pub p: Reading,
    pub pe: Reading,
}

/// What the repairs came to.
#[derive(Default)]
pub struct Repairs {
    done: u64,
    /// Months that were worked once more, those of them without water, and those with a trace.
    months: u64,
    z: u64,
    traces: u64,
    /// Repairs by which settled months before the repaired one were open again, these months, and the most by one repair.
    reopening: u64,
    reopened: u64,
    most_reopened: u64,
    /// Months reported, the most by one repair, and repairs that reported none.
    reported: u64,
    most_reported: u32,
    silent: u64,
    /// Those that were held to a fresh run.
    pub fresh: u64,
}

impl Repairs {
    /// Counts a repair of the columns as they were before it.
    fn count(&mut self, k: &Columns, first: usize, row: usize, run: &Run, changed: u32) {
        let again = &k.records[row..run.months as usize];
        let settled = k.mark[first..row].iter().filter(|mark| **mark == card::SETTLED).count() as u64;
        let without = again.iter().filter(|record| record.water == 0).count() as u64;
        self.done += 1;
        self.months += again.len() as u64;
        self.z += without;
        self.traces += again[1..].iter().filter(|record| record.water == 1 && record.kind == 1).count() as u64;
        self.reopening += u64::from(settled > 0);
        self.reopened += settled;
        self.most_reopened = self.most_reopened.max(settled);
        self.reported += u64::from(changed);
        self.most_reported = self.most_reported.max(changed);
        self.silent += u64::from(changed == 0);
    }

    /// That enough of each sort came about.
    pub fn assert_many(&self) {
        let Repairs { reopening, most_reopened, z, traces, silent, fresh, .. } = *self;
        assert!(reopening > 5_000 && most_reopened > 2_400 && z > 5_000);
        assert!(traces > 1_000 && silent > 1_000 && fresh > 10_000);
    }

    pub fn print(&self) {
        println!(
            "repairs of {} months again, without water {}, after it with a trace {}; {} repairs reopened {} settled months, at most {}",
            self.months, self.z, self.traces, self.reopening, self.reopened, self.most_reopened
        );
        println!(
            "repairs reported {} months, at most {}, and none {} times of {}; held to a fresh run {}",
            self.reported, self.most_reported, self.silent, self.done, self.fresh
        );
    }
}

// ---- The comparison ----------------------------------------------------------------------------------------

/// A report of any content.
fn stale(random: &mut Random, length: usize) -> Vec<Change> {
    let mut number = || random.bits() as i32;
    let change = |_| Change {
        row: number(),
        index_before: number(),
        index_after: number(),
        mark_before: number(),
        mark_after: number(),
    };
    (0..length + 2 * EDGE).map(change).collect()
}

/// A repair by the reference, in the form of the library's answer.
fn by_reference(what: &Repair, run: &Run, k: &mut Columns, report: &mut [Change]) -> Repaired {
    let mut run = *run;
    match reference::repairing::repair(&mut run, what.row, &what.p, &what.pe, k, report) {
        Ok(changed) => Repaired { number: 0, changed, run },
        Err(refusal) => Repaired { number: refusal as u8, changed: 0, run },
    }
}

/// The first of the months that were open before this one: those after the last that decided.
fn first_open(k: &Columns, row: usize) -> usize {
    let open = |month: usize| k.v[month] != 0 || k.x1[month] != 0 && k.x2[month] != 0;
    (0..row).rev().find(|month| !open(*month)).map_or(0, |month| month + 1)
}

/// The report of columns that were so and are so now, in place of what stood there.
fn put_changes(was: &Columns, now: &Columns, months: usize, report: &mut [Change]) -> u32 {
    report.fill(Change::default());
    let mut places = report.iter_mut();
    let mut count = 0;
    for row in 0..months {
        let [index_before, index_after] = [was.index[row], now.index[row]];
        let [mark_before, mark_after] = [was.mark[row], now.mark[row]].map(i32::from);
        if index_before != index_after || mark_before != mark_after {
            let change = Change { row: row as i32, index_before, index_after, mark_before, mark_after };
            places.next().into_iter().for_each(|place| *place = change);
            count += 1;
        }
    }
    count
}

impl Check {
    /// A repair with a report as long as the column of X1.
    pub fn repair(&mut self, what: &Repair, run: &Run, lists: &mut Lists) -> Repaired {
        let [length, ..] = lists.lengths();
        self.repair_in(what, run, lists, length)
    }

    /// A repair with a report of this length.
    pub fn repair_in(&mut self, what: &Repair, run: &Run, lists: &mut Lists, length: usize) -> Repaired {
        let mut expected = stale(&mut self.random, length);
        let (mut ours, mut theirs) = (expected.clone(), expected.clone());
        let library = card::repair(*run, what.row, what.p, what.pe, &mut lists.library.lend(), inner(&mut ours));
        let reference = by_reference(what, run, &mut lists.reference.lend(), inner(&mut theirs));
        let mut changed = 0;
        if library == reference && reference.number == 0 {
            let (was, now) = (lists.expected.lend(), lists.reference.lend());
            changed = put_changes(&was, &now, run.months as usize, inner(&mut expected));
            let first = first_open(&was, what.row);
            self.repairs.count(&was, first, what.row, run, changed);
            lists.expect_from(first, what.row, run.months as usize);
        }
        let refused_changed = reference.number != 0 && reference.run != *run;
        let told = ours == expected && theirs == expected && reference.changed == changed;
        if library != reference || refused_changed || !told || !lists.agree() {
            let measures = Add::Water(what.p, what.pe).measures();
            let inputs = (what, measures, run, lists.lengths(), length);
            let differing = different(&ours, &theirs, &expected);
            differ(Call::Repair, &inputs, &(library, lists.differences(), differing), &reference);
        }
        self.count(Call::Repair, reference.number);
        reference
    }

    /// The same repair once more, which changes nothing and reports nothing.
    pub fn repair_again(&mut self, what: &Repair, run: &Run, lists: &mut Lists) {
        let held = lists.library.clone();
        let again = self.repair(what, run, lists);
        if again != (Repaired { number: 0, changed: 0, run: *run }) || lists.library != held {
            differ(Call::Repair, &(what, run, "once more"), &again, &"nothing changed");
        }
    }
}

/// The places in which the library's and the reference's report are not as they should be.
fn different(ours: &[Change], theirs: &[Change], expected: &[Change]) -> Vec<String> {
    let mut found = Vec::new();
    for (side, held) in [("library", ours), ("reference", theirs)] {
        let places = (-(EDGE as i64)..).zip(held.iter().zip(expected));
        for (place, (held, wanted)) in places.filter(|(_, (held, wanted))| held != wanted) {
            found.push(format!("{side}, report[{place}]: {held:?}, expected {wanted:?}"));
        }
    }
    found
}
