//! Series of Z from a fresh run beside the same with every sign changed: X1 and X2 change places, every sign of a month
//! turns about, and its percent, mark and settled count stay. A provisional index stays exactly where X1 and X2 tie under
//! no X3, and a modified one does so for good. And what a spell that ends leaves of X2, or of X1.

use crate::add::Add;
use crate::add_z::{pick_z, STYLES};
use crate::card::{Added, Columns, Record, Run, Values};
use crate::check::Check;
use crate::lists::{Fill, Lists};
use crate::reference::{self, MOST_Z};
use crate::runs::{good_constants, good_soil, NO_RUN};

/// What the turned series came to.
#[derive(Default)]
pub struct Turned {
    pub months: u64,
    /// Months that were open under a tie, once at least.
    pub tied: u64,
    /// Droughts and wet spells that ended, and how far from 0 their own side was then, at most.
    pub ended: u64,
    pub furthest: i32,
}

/// A run with its columns.
struct Side {
    run: Run,
    lists: Lists,
}

/// What the columns hold of a month: X1, X2, X3, index, mark, record, V.
type Held = ([i32; 3], i32, u8, Record, i64);

fn held(k: &Columns, i: usize) -> Held {
    ([k.x1[i], k.x2[i], k.x3[i]], k.index[i], k.mark[i], k.records[i], k.v[i])
}

fn mirror(values: &Values) -> Values {
    Values { x1: -values.x2, x2: -values.x1, x3: -values.x3, v: -values.v }
}

/// With no X3, and X1 and X2 of one size and not 0.
fn tied(([x1, x2, x3], ..): &Held) -> bool {
    *x3 == 0 && *x1 == -x2 && *x1 != 0
}

/// Open, and tied.
fn excepted(month: &Held) -> bool {
    month.2 == 1 && tied(month)
}

fn holds_turned(plain: &Held, turned: &Held) {
    let ([x1, x2, x3], index, mark, record, v) = *plain;
    let shown = if excepted(plain) { x2 } else { -index };
    let modified = if tied(plain) { x2 } else { -record.modified };
    let month = Record { z: -record.z, modified, ..record };
    assert_eq!(*turned, ([-x2, -x1, -x3], shown, mark, month, -v));
    assert!(!excepted(plain) || index == x2);
    assert!(!tied(plain) || record.modified == x2);
}

/// Both series, month by month; then every month as it stands, and the whole series.
fn beside(c: &mut Check, zs: &[i32]) -> Vec<Added> {
    let (constants, soil) = (good_constants(&mut c.random), good_soil(&mut c.random));
    let run = c.start(&constants, soil).run;
    let mut sides = [0; 2].map(|_| Side { run, lists: Lists::new(&mut c.random, [zs.len(); 7], Fill::AnyBits) });
    let mut added = Vec::new();
    for (i, &z) in zs.iter().enumerate() {
        let [a, b] = [0, 1].map(|side| {
            let Side { run, lists } = &mut sides[side];
            c.add(Add::Z(if side == 0 { z } else { -z }), run, lists)
        });
        assert_eq!((a.settled, a.figures.percent), (b.settled, b.figures.percent));
        assert_eq!(b.run, Run { values: mirror(&a.run.values), ..a.run });
        ends(c, &sides[0].run.values, z, &a);
        let [plain, turned] = &mut sides;
        (plain.run, turned.run) = (a.run, b.run);
        let month = held(&plain.lists.library.lend(), i);
        holds_turned(&month, &held(&turned.lists.library.lend(), i));
        c.turned.tied += u64::from(excepted(&month));
        added.push(a);
    }
    let [plain, turned] = &mut sides;
    let (k, l) = (plain.lists.library.lend(), turned.lists.library.lend());
    (0..zs.len()).for_each(|i| holds_turned(&held(&k, i), &held(&l, i)));
    let about: Vec<i32> = zs.iter().map(|z| -z).collect();
    c.whole_against(zs, &mut plain.lists);
    c.whole_against(&about, &mut turned.lists);
    c.turned.months += zs.len() as u64;
    added
}

/// A spell that ends founds no other of its kind: its own side is within 550.
fn ends(c: &mut Check, before: &Values, z: i32, added: &Added) {
    if added.figures.percent == 100 {
        let sign = if before.x3 < 0 { 1 } else { -1 };
        let own = sign * if sign > 0 { before.x2 } else { before.x1 };
        let far = -reference::next(own, sign * z).min(0);
        assert!(far <= 550 && sign * added.figures.x3 >= 0);
        c.turned.ended += 1;
        c.turned.furthest = c.turned.furthest.max(far);
    }
}

/// The Z that brings X1 and X2 to one size, or near it.
fn tying(values: &Values) -> i32 {
    let [x1, x2, most] = [values.x1, values.x2, MOST_Z].map(i64::from);
    (-2691 * (x1 + x2)).div_euclid(2000).clamp(-most, most) as i32
}

pub fn turned_series(c: &mut Check, times: u64) {
    c.kind("turned series");
    for _ in 0..2_000 * times {
        let length = c.random.within(1, 120) as usize;
        let change = c.random.pick(&[3, 12, 60]);
        let mut style = c.random.pick(&STYLES);
        let (mut values, mut zs) = (NO_RUN.values, Vec::with_capacity(length));
        for _ in 0..length {
            if c.random.one_in(change) {
                style = c.random.pick(&STYLES);
            }
            let z = if c.random.one_in(4) { tying(&values) } else { pick_z(&mut c.random, style, &values) };
            values = reference::spell_month(&values, z).values;
            zs.push(z);
        }
        beside(c, &zs);
    }
    worked(c);
}

/// The series of docs/MIRROR.md.
fn worked(c: &mut Check) {
    c.kind("turned series, worked");
    // X2 is drawn to X3, and at the end of the drought it is -550.
    let reaching = [&[-6_000, 3_700][..], &[-180; 43], &[-94]].concat();
    let last = beside(c, &reaching)[45];
    assert_eq!((last.figures.percent, last.figures.x2, last.figures.x3), (100, -550, 0));
    // X3 creeps to -499 in steady months, and the next drought is founded at -1,000.
    let lapsing = [&[-3_000][..], &[-150; 33], &[-3_001]].concat();
    let months = beside(c, &lapsing);
    let last = [32, 33, 34].map(|i| (months[i].figures.percent, months[i].figures.x3));
    assert_eq!(last, [(0, -501), (0, -499), (0, -1_000)]);
    // A tie that is settled either way.
    for z in [-3_000, 2_000] {
        beside(c, &[1_500, -673, z]);
    }
}
