//! Series of months, added singly until the columns are full.

use crate::add::{odd_add, pick_add, Add, Way};
use crate::add_z::{pick_z, Style, STYLES};
use crate::check::Check;
use crate::lists::{Fill, Lists};
use crate::reference::{MOST_MONTHS, MOST_Z};
use crate::runs::{good_constants, good_soil};

pub fn series(c: &mut Check, times: u64) {
    let limit = MOST_MONTHS as i64;
    let groups = [
        ("series, 1 and 2 months", 1, 2, 2_000),
        ("series, up to 60 months", 3, 60, 8_000),
        ("series, up to 400 months", 61, 400, 1_000),
        ("series, up to 2,399 months", 401, 2_399, 40),
        ("series, 2,400 months", 2_400, 2_400, 30),
        ("series, up to 11,999 months", 2_401, limit - 1, 8),
        ("series, 12,000 months", limit, limit, 8),
    ];
    for (name, least, most, amount) in groups {
        c.kind(name);
        for number in 0..amount * times {
            let length = c.random.within(least, most) as usize;
            let way = [Way::Z, Way::Mixed, Way::Z, Way::Water][number as usize % 4];
            one_series(c, length, way);
        }
    }
}

/// Adds months until the columns are full, some refused adds between, and looks back.
fn one_series(c: &mut Check, length: usize, way: Way) {
    let mut lists = Lists::new(&mut c.random, [length; 7], Fill::AnyBits);
    let (constants, soil) = (good_constants(&mut c.random), good_soil(&mut c.random));
    let mut run = c.start(&constants, soil).run;
    let mut zs = Vec::new();
    let mut style = c.random.pick(&STYLES);
    let change = c.random.pick(&[3, 12, 60, 1_500]);
    while zs.len() < length {
        if c.random.one_in(change) {
            style = c.random.pick(&STYLES);
        }
        let what = if c.random.one_in(50) {
            odd_add(&mut c.random)
        } else {
            pick_add(&mut c.random, way, style, &run.values)
        };
        let added = c.add(what, &run, &mut lists);
        if added.number == 0 {
            run = added.run;
            zs.push(added.figures.z);
        }
        if !zs.is_empty() && c.random.one_in(100) {
            c.whole_against(&zs, &mut lists);
        }
    }
    for way in [Way::Z, Way::Water] {
        let what = pick_add(&mut c.random, way, style, &run.values);
        c.add(what, &run, &mut lists);
    }
    for row in 0..=length {
        c.row(&run, row, &mut lists);
    }
    c.untouched(&run, &mut lists);
    c.whole_against(&zs, &mut lists);
}

/// Runs whose months stay open until the last one, which decides for all of them or not.
pub fn open_to_the_last(c: &mut Check, times: u64) {
    c.kind("series, open to the last month");
    for number in 0..9 * times {
        let length = [MOST_MONTHS, 2_400, c.random.within(2, 600) as usize][number as usize % 3];
        let mut lists = Lists::new(&mut c.random, [length; 7], Fill::AnyBits);
        let constants = good_constants(&mut c.random);
        let mut run = c.start(&constants, [6_000, 0, 0, 1]).run;
        let mut zs = Vec::new();
        for month in 0..length {
            let z = if month + 1 == length {
                c.random.pick(&[-MOST_Z, -3_000, -60, 0, 60, 3_000, MOST_Z])
            } else {
                pick_z(&mut c.random, Style::Still, &run.values)
            };
            run = c.add(Add::Z(z), &run, &mut lists).run;
            zs.push(z);
        }
        c.untouched(&run, &mut lists);
        c.whole_against(&zs, &mut lists);
    }
}
