//! Thin soils, those whose surface layer is all there is: every capacity to beyond an inch, and every storage.

use crate::add::Add;
use crate::card::{Reading, Run, Soil};
use crate::check::Check;
use crate::lists::{Fill, Lists};
use crate::runs::{any_good_run, good_constants};

/// What a soil holds when it is full is 1,000 in the surface layer from here on.
const INCH: i32 = 1_000;

fn water(p: i32, pe: i32) -> Add {
    Add::Water(Reading::whole(p), Reading::whole(pe))
}

pub fn thin_soils(c: &mut Check) {
    starts(c);
    runs(c);
    months(c);
    years(c);
}

/// Storages beside what the layers of this soil hold, and beside what those of a deep one would.
fn storages(capacity: i32) -> [[i32; 9]; 2] {
    let rest = capacity - INCH;
    [
        [-1, 0, 1, capacity - 1, capacity, capacity + 1, INCH - 1, INCH, INCH + 1],
        [-1, 0, 1, rest - 1, rest, rest + 1, capacity - 1, capacity, capacity + 1],
    ]
}

/// Each capacity from below 0 to beyond an inch, with storages at and past both layers' ends.
fn starts(c: &mut Check) {
    c.kind("thin soils, starts");
    let constants = good_constants(&mut c.random);
    for capacity in -2..=INCH + 102 {
        let [upper, lower] = storages(capacity);
        for surface in upper {
            for underlying in lower {
                c.start(&constants, [capacity, surface, underlying, 7]);
            }
        }
    }
}

/// The same in a run that is handed in.
fn runs(c: &mut Check) {
    c.kind("thin soils, runs");
    let mut lists = Lists::new(&mut c.random, [3; 7], Fill::AnyBits);
    for capacity in -2..=INCH + 102 {
        let run = any_good_run(&mut c.random, 2);
        let [upper, lower] = storages(capacity);
        for surface in upper {
            for underlying in lower {
                let soil =
                    Soil { capacity: capacity as u32, surface: surface as u32, underlying: underlying as u32 };
                let run = Run { soil, ..run };
                lists.meet(&run);
                c.row(&run, 0, &mut lists);
            }
        }
    }
}

/// Each capacity below an inch with each storage: months that take all but a thousandth, all, and ask for more; and
/// months that fill it but for a thousandth, to the last, and overflow.
fn months(c: &mut Check) {
    c.kind("thin soils, months");
    let mut lists = Lists::new(&mut c.random, [4; 7], Fill::Small);
    for capacity in 100..INCH {
        let run = any_good_run(&mut c.random, 3);
        for surface in 0..=capacity {
            let soil = Soil { capacity: capacity as u32, surface: surface as u32, underlying: 0 };
            let run = Run { soil, ..run };
            lists.meet(&run);
            let room = capacity - surface;
            for (p, pe) in [(1, surface), (0, surface), (30, surface + 31), (room, 1), (room, 0), (room + 31, 30)] {
                let after = c.add(water(p, pe), &run, &mut lists).run.soil;
                assert!(after.surface <= capacity as u32 && after.underlying == 0);
            }
        }
    }
}

/// Appendix B of source 000, of 0.10 inch: "One dry day or one completely dry year will produce the same result, viz,
/// no water in storage. Likewise, a wet day or a wet year will produce full storage." Of each capacity to an inch, where
/// a month is as dry or as wet as the soil is deep.
fn years(c: &mut Check) {
    c.kind("thin soils, dry and wet years");
    let constants = good_constants(&mut c.random);
    let mut lists = Lists::new(&mut c.random, [12; 7], Fill::AnyBits);
    for capacity in 100..=INCH {
        for (p, pe, left) in [(0, capacity, 0), (capacity, 0, capacity)] {
            for surface in [0, capacity / 2, capacity] {
                let mut run = c.start(&constants, [capacity, surface, 0, 1]).run;
                for _ in 0..12 {
                    run = c.add(water(p, pe), &run, &mut lists).run;
                    assert_eq!((run.soil.surface, run.soil.underlying), (left as u32, 0));
                }
            }
        }
    }
}
