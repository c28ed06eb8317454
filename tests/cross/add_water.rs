//! card_add_water: readings at their edges, and months of water at the ends of soil, readings and constants.

use crate::add::Add;
use crate::card::{Reading, Run, Soil};
use crate::check::Check;
use crate::lists::{Fill, Lists};
use crate::random::Random;
use crate::read::edge_readings;
use crate::reference::layers;
use crate::runs::{any_good_run, MOST};
use crate::trace::no_water;

/// A reading of a month's water, in one of the three units; now and then one of no water.
pub fn pick_reading(random: &mut Random, most: i64) -> Reading {
    if random.one_in(12) {
        return no_water(random);
    }
    let whole = random.within(0, most) as i32;
    let inches = whole as f32 / 1000.0;
    match random.below(3) {
        0 => Reading::whole(whole),
        1 => Reading::inches(inches),
        _ => Reading::millimetres(inches * 25.4),
    }
}

/// Every edge of a reading, as precipitation and as PE.
pub fn readings_in_adds(c: &mut Check) {
    c.kind("adds of water, edges of readings");
    let mut lists = Lists::new(&mut c.random, [6; 7], Fill::AnyBits);
    for reading in edge_readings() {
        let mut run = any_good_run(&mut c.random, 5);
        run.months = run.months.max(1);
        lists.meet(&run);
        let other = pick_reading(&mut c.random, 9_000);
        c.add(Add::Water(reading, other), &run, &mut lists);
        c.add(Add::Water(other, reading), &run, &mut lists);
        c.add(Add::Water(reading, reading), &run, &mut lists);
    }
}

/// The two amounts of a month, each at and beside what a layer holds and the end of its range, and equal.
const AMOUNTS: [i32; 14] = [0, 1, 2, 99, 100, 101, 499, 500, 999, 1_000, 1_001, 7_000, 99_999, 100_000];

/// Months of water with each layer empty, full and next to it.
pub fn water_at_ends(c: &mut Check) {
    c.kind("adds of water, ends of the soil");
    let mut lists = Lists::new(&mut c.random, [4; 7], Fill::Small);
    for capacity in [100, 101, 500, 999, 1_000, 1_001, 6_000, 29_999, 30_000] {
        let [most_surface, most_underlying] = layers(capacity);
        for surface in [0, 1, most_surface / 2, most_surface - 1, most_surface] {
            for underlying in [0, 1, most_underlying / 2, most_underlying.saturating_sub(1), most_underlying] {
                let mut run = any_good_run(&mut c.random, 3);
                run.soil = Soil { capacity, surface, underlying: underlying.min(most_underlying) };
                lists.meet(&run);
                for p in AMOUNTS {
                    for pe in AMOUNTS {
                        c.add(Add::Water(Reading::whole(p), Reading::whole(pe)), &run, &mut lists);
                    }
                }
            }
        }
    }
}

/// Each of the sixty constants at and past its ends, in the month that it is used in and in the month after.
pub fn constants_in_use(c: &mut Check) {
    c.kind("adds of water, each constant");
    let mut lists = Lists::new(&mut c.random, [6; 7], Fill::AnyBits);
    for place in 0..60 {
        let most = MOST[place % 5];
        for value in [i32::MIN, -1, 0, 1, most / 2, most - 1, most, most + 1, i32::MAX] {
            for months in 0..2 {
                let mut run = any_good_run(&mut c.random, 4);
                run.calendar = 1 + (place as u32 / 5 + months) % 12;
                run.constants[place] = value;
                two_months(c, run, &mut lists);
            }
        }
    }
}

fn two_months(c: &mut Check, mut run: Run, lists: &mut Lists) {
    lists.meet(&run);
    for _ in 0..2 {
        let (p, pe) = (pick_reading(&mut c.random, 9_000), pick_reading(&mut c.random, 9_000));
        run = c.add(Add::Water(p, pe), &run, lists).run;
    }
}
