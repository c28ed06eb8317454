//! card_add_z: how a Z is chosen, and months at the exact thresholds.

use crate::add::Add;
use crate::card::Values;
use crate::check::Check;
use crate::lists::{Fill, Lists};
use crate::random::Random;
use crate::reference::MOST_Z;
use crate::runs::{any_good_run, good_constants, good_soil};

/// How a series chooses its Z.
#[derive(Clone, Copy, Debug)]
pub enum Style {
    Tiny,
    Small,
    /// Both X1 and X2 stay a little off 0, so that every month is open.
    Still,
    KeepOpen,
    NearSteady,
    Ordinary,
    Wide,
    Extreme,
    Threshold,
}

pub const STYLES: [Style; 9] = [
    Style::Tiny,
    Style::Small,
    Style::Still,
    Style::KeepOpen,
    Style::NearSteady,
    Style::Ordinary,
    Style::Wide,
    Style::Extreme,
    Style::Threshold,
];

pub fn pick_z(random: &mut Random, style: Style, values: &Values) -> i32 {
    let z = match style {
        Style::Tiny => random.within(-5, 5),
        Style::Small => random.within(-60, 60),
        Style::Still => match (values.x1, values.x2) {
            (0, _) => 12,
            (_, 0) => -3,
            _ => 0,
        },
        // So small beside X1 and X2 that neither is likely to come to 0 at once.
        Style::KeepOpen => random.within(-2 - i64::from(values.x1), 2 - i64::from(values.x2)),
        Style::NearSteady => random.pick(&[-150, 150]) + random.within(-3, 3),
        Style::Ordinary => random.within(-3_000, 3_000),
        Style::Wide => random.within(-30_000, 30_000),
        Style::Extreme => extreme_z(random),
        Style::Threshold => threshold_z(random, values),
    };
    z.clamp(-i64::from(MOST_Z), i64::from(MOST_Z)) as i32
}

fn extreme_z(random: &mut Random) -> i64 {
    let most = i64::from(MOST_Z);
    let any = random.within(-most, most);
    random.pick(&[-most, most, 1 - most, most - 1, any])
}

/// A Z at one of the places where the month turns out another way, or one off it.
fn threshold_z(random: &mut Random, values: &Values) -> i64 {
    let [x1, x2, x3] = [values.x1, values.x2, values.x3].map(i64::from);
    // The Z that next(x) reaches `goal` at.
    let reaches = |x: i64, goal: i64| (3000 * goal - 2691 * x).div_euclid(1000);
    let sign = if x3 < 0 { 1 } else { -1 };
    let z = match random.below(8) {
        // 1000 U = E.
        0 | 1 => (-2691 * x3 - sign * 1_500_000).div_euclid(1000) - sign * 150,
        // V = 0.
        2 => -values.v - sign * 150,
        3 => (5997 - 2 * 2691 * x1 / 1000).div_euclid(2),
        4 => (-5997 - 2 * 2691 * x2 / 1000).div_euclid(2),
        5 => reaches(x1, 0) + 1,
        6 => reaches(x2, 0) - 2,
        _ => reaches(x3, random.pick(&[-501, -500, 0, 500, 501, -1000, 1000, -2000, 2000])),
    };
    z + random.within(-2, 2)
}

/// Values just before a month that turns out one way or the other, and the Z at the turn and beside it.
pub fn thresholds(c: &mut Check) {
    c.kind("at the thresholds");
    let mut lists = Lists::new(&mut c.random, [4; 7], Fill::Small);
    let mut run = any_good_run(&mut c.random, 4);
    (run.months, run.opens) = (3, 2);
    lists.meet(&run);
    let mut at = |x1: i64, x2: i64, x3: i64, v: i64, z: i64| {
        run.values = Values { x1: x1 as i32, x2: x2 as i32, x3: x3 as i32, v };
        for z in z - 2..=z + 2 {
            c.add(Add::Z(z.clamp(-i64::from(MOST_Z), i64::from(MOST_Z)) as i32), &run, &mut lists);
        }
    };
    for sign in [1, -1] {
        // E is whole thousands where X3 is: 1000 U = E, and V = 0.
        for thousands in (1..=100).chain([1_000, 1_480, 13_000]) {
            for v in [0, 1, 149, 150, 151, 1_000, 4_000_000, 12_000_450] {
                at(300, -200, -sign * 1000 * thousands, sign * v, sign * (2691 * thousands - 1_500 - 150));
                at(300, -200, -sign * 1000 * thousands, sign * v, -sign * (150 + v));
            }
        }
        for x3 in 495..=505 {
            at(300, -200, sign * x3, 0, sign * 150);
            at(300, -200, sign * x3, -sign * 1_000, sign * 150);
        }
    }
    // X1 and X2 to 1,000 in size, and to 0.
    for x in 0..1_200 {
        let (founds, fades) = ((2_998_500 - 2691 * x) / 1000, (1_500 - 2691 * x) / 1000);
        for z in [founds, fades] {
            at(x, -1, 0, 0, z);
            at(1, -x, 0, 0, -z);
            at(x, 0, -1_000, 0, z);
            at(0, -x, 1_000, 0, -z);
        }
    }
}

/// Values of X3 of which E is no whole number of thousands, and X1 and X2 of one size: the turn is between two Z, and
/// the provisional index at its tie.
pub fn ties(c: &mut Check) {
    c.kind("between the thresholds, and ties");
    let mut lists = Lists::new(&mut c.random, [4; 7], Fill::Small);
    let mut run = any_good_run(&mut c.random, 4);
    (run.months, run.opens) = (3, 2);
    lists.meet(&run);
    let mut at = |x1: i32, x2: i32, x3: i32, v: i64, z: i32| {
        run.values = Values { x1, x2, x3, v };
        for z in z - 2..=z + 2 {
            c.add(Add::Z(z), &run, &mut lists);
        }
    };
    for sign in [1, -1] {
        for x3 in 501..=1_600 {
            for v in [0, 1, 300] {
                at(40, -30, -sign * x3, i64::from(sign) * v, sign * ((2691 * x3 - 1_500_000) / 1000 - 150));
                at(40, -30, -sign * x3, i64::from(sign) * v, -sign * (150 + v as i32));
            }
        }
    }
    for x in 1..1_200 {
        at(x, -x, 0, 0, 0);
        at(x, -x, -2_000, 9_000, 0);
        at(x, -x, 2_000, -9_000, 0);
    }
}

/// Z at its ends for years, and back, from a fresh run: X1, X2, X3 and V as large as they get.
pub fn ends_for_years(c: &mut Check) {
    c.kind("Z at its ends for years");
    let years = [(MOST_Z, 60), (-MOST_Z, 15), (150, 5), (-MOST_Z, 40), (MOST_Z, 15), (-150, 4), (0, 30)];
    for sign in [1, -1] {
        let mut lists = Lists::new(&mut c.random, [300; 7], Fill::AnyBits);
        let (constants, soil) = (good_constants(&mut c.random), good_soil(&mut c.random));
        let mut run = c.start(&constants, soil).run;
        let mut zs = Vec::new();
        for (z, months) in years {
            for _ in 0..months {
                run = c.add(Add::Z(sign * z), &run, &mut lists).run;
                zs.push(sign * z);
            }
        }
        c.whole_against(&zs, &mut lists);
    }
}
