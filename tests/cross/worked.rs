//! Worked months of the document, by the library and the reference.

use crate::add::Add;
use crate::card::{self, MonthInches, Reading, Season};
use crate::check::Check;
use crate::lists::{record, Fill, Lists};
use crate::season::Months;

/// Some of the document's worked months, so that both sides are also held to numbers that neither has reckoned.
pub fn worked_months(c: &mut Check) {
    c.kind("worked months");
    let readings = [Reading::inches(0.0625), Reading::inches(1.0 / 2048.0), Reading::millimetres(7.9375)];
    assert_eq!(readings.map(|reading| card::read(reading).water), [63, 0, 313]);
    assert_eq!(readings.map(|reading| card::read(reading).kind), [card::MEASURED, card::TRACE, card::MEASURED]);
    let constants: Vec<i32> = [8000, 1000, 500, 2000, 15000].repeat(12);
    let mut lists = Lists::new(&mut c.random, [8; 7], Fill::AnyBits);

    let run = c.start(&constants, [6000, 500, 3000, 1]).run;
    let w1 = c.add(Add::Water(Reading::whole(1000), Reading::whole(2500)), &run, &mut lists);
    let w = w1.figures.water;
    assert_eq!((w.ls, w.lu, w.et, w.pl, w.cafec, w1.figures.z), (500, 500, 2000, 1500, 2125, -1688));
    assert_eq!((w1.run.soil.surface, w1.run.soil.underlying, w1.run.calendar), (0, 2500, 2));
    let kept = [-1688, 1000, 2500, 2000, 0, 1000, 0, 500, 3000, 0, 2500, 1, -563, 2];
    assert_eq!(lists.library.lend().records[0], record(kept));
    let months = Months { p: vec![1000, 700, 700], pe: vec![2500, -1, 700] };
    let w1_alone = Season { number: 8, added: 1, settled: w1.settled, figures: w1.figures, run: w1.run };
    assert_eq!(c.season(&months, &run, &mut lists), w1_alone);

    let run = c.start(&constants, [6000, 500, 4900, 12]).run;
    let w2 = c.add(Add::Inches(MonthInches { p: 2.0, pe: 0.4 }), &run, &mut lists);
    assert_eq!((w2.figures.water.r, w2.figures.water.ro, w2.run.calendar), (600, 1000, 1));
    let kept = [w2.figures.z, 2000, 400, 400, 600, 0, 1000, 500, 4900, 1000, 5000, 1, 715, 2];
    assert_eq!(lists.library.lend().records[0], record(kept));

    // S4, then S5 and S6.
    let mut run = c.start(&constants, [6000, 0, 0, 1]).run;
    run.values.x3 = -4070;
    let mut percents = [0; 3];
    for (percent, z) in percents.iter_mut().zip([3590, -1460, -1600]) {
        let added = c.add(Add::Z(z), &run, &mut lists);
        *percent = added.figures.percent;
        run = added.run;
    }
    assert_eq!(percents, [40, 27, 12]);
    // V is the sum of Z + 150 since the drought abates; a Z has no water, and the storages stay.
    assert_eq!(lists.library.lend().v[..3], [3740, 2430, 980]);
    let months = [[3590, -1009], [-1460, -1788], [-1600, -2591]];
    let kept = months.map(|[z, modified]| record([z, 0, 0, 0, 0, 0, 0, 0, 0, 0, 0, 0, modified, 0]));
    assert_eq!(lists.library.lend().records[..3], kept);
    let s5 = c.add(Add::Z(-1130), &run, &mut lists);
    assert_eq!((s5.settled, s5.figures.index), (4, -3017));
    assert_eq!(lists.library.lend().index[..4], [-2454, -2688, -2944, -3017]);
    let s6 = c.add(Add::Z(6273), &run, &mut lists);
    assert_eq!((s6.settled, s6.figures.index), (4, 2091));
    assert_eq!(lists.library.lend().index[..4], [1197, -487, -970, 2091]);
    assert_eq!(lists.library.lend().records[..3], kept);
    assert_eq!(c.whole(&[-3000, 1040, 0], 3, 3), (0, vec![-1000, 347, 311], vec![2; 3]));
    longest_lists(c, &constants);
    more_water(c, &constants, &mut lists);
    thin_water(c, &constants, &mut lists);
    turned_spells(c, &constants, &mut lists);
}

/// Document 02, of longer lists: "1 now begins above 12,000."
fn longest_lists(c: &mut Check, constants: &[i32]) {
    let run = c.start(constants, [6000, 0, 0, 1]).run;
    for (length, number) in [(2400, 0), (2401, 0), (12_000, 0), (12_001, 1)] {
        let mut lists = Lists::new(&mut c.random, [length; 7], Fill::AnyBits);
        assert_eq!(c.add(Add::Z(0), &run, &mut lists).number, number);
        assert_eq!(c.whole(&vec![0; length], length, length).0, number);
    }
}

/// Two months of a soil of 100, from document 02's thin soils, worked out by hand: one that dries, one that overflows.
fn thin_water(c: &mut Check, constants: &[i32], lists: &mut Lists) {
    let run = c.start(constants, [100, 100, 0, 1]).run;
    let dry = c.add(Add::Water(Reading::whole(30), Reading::whole(80)), &run, lists);
    let w = dry.figures.water;
    assert_eq!([w.ls, w.lu, w.et, w.r, w.ro, w.pr, w.pro, w.pl], [50, 0, 80, 0, 0, 0, 100, 80]);
    assert_eq!((w.cafec, dry.figures.z, dry.run.soil.surface, dry.run.soil.underlying), (53, -35, 50, 0));
    let wet = c.add(Add::Water(Reading::whole(200), Reading::whole(20)), &dry.run, lists);
    let w = wet.figures.water;
    assert_eq!([w.ls, w.lu, w.et, w.r, w.ro, w.pr, w.pro, w.pl], [0, 0, 20, 50, 130, 50, 50, 20]);
    assert_eq!((w.cafec, wet.figures.z, wet.run.soil.surface, wet.run.soil.underlying), (20, 271, 100, 0));
}

/// W3 and W4.
fn more_water(c: &mut Check, constants: &[i32], lists: &mut Lists) {
    for (soil, pe, lu) in
        [([6000, 0, 1, 1], 3000, 1), ([6000, 0, 1, 1], 2999, 0), ([6000, 1000, 5000, 1], 100_000, 5000)]
    {
        let run = c.start(constants, soil).run;
        let added = c.add(Add::Water(Reading::whole(0), Reading::whole(pe)), &run, lists);
        assert_eq!(added.figures.water.lu, lu);
    }
}

/// S1 to S3, dry and wet: what a month leaves of X1, X2 and X3, its percent and its modified index, which was worked out by
/// hand.
fn turned_spells(c: &mut Check, constants: &[i32], lists: &mut Lists) {
    let months = [
        (0, 2999, [0, 0, 1000], 0, 1000),
        (0, 2998, [999, 0, 0], 0, 999),
        (-1000, -150, [0, 0, -947], 0, -947),
        (-1000, -149, [0, -50, -947], 1, -946),
        (-1000, 1041, [347, 0, 0], 100, 347),
        (-1000, 1040, [347, 0, -550], 99, 346),
    ];
    for (x3, z, [up, down, left], percent, modified) in months {
        let mut run = c.start(constants, [6000, 0, 0, 1]).run;
        run.values.x3 = x3;
        let f = c.add(Add::Z(z), &run, lists).figures;
        assert_eq!((f.x1, f.x2, f.x3, f.percent, f.modified), (up, down, left, percent, modified));
        run.values.x3 = -x3;
        let f = c.add(Add::Z(-z), &run, lists).figures;
        assert_eq!((f.x1, f.x2, f.x3, f.percent, f.modified), (-down, -up, -left, percent, -modified));
    }
}
