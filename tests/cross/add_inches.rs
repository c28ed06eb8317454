//! card_add_inches: both numbers at the edges of binary32 inches.

use crate::add::Add;
use crate::card::MonthInches;
use crate::check::Check;
use crate::lists::{Fill, Lists};
use crate::random::Random;
use crate::read::edge_patterns;
use crate::runs::any_good_run;
use crate::trace::no_inches;

/// Two numbers in whole thousandths of an inch, up to the ends given; now and then one of no water.
pub fn pick_inches(random: &mut Random, most_p: i64, most_pe: i64) -> MonthInches {
    let [p, pe] = [most_p, most_pe].map(|most| match random.below(12) {
        0 => no_inches(random),
        _ => random.within(0, most) as f32 / 1000.0,
    });
    MonthInches { p, pe }
}

/// Every pair of edges, and each edge beside any good number.
pub fn edges_in_inches(c: &mut Check) {
    c.kind("adds of inches, edges");
    let mut lists = Lists::new(&mut c.random, [6; 7], Fill::AnyBits);
    let edges: Vec<f32> = edge_patterns().into_iter().map(f32::from_bits).collect();
    for &p in &edges {
        let mut run = any_good_run(&mut c.random, 5);
        run.months = run.months.max(1);
        lists.meet(&run);
        for &pe in &edges {
            c.add(Add::Inches(MonthInches { p, pe }), &run, &mut lists);
        }
        let good = pick_inches(&mut c.random, 9_000, 9_000);
        c.add(Add::Inches(MonthInches { p, ..good }), &run, &mut lists);
        c.add(Add::Inches(MonthInches { pe: p, ..good }), &run, &mut lists);
    }
}
