//! card_add_season: against the reference, and against the library's own single adds.

use crate::add::{pick_add, Add, Way};
use crate::add_z::{pick_z, Style, STYLES};
use crate::card::{self, Columns, Figures, Reading, Run, Season, Values};
use crate::check::{differ, Call, Check};
use crate::lists::{edged, inner, unchanged, Fill, Lists};
use crate::random::Random;
use crate::reference::{self, MOST_MONTHS};
use crate::runs::{any_good_run, length_faults, run_faults, NO_RUN};

/// The two lists of a season: precipitation and PE, in whole thousandths, with -1 for missing.
#[derive(Clone, Debug)]
pub struct Months {
    pub p: Vec<i32>,
    pub pe: Vec<i32>,
}

/// What stands before and after a list of readings. It is good, so that whoever reads too far adds too much.
const BESIDE: i32 = 700;

/// A season's reading as that of a single add.
fn listed(reading: i32) -> Reading {
    match reading {
        card::NO_READING => Reading::missing(),
        _ => Reading::whole(reading),
    }
}

/// A season by the reference, in the form of the library's answer.
fn by_reference(months: &Months, run: &Run, k: &mut Columns) -> Season {
    let mut run = *run;
    let season = reference::add_season(&mut run, &months.p, &months.pe, k);
    let number = season.refused.map_or(0, |refusal| refusal as u8);
    Season { number, added: season.added, settled: season.settled, figures: season.figures, run }
}

impl Check {
    /// A season, by the library, by the reference and by the library's single adds.
    pub fn season(&mut self, months: &Months, run: &Run, lists: &mut Lists) -> Season {
        let (mut p, mut pe) = (edged(&months.p, BESIDE), edged(&months.pe, BESIDE));
        let library = card::add_season(*run, inner(&mut p), inner(&mut pe), &mut lists.library.lend());
        let reference = by_reference(months, run, &mut lists.reference.lend());
        let singly = self.singly(months, run, &mut lists.lend_singly());
        let answers = library == reference && singly == reference;
        if answers && reference.added > 0 {
            lists.expect_months(run, reference.added, reference.settled);
        }
        let lent = unchanged(&p, &months.p, BESIDE) && unchanged(&pe, &months.pe, BESIDE);
        if !answers || !lent || !lists.agree() || lists.singly != lists.expected {
            let inputs = (months, run, lists.lengths(), lists.open_months(run));
            let singly = (singly, lists.singly.differences("singly", &lists.expected));
            let library = (library, lists.differences(), p, pe, singly);
            differ(Call::AddSeason, &inputs, &library, &reference);
        }
        self.count(Call::AddSeason, reference.number);
        self.seasons.months += u64::from(reference.added);
        self.seasons.most_months = self.seasons.most_months.max(reference.added);
        self.seasons.stopped += u64::from(reference.added > 0 && reference.number != 0);
        reference
    }

    /// A season's months added singly by the library, until one is refused. 1 and 7, which a season of no months
    /// asks as well, are learnt from a row that no run has.
    pub fn singly(&mut self, months: &Months, run: &Run, k: &mut Columns) -> Season {
        let number = match card::row(*run, usize::MAX, k).number {
            _ if months.p.len() != months.pe.len() => 1,
            11 => 0,
            refusal => refusal,
        };
        let mut season = Season { number, added: 0, settled: 0, figures: Figures::default(), run: *run };
        for (&p, &pe) in months.p.iter().zip(&months.pe) {
            if season.number != 0 {
                break;
            }
            let what = Add::Water(listed(p), listed(pe));
            let added = what.library(&season.run, k);
            season.number = added.number;
            if added.number == 0 {
                self.account(&what, &season.run, &added);
                season.added += 1;
                season.settled += added.settled;
                season.figures = added.figures;
                season.run = added.run;
            }
        }
        season
    }
}

/// Constants by which every month's Z is P - PE: alpha and K are 10,000, and the others 0.
pub const PLAIN: [i32; 60] = {
    let mut constants = [0; 60];
    let mut first = 0;
    while first < 60 {
        (constants[first], constants[first + 4]) = (10_000, 10_000);
        first += 5;
    }
    constants
};

/// Readings at the edges, beside a good one.
const EDGES: [i32; 8] = [700, 0, 100_000, -1, -2, 100_001, i32::MIN, i32::MAX];

/// A run that is one, with any values or fresh, and often with a Z that is P - PE.
fn season_run(random: &mut Random, length: usize, fresh: bool) -> Run {
    let mut run = any_good_run(random, length);
    if fresh {
        (run.months, run.opens, run.values) = (0, 0, NO_RUN.values);
    }
    if random.one_in(2) {
        run.constants = PLAIN;
    }
    run
}

/// Precipitation and PE of a month whose Z, where it is P - PE, is one of this style.
pub fn plain_month(random: &mut Random, style: Style, values: &Values) -> (i32, i32) {
    let z = pick_z(random, style, values).clamp(-100_000, 100_000);
    (z.max(0), (-z).max(0))
}

/// Good readings of so many months. Where the run's Z is P - PE, they are chosen for their Z.
pub fn good_months(random: &mut Random, run: &Run, length: usize) -> Months {
    let most_p = random.pick(&[300, 4_000, 9_000, 9_000, 100_000]);
    let most_pe = random.pick(&[300, 4_000, 9_000, 9_000, 100_000]);
    let mut style = random.pick(&STYLES);
    let change = random.pick(&[3, 12, 60, 1_500]);
    let mut values = run.values;
    let readings = (0..length).map(|_| {
        if run.constants != PLAIN {
            return (random.within(0, most_p) as i32, random.within(0, most_pe) as i32);
        }
        if random.one_in(change) {
            style = random.pick(&STYLES);
        }
        let (p, pe) = plain_month(random, style, &values);
        values = reference::spell_month(&values, p - pe).values;
        (p, pe)
    });
    let (p, pe) = readings.unzip();
    Months { p, pe }
}

/// Puts a reading at an edge, or any number, into one list or both.
fn spoil(random: &mut Random, months: &mut Months) {
    let place = random.below(months.p.len().max(1) as u64) as usize;
    let way = random.below(3);
    for (list, spoiled) in [(&mut months.p, way != 0), (&mut months.pe, way != 1)] {
        let (any, edge) = (random.bits() as i32, random.pick(&EDGES));
        let reading = random.pick(&[-1, any, edge, edge]);
        if let Some(place) = list.get_mut(place).filter(|_| spoiled) {
            *place = reading;
        }
    }
}

pub fn seasons(c: &mut Check, times: u64) {
    season_lengths(c, times);
    season_edges(c);
    season_refusals(c);
    long_seasons(c, times);
    mixed_seasons(c, times);
}

fn season_lengths(c: &mut Check, times: u64) {
    for (name, fresh) in [("seasons, 0 to 12 months, fresh", true), ("seasons, 0 to 12 months, any run", false)] {
        c.kind(name);
        for number in 0..3_900 * times {
            let length = c.random.within(1, 40) as usize;
            let fill = c.random.pick(&[Fill::AnyBits, Fill::Small, Fill::Small]);
            let mut lists = Lists::new(&mut c.random, [length; 7], fill);
            let run = season_run(&mut c.random, length, fresh);
            lists.meet(&run);
            let mut months = good_months(&mut c.random, &run, number as usize % 13);
            if c.random.one_in(4) {
                spoil(&mut c.random, &mut months);
            }
            c.season(&months, &run, &mut lists);
        }
    }
    c.kind("seasons, running full");
    for length in 1..=12 {
        for held in 0..=length {
            let mut lists = Lists::new(&mut c.random, [length; 7], Fill::Small);
            for months in 0..=13 {
                let mut run = season_run(&mut c.random, length, false);
                run.months = held as u32;
                (run.opens, run.values.v) = (run.opens.min(run.months), 0);
                lists.meet(&run);
                let months = good_months(&mut c.random, &run, months);
                c.season(&months, &run, &mut lists);
            }
        }
    }
}

/// Edges of precipitation and of PE at every place, with room to spare, and running full before that month, at it
/// and after it.
fn season_edges(c: &mut Check) {
    c.kind("seasons, edges at every place");
    for length in 1..=12usize {
        for place in 0..length {
            for room in [place.saturating_sub(1), place, place + 1, length + 2] {
                let held = c.random.within(1, 6) as usize;
                let mut lists = Lists::new(&mut c.random, [held + room; 7], Fill::Small);
                let mut run = season_run(&mut c.random, held, false);
                run.months = held as u32;
                lists.meet(&run);
                let good = good_months(&mut c.random, &run, length);
                for p in EDGES {
                    for pe in EDGES {
                        let mut months = good.clone();
                        (months.p[place], months.pe[place]) = (p, pe);
                        c.season(&months, &run, &mut lists);
                    }
                }
            }
        }
    }
}

/// Columns and runs with faults, and lists of unequal length.
fn season_refusals(c: &mut Check) {
    c.kind("several refusals, seasons");
    let mut run = any_good_run(&mut c.random, 5);
    (run.months, run.opens, run.values) = (3, 2, Values { x1: 40, x2: -30, x3: 0, v: 0 });
    for lengths in length_faults() {
        let mut lists = Lists::new(&mut c.random, lengths, Fill::AnyBits);
        for run in run_faults(&run) {
            lists.meet(&run);
            for (p, pe) in [(0, 0), (0, 1), (1, 0), (1, 1), (2, 3), (3, 2), (4, 4)] {
                for reading in [700, -1, 100_001] {
                    c.season(&Months { p: vec![reading; p], pe: vec![700; pe] }, &run, &mut lists);
                }
            }
        }
    }
}

/// Seasons as long as the columns may be, and longer than they are.
fn long_seasons(c: &mut Check, times: u64) {
    let groups = [
        ("seasons, up to 400 months", 13, 400, 300),
        ("seasons, up to 3,000 months", 401, 3_000, 45),
        ("seasons, up to 15,000 months", 3_001, 15_000, 18),
    ];
    for (name, least, most, amount) in groups {
        c.kind(name);
        for number in 0..amount * times {
            let season = c.random.within(least, most) as usize;
            let any = c.random.within(1, season.min(MOST_MONTHS) as i64) as usize;
            let length = [MOST_MONTHS, any, 2_400][number as usize % 3];
            let mut lists = Lists::new(&mut c.random, [length; 7], Fill::AnyBits);
            let run = season_run(&mut c.random, length, number % 4 < 2);
            lists.meet(&run);
            let mut months = good_months(&mut c.random, &run, season);
            if c.random.one_in(3) {
                spoil(&mut c.random, &mut months);
            }
            c.season(&months, &run, &mut lists);
        }
    }
    c.kind("seasons, about 2,400 months");
    full_seasons(c, 2_400);
    c.kind("seasons, about 12,000 months");
    full_seasons(c, MOST_MONTHS);
}

/// Seasons that fill columns of this length but for a month, to the last, and beyond; and with a month more in one list.
fn full_seasons(c: &mut Check, length: usize) {
    for season in [length - 1, length, length + 1, length + 7_600] {
        let mut lists = Lists::new(&mut c.random, [length; 7], Fill::AnyBits);
        let mut run = season_run(&mut c.random, length, true);
        let mut months = good_months(&mut c.random, &run, season);
        c.season(&months, &run, &mut lists);
        months.pe.push(700);
        c.season(&months, &run, &mut lists);
        (months.p, months.pe) = (months.pe, months.p);
        c.season(&months, &run, &mut lists);
        // The second month and those after it stay open until the last, which decides for all of them.
        run.constants = PLAIN;
        let mut months = Months { p: vec![0; season], pe: vec![0; season] };
        (months.p[0], months.pe[1]) = (12, 3);
        months.p[season.min(length) - 1] = 3_000;
        c.season(&months, &run, &mut lists);
    }
}

/// Seasons and single adds on one run until it is full, and a season more.
fn mixed_seasons(c: &mut Check, times: u64) {
    c.kind("seasons and single adds, mixed");
    for _ in 0..400 * times {
        let most = c.random.pick(&[12, 30, 60, 120, 400]);
        let length = c.random.within(1, most) as usize;
        let mut lists = Lists::new(&mut c.random, [length; 7], Fill::AnyBits);
        let mut run = season_run(&mut c.random, length, true);
        while (run.months as usize) < length {
            run = if c.random.one_in(2) {
                let season = c.random.pick(&[0, 1, 2, 3, 6, 6, 12]);
                let mut months = good_months(&mut c.random, &run, season);
                if c.random.one_in(4) {
                    spoil(&mut c.random, &mut months);
                }
                c.season(&months, &run, &mut lists).run
            } else {
                let style = c.random.pick(&STYLES);
                let what = pick_add(&mut c.random, Way::Mixed, style, &run.values);
                c.add(what, &run, &mut lists).run
            };
        }
        let months = good_months(&mut c.random, &run, 2);
        c.season(&months, &run, &mut lists);
        for row in 0..=length {
            c.row(&run, row, &mut lists);
        }
        c.untouched(&run, &mut lists);
    }
}
