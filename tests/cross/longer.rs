//! A run in columns of two lengths. While the shorter ones have room, both come to the same. Where they are full it goes on
//! in longer ones of other content, to whose beginning its months were copied, beside the run that never stopped: every
//! answer, every place of a month and every row are the same. So the library is held to itself, after each call was held to
//! the reference.

use crate::add::{pick_add, Add, Way};
use crate::add_z::{pick_z, Style, STYLES};
use crate::card::{Added, MonthInches, Reading, Run, Season};
use crate::check::{differ, Call, Check};
use crate::lists::{Fill, Lists};
use crate::random::Random;
use crate::reference::{self, MOST_MONTHS};
use crate::runs::{good_constants, good_soil};
use crate::season::{good_months, plain_month, Months, PLAIN};
use std::ops::Range;

/// What is added in a call.
#[derive(Clone, Debug)]
enum Step {
    One(Add),
    Season(Months),
}

impl Step {
    fn call(&self) -> Call {
        match self {
            Step::One(what) => what.call(),
            Step::Season(_) => Call::AddSeason,
        }
    }

    /// What it comes to, a single add as a season of one month.
    fn take(&self, c: &mut Check, run: &Run, lists: &mut Lists) -> Season {
        match self {
            Step::One(what) => {
                let Added { number, settled, figures, run } = c.add(*what, run, lists);
                Season { number, added: u32::from(number == 0), settled, figures, run }
            }
            Step::Season(months) => c.season(months, run, lists),
        }
    }

    /// What is left of it where so many months were added.
    fn after(&self, added: u32) -> Step {
        match self {
            Step::One(what) => Step::One(*what),
            Step::Season(Months { p, pe }) => {
                let [p, pe] = [p, pe].map(|list| list[added as usize..].to_vec());
                Step::Season(Months { p, pe })
            }
        }
    }
}

/// What a run's months are made of.
#[derive(Clone, Copy, Debug)]
enum Made {
    /// Water, Z and seasons of any size, by any constants.
    Any,
    /// The same, with every Z of one style.
    Styled(Style),
    /// Z alone, of one style.
    Z(Style),
}

/// The style of a run's next month. Where very many are open, one comes that decides.
fn styled(style: Style, run: &Run) -> Style {
    if run.opens > 3_000 {
        Style::Wide
    } else {
        style
    }
}

impl Made {
    fn constants(self, random: &mut Random) -> Vec<i32> {
        match self {
            Made::Styled(_) => PLAIN.to_vec(),
            Made::Any | Made::Z(_) => good_constants(random),
        }
    }

    fn one(self, random: &mut Random, run: &Run) -> Step {
        let inches = |thousandths| thousandths as f32 / 1000.0;
        Step::One(match self {
            Made::Any => {
                let style = random.pick(&STYLES);
                pick_add(random, Way::Mixed, style, &run.values)
            }
            Made::Styled(style) => {
                let (p, pe) = plain_month(random, styled(style, run), &run.values);
                let month = MonthInches { p: inches(p), pe: inches(pe) };
                random.pick(&[
                    Add::Z(p - pe),
                    Add::Water(Reading::whole(p), Reading::whole(pe)),
                    Add::Inches(month),
                ])
            }
            Made::Z(style) => Add::Z(pick_z(random, styled(style, run), &run.values)),
        })
    }

    /// A season of so many months; of Z there is none, and one of them stands for it.
    fn season(self, random: &mut Random, run: &Run, length: usize) -> Step {
        match self {
            Made::Any => Step::Season(good_months(random, run, length)),
            Made::Styled(style) => {
                let mut values = run.values;
                let month = |_| {
                    let (p, pe) = plain_month(random, style, &values);
                    values = reference::spell_month(&values, p - pe).values;
                    (p, pe)
                };
                let (p, pe) = (0..length).map(month).unzip();
                Step::Season(Months { p, pe })
            }
            Made::Z(_) => self.one(random, run),
        }
    }
}

/// A run in two sets of columns: those that it fills and goes on from, and those that are long from the first month on.
struct Pair {
    run: Run,
    moved: Lists,
    straight: Lists,
    /// Every Z that was added by itself.
    zs: Vec<i32>,
}

impl Pair {
    /// Goes on from what a step came to in both, where that is the same, and so is what the library's columns hold of
    /// these months.
    fn compare(&mut self, step: &Step, moved: Season, straight: Season, months: Range<usize>) {
        let (k, l) = (self.moved.library.lend(), self.straight.library.lend());
        let numbers = [(k.x1, l.x1), (k.x2, l.x2), (k.x3, l.x3), (k.index, l.index)];
        let held = numbers.iter().all(|(held, other)| held[months.clone()] == other[months.clone()]);
        let held = held && k.mark[months.clone()] == l.mark[months.clone()];
        let held = held && k.records[months.clone()] == l.records[months.clone()];
        if moved != straight || !held || k.v[months.clone()] != l.v[months] {
            let inputs =
                (step, self.run, self.moved.lengths(), self.straight.lengths(), "in columns of two lengths");
            differ(step.call(), &inputs, &moved, &straight);
        }
        match step {
            Step::One(Add::Z(z)) if straight.number == 0 => self.zs.push(*z),
            _ => {}
        }
        self.run = straight.run;
    }

    /// Takes a step in both, compares all that it may have written, and hands its number back.
    fn both(&mut self, c: &mut Check, step: &Step) -> u8 {
        let moved = step.take(c, &self.run, &mut self.moved);
        let straight = step.take(c, &self.run, &mut self.straight);
        let first = (self.run.months - self.run.opens) as usize;
        self.compare(step, moved, straight, first..straight.run.months as usize);
        straight.number
    }

    /// Steps until there are so many months, for which there is room.
    fn fill(&mut self, c: &mut Check, made: Made, until: usize) {
        while (self.run.months as usize) < until {
            let room = until - self.run.months as usize;
            let season = c.random.pick(&[0, 1, 2, 6, 12, 40]).min(room);
            let step = match c.random.below(2) {
                0 => made.one(&mut c.random, &self.run),
                _ => made.season(&mut c.random, &self.run, season),
            };
            let number = self.both(c, &step);
            if number != 0 {
                differ(step.call(), &(step, self.run, "where there is room"), &number, &0);
            }
        }
    }

    /// A step for which the shorter columns have room in part or not at all: there it stops. The months go into longer
    /// ones, and the rest of the step follows.
    fn go_on(&mut self, c: &mut Check, step: &Step) {
        let straight = step.take(c, &self.run, &mut self.straight);
        let stopped = step.take(c, &self.run, &mut self.moved);
        if (straight.number, stopped.number) != (0, 10) {
            differ(step.call(), &(step, self.run, "past the end of the shorter columns"), &stopped, &straight);
        }
        full(c, &stopped.run, &mut self.moved);
        let [long, ..] = self.straight.lengths();
        self.moved = self.moved.copied(&mut c.random, long, stopped.run.months as usize);
        let rest = step.after(stopped.added).take(c, &stopped.run, &mut self.moved);
        let (added, settled) = (stopped.added + rest.added, stopped.settled + rest.settled);
        self.compare(step, Season { added, settled, ..rest }, straight, 0..straight.run.months as usize);
    }

    /// Every row, and the one after the last.
    fn rows(&mut self, c: &mut Check) {
        for row in 0..=self.run.months as usize {
            let [moved, straight] =
                [&mut self.moved, &mut self.straight].map(|lists| c.row(&self.run, row, lists));
            if moved != straight {
                differ(Call::Row, &(row, self.run, "in columns of two lengths"), &moved, &straight);
            }
        }
        c.untouched(&self.run, &mut self.moved);
        c.untouched(&self.run, &mut self.straight);
    }
}

/// Columns that are full take no month, however it is added.
fn full(c: &mut Check, run: &Run, lists: &mut Lists) {
    let month = Add::Water(Reading::whole(700), Reading::whole(700));
    let inches = Add::Inches(MonthInches { p: 0.7, pe: 0.7 });
    let season = Step::Season(Months { p: vec![700; 3], pe: vec![700; 3] });
    for step in [Step::One(Add::Z(12)), Step::One(month), Step::One(inches), season] {
        let answer = step.take(c, run, lists);
        if (answer.number, answer.added, answer.run) != (10, 0, *run) {
            differ(step.call(), &(step, run, lists.lengths(), "in full columns"), &answer, &10);
        }
    }
}

/// A run that fills columns of one length and goes on to fill those of the other.
fn one_run(c: &mut Check, made: Made, short: usize, long: usize) {
    let (constants, soil) = (made.constants(&mut c.random), good_soil(&mut c.random));
    let run = c.start(&constants, soil).run;
    let [moved, straight] = [short, long].map(|length| Lists::new(&mut c.random, [length; 7], Fill::AnyBits));
    let mut pair = Pair { run, moved, straight, zs: Vec::new() };
    // so many places are left for the season that runs full
    let left = match made {
        Made::Z(_) => 0,
        _ => c.random.below(short.min(4) as u64 + 1) as usize,
    };
    pair.fill(c, made, short - left);
    let step = made.season(&mut c.random, &pair.run, left + 1);
    pair.go_on(c, &step);
    pair.fill(c, made, long - left);
    let step = made.season(&mut c.random, &pair.run, left + 1);
    pair.both(c, &step);
    full(c, &pair.run, &mut pair.moved);
    full(c, &pair.run, &mut pair.straight);
    pair.rows(c);
    if pair.zs.len() == long {
        c.whole_against(&pair.zs, &mut pair.straight);
    }
}

/// From which length a run goes on, and to which.
const LENGTHS: [(usize, usize); 9] = [
    (1, 2),
    (1, MOST_MONTHS),
    (30, 2_400),
    (30, MOST_MONTHS),
    (2_399, MOST_MONTHS),
    (2_400, 2_401),
    (2_400, MOST_MONTHS),
    (2_401, MOST_MONTHS),
    (MOST_MONTHS - 1, MOST_MONTHS),
];

pub fn longer_columns(c: &mut Check, times: u64) {
    c.kind("runs that go on in longer columns");
    for _ in 0..times {
        for (short, long) in LENGTHS {
            for style in [Style::Ordinary, Style::Still] {
                for made in [Made::Any, Made::Styled(style), Made::Z(style)] {
                    one_run(c, made, short, long);
                }
            }
        }
    }
}
