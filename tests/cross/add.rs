//! What the three adds have in common: how they are compared, and which one is picked.

use crate::add_inches::pick_inches;
use crate::add_water::pick_reading;
use crate::add_z::{pick_z, Style};
use crate::card::{self, Added, Columns, Figures, MonthInches, Reading, Run, Values};
use crate::check::{differ, Call, Check};
use crate::lists::Lists;
use crate::random::Random;
use crate::read::KINDS;
use crate::reference::{self, MOST_Z};

/// An add, with what is added.
#[derive(Clone, Copy, Debug)]
pub enum Add {
    Water(Reading, Reading),
    Inches(MonthInches),
    Z(i32),
}

impl Add {
    pub fn call(&self) -> Call {
        match self {
            Add::Water(..) => Call::AddWater,
            Add::Inches(_) => Call::AddInches,
            Add::Z(_) => Call::AddZ,
        }
    }

    pub fn library(&self, run: &Run, k: &mut Columns) -> Added {
        match *self {
            Add::Water(p, pe) => card::add_water(*run, p, pe, k),
            Add::Inches(month) => card::add_inches(*run, month, k),
            Add::Z(z) => card::add_z(*run, z, k),
        }
    }

    /// "A refusal returns its number with all figures 0 and the run given."
    pub fn reference(&self, run: &Run, k: &mut Columns) -> Added {
        let mut run = *run;
        let answer = match self {
            Add::Water(p, pe) => reference::add_water(&mut run, p, pe, k),
            Add::Inches(month) => reference::add_inches(&mut run, *month, k),
            Add::Z(z) => reference::add_z(&mut run, *z, k),
        };
        match answer {
            Ok(added) => Added { number: 0, settled: added.settled, figures: added.figures, run },
            Err(refusal) => Added { number: refusal as u8, settled: 0, figures: Figures::default(), run },
        }
    }

    /// Its binary32 numbers' bits, which tell NaNs apart.
    pub fn measures(&self) -> Vec<String> {
        let measures = match self {
            Add::Water(p, pe) => vec![p.measure, pe.measure],
            Add::Inches(month) => vec![month.p, month.pe],
            Add::Z(_) => vec![],
        };
        measures.iter().map(|x| format!("{:#010x}", x.to_bits())).collect()
    }
}

impl Check {
    pub fn add(&mut self, what: Add, run: &Run, lists: &mut Lists) -> Added {
        let library = what.library(run, &mut lists.library.lend());
        let reference = what.reference(run, &mut lists.reference.lend());
        if reference.number == 0 {
            lists.expect_months(run, 1, reference.settled);
            self.account(&what, run, &reference);
        }
        let refused_changed = reference.number != 0 && reference.run != *run;
        if library != reference || refused_changed || !lists.agree_after(run) {
            let inputs = (what, what.measures(), run, lists.lengths(), lists.open_months(run));
            differ(what.call(), &inputs, &(library, lists.differences()), &reference);
        }
        self.count(what.call(), reference.number);
        reference
    }
}

#[derive(Clone, Copy, Debug)]
pub enum Way {
    Z,
    Water,
    Mixed,
}

pub fn pick_add(random: &mut Random, way: Way, style: Style, values: &Values) -> Add {
    let z = match way {
        Way::Z => true,
        Way::Water => false,
        Way::Mixed => random.one_in(2),
    };
    if z {
        return Add::Z(pick_z(random, style, values));
    }
    let most_p = random.pick(&[300, 4_000, 9_000, 9_000, 100_000]);
    let most_pe = random.pick(&[300, 4_000, 9_000, 9_000, 100_000]);
    match random.below(4) {
        0 => Add::Inches(pick_inches(random, most_p, most_pe)),
        _ => Add::Water(pick_reading(random, most_p), pick_reading(random, most_pe)),
    }
}

/// An add that a good run is likely to refuse.
pub fn odd_add(random: &mut Random) -> Add {
    let good = Reading::whole(1);
    let measure = f32::from_bits(random.bits() as u32);
    let any = Reading { kind: random.pick(&KINDS), whole: random.bits() as i32, measure };
    let odd = random.pick(&[any, any, Reading::missing(), Reading::whole(-1), Reading::inches(101.0)]);
    match random.below(6) {
        0 => Add::Z(random.pick(&[i32::MIN, -MOST_Z - 1, MOST_Z + 1, i32::MAX])),
        1 => Add::Z(random.bits() as i32),
        2 => Add::Water(odd, good),
        3 => Add::Water(good, odd),
        4 => Add::Inches(MonthInches { p: measure, pe: 0.5 }),
        _ => Add::Inches(MonthInches { p: 0.5, pe: measure }),
    }
}
