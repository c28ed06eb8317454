//! The paper's tables of water: table 1 with table 6, central Iowa, and table 4, western Kansas.
//!
//! Each month is worked out twice. One month: from the storages that the paper prints for its start. Chained: from those
//! that the library's run has there.

use crate::card::Figures;
use crate::listing::Part;
use crate::runs::{constants, Card, Soil};
use crate::tables::{Fault, Table, Tables, When};

/// What may be off, in thousandths: one unit of the last place printed, and three where the paper carried hundredths of
/// an inch from month to month.
const ONE_MONTH: i32 = 10;
const CHAINED: i32 = 30;

const MONTHS: u32 = 36;

/// A month's figures, with the soil before and after it.
struct Month {
    before: Soil,
    figures: Figures,
    after: Soil,
}

fn add(card: &mut Card, when: When, p: i32, pe: i32) -> Result<Month, Fault> {
    let before = card.soil();
    let figures = card.add_water(when, p, pe)?.figures;
    Ok(Month { before, figures, after: card.soil() })
}

/// P less CAFEC.
fn departure(figures: &Figures) -> i32 {
    figures.water.p as i32 - figures.water.cafec
}

/// January 1933, before which both layers were full (section 5, page 10).
const IOWA: When = When::new(1933, 1);
const IOWA_SOIL: Soil = [10_000, 1_000, 9_000];

/// Columns 5 to 15 of table 1, with what the library has for each.
fn accounting(month: &Month) -> [(&'static str, i32); 11] {
    let Month { before: [_, surface, underlying], figures, after: [_, ss, su] } = month;
    let w = &figures.water;
    let [pr, r, pl, l, et, ro] = [w.pr, w.r, w.pl, w.ls + w.lu, w.et, w.ro].map(|amount| amount as i32);
    let layers = [("dSs", ss - surface), ("dSu", su - underlying), ("Ss", *ss), ("Su", *su), ("S", ss + su)];
    let flows = [("PR", pr), ("R", r), ("PL", pl), ("L", l), ("ET", et), ("RO", ro)];
    std::array::from_fn(|column| if column < 5 { layers[column] } else { flows[column - 5] })
}

/// Table 1 and table 6, a month at a time from the storages that table 1 prints at the end of the month before.
pub fn iowa_months(tables: &Tables) -> Result<Part, Fault> {
    let (table, constants) =
        (tables.find("table 1, central Iowa")?, constants(tables.find("table 3, central Iowa")?)?);
    let mut part = Part::new("table 1, one month");
    let mut soil = IOWA_SOIL;
    for when in IOWA.and_on(MONTHS) {
        let mut card = Card::start(&constants, soil, when, 1)?;
        iowa_month(tables, &mut card, &mut part, when, ONE_MONTH)?;
        soil = [IOWA_SOIL[0], table.figure(when, "Ss")?, table.figure(when, "Su")?];
    }
    Ok(part)
}

fn iowa_month(tables: &Tables, card: &mut Card, part: &mut Part, when: When, allowed: i32) -> Result<(), Fault> {
    let table = tables.find("table 1, central Iowa")?;
    let month = add(card, when, table.figure(when, "P")?, table.figure(when, "PE")?)?;
    for (column, ours) in accounting(&month) {
        part.hold(when, column, table.figure(when, column)?, ours, allowed);
    }
    let d = tables.find("table 6, central Iowa")?.of_month(when)?;
    part.hold(when, "d", d, departure(&month.figures), allowed);
    Ok(())
}

/// Table 1 and table 6 in one run, and the X of table 16 that comes of its Z. December 1932 left a wet spell, of which
/// table 16 has the X3.
pub fn iowa_chained(tables: &Tables) -> Result<[Part; 2], Fault> {
    let x = tables.find("table 16, central Iowa")?;
    let constants = constants(tables.find("table 3, central Iowa")?)?;
    let mut card = Card::start(&constants, IOWA_SOIL, IOWA, MONTHS as usize)?;
    card.run.values.x3 = x.of_month(When::new(1932, 12))?;
    let mut water = Part::new("table 1, chained");
    for when in IOWA.and_on(MONTHS) {
        iowa_month(tables, &mut card, &mut water, when, CHAINED)?;
    }
    let mut index = Part::new("1933 to 1935");
    for (month, when) in IOWA.and_on(MONTHS).enumerate() {
        index.hold(when, "X", x.of_month(when)?, card.index(when, month)?, crate::spells::INDEX);
    }
    Ok([water, index])
}

/// June 1932, with an empty surface layer, which column 5 of table 4 allows. Column 4 is the storage of both layers.
const KANSAS: When = When::new(1932, 6);
const KANSAS_CAPACITY: i32 = 6_000;

/// The columns of table 4 that are a constant times an amount, with what the listing calls them.
const PARTS: [(&str, &str); 4] =
    [("alpha_PE", "alpha PE"), ("beta_PR", "beta PR"), ("gamma_S", "gamma PRO"), ("delta_PL", "delta PL")];

/// What one of alpha, beta, gamma and delta makes of a month: the CAFEC with that constant alone, delta's part turned. K,
/// which no CAFEC is made with, stays.
fn expected(constants: &[i32], which: usize, soil: Soil, when: When, [p, pe]: [i32; 2]) -> Result<i32, Fault> {
    let alone: Vec<i32> = constants.iter().enumerate().map(|(n, c)| if n % 5 == which || n % 5 == 4 { *c } else { 0 }).collect();
    let cafec = Card::start(&alone, soil, when, 1)?.add_water(when, p, pe)?.figures.water.cafec;
    Ok(if which == 3 { -cafec } else { cafec })
}

/// Table 4 as it is gone through.
struct Kansas<'a> {
    table: &'a Table,
    constants: Vec<i32>,
    card: Card,
    part: Part,
    allowed: i32,
}

impl Kansas<'_> {
    /// Holds a month's columns; hands back what it leaves in the layers.
    fn month(&mut self, when: When) -> Result<[i32; 2], Fault> {
        let (p, pe) = (self.table.figure(when, "P")?, self.table.figure(when, "PE")?);
        let month = add(&mut self.card, when, p, pe)?;
        let w = &month.figures.water;
        self.hold(when, "PR", "PR", w.pr as i32)?;
        self.hold(when, "PL", "PL", w.pl as i32)?;
        for (which, (column, name)) in PARTS.iter().enumerate() {
            let ours = expected(&self.constants, which, month.before, when, [p, pe])?;
            self.hold(when, column, name, ours)?;
        }
        self.hold(when, "CAFEC", "CAFEC", w.cafec)?;
        self.hold(when, "d", "d", departure(&month.figures))?;
        self.hold(when, "Z", "Z", month.figures.z)?;
        let [_, surface, underlying] = month.after;
        Ok([surface, underlying])
    }

    fn hold(&mut self, when: When, column: &str, name: &str, ours: i32) -> Result<(), Fault> {
        self.part.hold(when, name, self.table.figure(when, column)?, ours, self.allowed);
        Ok(())
    }
}

/// Table 4, a month at a time or in one run. The storage at a month's end is the next month's column 4, and the last
/// month has none. Of the storage that the paper prints for a month's start the surface layer has what the library had
/// there at the end of the month before: that layer goes by P and PE alone.
pub fn kansas(tables: &Tables, chained: bool) -> Result<Part, Fault> {
    let table = tables.find("table 4, western Kansas")?;
    let constants = constants(tables.find("table 3, western Kansas")?)?;
    let soil = [KANSAS_CAPACITY, 0, table.figure(KANSAS, "PRO")?];
    let card = Card::start(&constants, soil, KANSAS, MONTHS as usize)?;
    let (name, allowed) = if chained { ("table 4, chained", CHAINED) } else { ("table 4, one month", ONE_MONTH) };
    let mut run = Kansas { table, constants, card, part: Part::new(name), allowed };
    let months: Vec<When> = KANSAS.and_on(MONTHS).collect();
    for (place, &when) in months.iter().enumerate() {
        let [surface, underlying] = run.month(when)?;
        let Some(&next) = months.get(place + 1) else { break };
        let stored = table.figure(next, "PRO")?;
        run.part.hold(when, "S", stored, surface + underlying, allowed);
        if !chained {
            // A run ends where its last record does, so that other storages are another run's.
            let surface = surface.min(stored);
            run.card = Card::start(&run.constants, [KANSAS_CAPACITY, surface, stored - surface], next, 1)?;
        }
    }
    Ok(run.part)
}
