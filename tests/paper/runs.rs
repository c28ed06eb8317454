//! Runs of the card's library over the paper's months.

use crate::card::{self, Added, Columns, Reading, Record, Run, Sums, WorkedOut};
use crate::tables::{bad, Fault, Table, When};

/// Sixty constants from table 3.
pub fn constants(table: &Table) -> Result<Vec<i32>, Fault> {
    let mut constants = Vec::new();
    for month in 1..=12 {
        for column in ["alpha", "beta", "gamma", "delta", "K"] {
            constants.push(table.constant(When::new(0, month), column)?);
        }
    }
    Ok(constants)
}

/// Soil in thousandths of an inch: capacity, surface layer, underlying layer.
pub type Soil = [i32; 3];

/// A run with its columns.
pub struct Card {
    pub run: Run,
    x: [Vec<i32>; 4],
    mark: Vec<u8>,
    records: Vec<Record>,
    v: Vec<i64>,
}

fn done(number: u8, call: &str, when: When) -> Result<(), Fault> {
    match number {
        card::DONE => Ok(()),
        _ => Err(bad(format!("{when}: {call} is refused: {}", card::meaning(number)))),
    }
}

impl Card {
    /// A run that starts with this month, and columns for so many.
    pub fn start(constants: &[i32], soil: Soil, when: When, months: usize) -> Result<Card, Fault> {
        let [capacity, surface, underlying] = soil;
        let started = card::start(constants, capacity, surface, underlying, when.month as i32);
        done(started.number, "the start", when)?;
        let x = [(); 4].map(|()| vec![0; months]);
        let records = vec![Record::default(); months];
        Ok(Card { run: started.run, x, mark: vec![0; months], records, v: vec![0; months] })
    }

    /// A run for Z alone: no Z is reckoned with constants or soil, but no K of a run is 0.
    pub fn for_z(when: When, months: usize) -> Result<Card, Fault> {
        Card::start(&[1; card::CONSTANTS], [100, 0, 0], when, months)
    }

    pub fn soil(&self) -> Soil {
        let soil = self.run.soil;
        [soil.capacity, soil.surface, soil.underlying].map(|amount| amount as i32)
    }

    fn columns(&mut self) -> Columns<'_> {
        let [x1, x2, x3, index] = &mut self.x;
        Columns { x1, x2, x3, index, mark: &mut self.mark, records: &mut self.records, v: &mut self.v }
    }

    fn keep(&mut self, added: Added, call: &str, when: When) -> Result<Added, Fault> {
        done(added.number, call, when)?;
        self.run = added.run;
        Ok(added)
    }

    /// Adds a month of precipitation and PE, in thousandths of an inch.
    pub fn add_water(&mut self, when: When, p: i32, pe: i32) -> Result<Added, Fault> {
        let (run, p, pe) = (self.run, Reading::whole(p), Reading::whole(pe));
        let added = card::add_water(run, p, pe, &mut self.columns());
        self.keep(added, "the month's water", when)
    }

    /// Adds a Z, in thousandths.
    pub fn add_z(&mut self, when: When, z: i32) -> Result<Added, Fault> {
        let run = self.run;
        let added = card::add_z(run, z, &mut self.columns());
        self.keep(added, "the month's Z", when)
    }

    /// The index of a month, counted from 0, as it stands now.
    pub fn index(&mut self, when: When, month: usize) -> Result<i32, Fault> {
        let run = self.run;
        let shown = card::row(run, month, &self.columns());
        done(shown.number, "the month's row", when)?;
        Ok(shown.index)
    }

    /// The constants that come of the run's own record.
    pub fn work_out(&mut self, weights: &[i32]) -> WorkedOut {
        let run = self.run;
        card::work_out(run, weights, &self.columns())
    }

    /// The sums of a calendar month.
    pub fn sums(&mut self, when: When, month: i32) -> Result<Sums, Fault> {
        let run = self.run;
        let summed = card::sum_month(run, month, &self.columns());
        done(summed.number, "a month's sums", when)?;
        Ok(summed.sums)
    }
}
