//! A station's constants out of its own record, as the library works them out. tests/round_trip.py prints the record, and by
//! a reckoning of its own makes the lines that must come of it.

use crate::card::{self, Sums};
use crate::runs::{Card, Soil};
use crate::tables::{bad, unreadable, Fault, When, MONTHS};

/// A lost set of constants: any that a start takes will do.
const LOST: [i32; 5] = [0, 0, 0, 0, 1];

/// A run of the record.
struct Station {
    card: Card,
    soil: Soil,
    next: When,
    weights: Vec<i32>,
}

impl Station {
    fn start(soil: Soil, month: u32) -> Result<Station, Fault> {
        let next = When::new(1, month);
        let card = Card::start(&LOST.repeat(12), soil, next, card::MOST_MONTHS)?;
        Ok(Station { card, soil, next, weights: Vec::new() })
    }

    fn add(&mut self, [p, pe]: [i32; 2]) -> Result<(), Fault> {
        self.card.add_water(self.next, p, pe)?;
        self.next = When::new(self.next.year + self.next.month / 12, self.next.month % 12 + 1);
        Ok(())
    }

    /// What the library answers: its number, and of each calendar month the constants, D and the sums. What it answers with 0 a
    /// start must take.
    fn ask(&mut self, name: &str) -> Result<Vec<String>, Fault> {
        let worked = self.card.work_out(&self.weights);
        let mut lines = vec![format!("{name}: {}", worked.number)];
        let months = if worked.number == card::DONE { MONTHS.len() } else { 0 };
        for month in 0..months {
            let sums = self.card.sums(self.next, month as i32 + 1)?;
            let (constants, d) = (&worked.constants[5 * month..][..5], worked.departures[month] as i32);
            let figures = [constants, &[d], &listed(&sums)].concat();
            let figures: Vec<String> = figures.iter().map(i32::to_string).collect();
            lines.push(format!("{} {}", MONTHS[month], figures.join(" ")));
        }
        if worked.number == card::DONE {
            Card::start(&worked.constants, self.soil, self.next, 1)?;
        }
        Ok(lines)
    }
}

fn listed(s: &Sums) -> [i32; 8] {
    [s.et, s.pe, s.r, s.pr, s.ro, s.pro, s.l, s.pl].map(|sum| sum as i32)
}

/// The numbers of a line, so many as are wanted.
fn numbers<const N: usize>(text: &str) -> Option<[i32; N]> {
    let found: Option<Vec<i32>> = text.split(' ').map(|word| word.parse().ok()).collect();
    found?.try_into().ok()
}

/// One line of the record; hands back what the card answers to it.
fn take(station: &mut Option<Station>, line: &str) -> Result<Vec<String>, Fault> {
    let no_line = || bad(format!("this is no line of a record: {line}"));
    let (word, rest) = line.split_once(' ').ok_or_else(no_line)?;
    if word == "start" {
        let [capacity, surface, underlying, month] = numbers(rest).ok_or_else(no_line)?;
        *station = Some(Station::start([capacity, surface, underlying], month as u32)?);
        return Ok(Vec::new());
    }
    let station = station.as_mut().ok_or_else(no_line)?;
    match word {
        "weights" => station.weights = numbers::<{ card::WEIGHTS }>(rest).ok_or_else(no_line)?.to_vec(),
        "add" => station.add(numbers(rest).ok_or_else(no_line)?)?,
        "ask" => return station.ask(rest),
        _ => return Err(no_line()),
    }
    Ok(Vec::new())
}

/// What the card answers, in the order of the record.
pub fn answers(record: &str) -> Result<Vec<String>, Fault> {
    let text = std::fs::read_to_string(record).map_err(|error| unreadable(record, error))?;
    let (mut station, mut lines) = (None, Vec::new());
    for line in text.lines() {
        lines.extend(take(&mut station, line)?);
    }
    Ok(lines)
}
